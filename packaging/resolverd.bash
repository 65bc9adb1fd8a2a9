# Completion of resolverd's words for bash: commands first, then files, and the types that are served.
_resolverd() {
    local word=${COMP_WORDS[COMP_CWORD]} place=$COMP_CWORD
    if [ "$place" = 1 ]; then
        mapfile -t COMPREPLY < <(compgen -W "ask check check-config dump help play serve storm trace --help --version" -- "$word")
        return
    fi
    COMPREPLY=()
    case ${COMP_WORDS[1]}:$place in
        ask:5 | trace:4) mapfile -t COMPREPLY < <(compgen -W "A NS CNAME SOA PTR MX TXT AAAA SRV" -- "$word") ;;
        help:2) mapfile -t COMPREPLY < <(compgen -W "ask check check-config dump play serve storm trace" -- "$word") ;;
        storm:2) mapfile -t COMPREPLY < <(compgen -W "--keep" -- "$word"; compgen -f -- "$word") ;;
        ask:3 | check:3 | dump:3 | play:[23] | serve:2 | check-config:2 | trace:2 | storm:*) mapfile -t COMPREPLY < <(compgen -f -- "$word") ;;
    esac
}
complete -o filenames -F _resolverd resolverd
