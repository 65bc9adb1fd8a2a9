"""What crates.txt says, for the scripts of this folder."""

import os
import subprocess

TOP = os.path.dirname(os.path.dirname(os.path.abspath(__file__)))


def lines_of_crates():
    """The line of each crate in crates.txt, by its name."""
    with open(f"{TOP}/crates.txt", encoding="utf-8") as lines:
        return {it.split(":")[0].split()[0]: it for it in lines if ":" in it and not it.startswith("#")}


def on_which(line):
    """The libraries that a crate's line names: of the repository and of the toolchain."""
    return line.split(":")[1].split()


def with_below(crate, lines):
    """A crate and the crates of the repository that it stands on, each after those that it stands on itself."""
    found = []

    def put(name):
        for other in on_which(lines[name]):
            if other in lines and other not in found:
                put(other)
        found.append(name)

    put(crate)
    return found


def lanes():
    """How many checks run side by side."""
    return int(subprocess.run([f"{TOP}/tools/lanes"], stdout=subprocess.PIPE, text=True, check=True).stdout)
