"""Repositories of their own for the programs that trials try the crates by."""

import os
import shutil
import sys

HERE = os.path.dirname(os.path.abspath(__file__))
ROOT = os.path.join(HERE, "..")


def prepare(folder, name, below):
    """Makes a folder a repository with the program of this name and copies of the crates below it."""
    sys.path.insert(0, os.path.join(ROOT, "bench", "machine"))
    from build import listed, needed
    lines = listed()
    wanted = needed(below, lines)
    for crate in wanted:
        shutil.copytree(os.path.join(ROOT, "crates", crate), os.path.join(folder, "crates", crate),
                        symlinks=True, ignore=shutil.ignore_patterns("must-fail", "out"))
    sources = os.path.join(folder, "crates", name, "src")
    os.makedirs(sources)
    for file in os.listdir(os.path.join(HERE, name, "src")):
        shutil.copy(os.path.join(HERE, name, "src", file), os.path.join(sources, file.removesuffix(".source")))
    with open(os.path.join(folder, "crates.txt"), "w") as file:
        file.writelines(f"{crate}:{lines[crate]}\n" for crate in lines if crate in wanted)
        file.write(f"{name}: {' '.join(below)}\n")
    return os.path.join(folder, "crates", name)


def plant(folder, crate, name):
    """Makes the edit of a file of must-fail in the copy of a crate."""
    with open(os.path.join(ROOT, "crates", crate, "must-fail", name + ".edit")) as file:
        lines = dict(line.rstrip("\n").split(": ", 1) for line in file if ": " in line)
    path = os.path.join(folder, "crates", crate, lines["file"])
    with open(path) as file:
        text = file.read()
    if text.count(lines["old"]) != 1:
        sys.exit(f"{name}: what it replaces doesn't stand there once")
    with open(path, "w") as file:
        file.write(text.replace(lines["old"], lines["new"]))
