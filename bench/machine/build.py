"""Builds programs over what the checks of the crates have kept."""
import os
import shutil
import subprocess

HERE = os.path.dirname(os.path.abspath(__file__))
ROOT = os.path.join(HERE, '..', '..')


def needed(names, lines):
    """The crates of the repository that these stand on, themselves among them."""
    found, left = set(), list(names)
    while left:
        name = left.pop()
        if name in lines and name not in found:
            found.add(name)
            left += lines[name].split()
    return found


def listed():
    """What crates.txt says that each crate uses, by its name."""
    with open(os.path.join(ROOT, 'crates.txt')) as file:
        return dict(line.rstrip('\n').split(':') for line in file if line[0].isalpha())


def build(folder, name, *below):
    """The binary of the program in the folder of this name, built in a repository of its own that is
    made in `folder`."""
    crates = os.path.join(folder, 'crates')
    lines = listed()
    wanted = needed(below, lines)
    for crate in wanted:
        shutil.copytree(os.path.join(ROOT, 'crates', crate), os.path.join(crates, crate),
                        symlinks=True, ignore=shutil.ignore_patterns('must-fail'))
    sources = os.path.join(crates, name, 'src')
    os.makedirs(sources)
    origin = os.path.join(HERE, name, 'src')
    for file in os.listdir(origin):
        shutil.copy(os.path.join(origin, file), os.path.join(sources, file.removesuffix('.source')))
    with open(os.path.join(folder, 'crates.txt'), 'w') as file:
        file.writelines(f'{crate}:{lines[crate]}\n' for crate in lines if crate in wanted)
        file.write(f'{name}: {" ".join(below)}\n')
    subprocess.run(['rt', 'run'], cwd=os.path.join(crates, name), stdout=subprocess.DEVNULL,
                   stderr=subprocess.DEVNULL, check=False)
    return os.path.join(crates, name, 'out', name)
