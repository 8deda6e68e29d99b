"""The crates of the repository as crates.txt has them, and copies of them to work on."""
import shutil
from pathlib import Path

TOP = Path(__file__).resolve().parents[2]
FILE = TOP / 'crates.txt'


def name_of(line):
    """The crate that a line of crates.txt is about, or None where it is about none."""
    head, colon, _ = line.split('#')[0].partition(':')
    return head.split()[0] if colon else None


def dependencies():
    """The crates, lowest first, each with those of the repository that its line names."""
    named = {}
    for line in FILE.read_text().split('\n'):
        if name_of(line):
            named[name_of(line)] = line.split('#')[0].partition(':')[2].split()
    ordered = {}

    def add(name):
        if name in named and name not in ordered:
            for other in named[name]:
                add(other)
            ordered[name] = [other for other in named[name] if other in named]

    for name in named:
        add(name)
    return ordered


def below(name, crates):
    """All crates that this one stands on."""
    found, left = set(), [name]
    while left:
        new = set(crates[left.pop()]) - found
        found |= new
        left += new
    return found


def copy_repository(to, names=None, without=('out',)):
    """Copies what the gate reads of these crates, or of all, without these folders in them: what checks left is in `out`."""
    names = names or dependencies()
    for name in names:
        shutil.copytree(TOP / 'crates' / name, to / 'crates' / name, ignore=shutil.ignore_patterns(*without))
    lines = FILE.read_text().split('\n')
    (to / FILE.name).write_text('\n'.join(line for line in lines if name_of(line) in (None, *names)))
    shutil.copy2(TOP / 'HANDLES', to / 'HANDLES')
