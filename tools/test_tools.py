"""Tests of what the tools share, and of tools/build, by a prover that only says what the real one says.

    python3 -m unittest

in this folder. No crate is proved, and no program is needed.
"""
import os
import shutil
import stat
import subprocess
import sys
import tempfile
import unittest
from contextlib import redirect_stdout
from importlib.machinery import SourceFileLoader
from importlib.util import module_from_spec, spec_from_loader
from io import StringIO
from pathlib import Path
from unittest import mock
from xml.etree import ElementTree

from lib import records
from lib.crates import TOP, below, copy_repository, dependencies, name_of
from lib.picture import crates_picture, drawn_crates, heights, reduced
from lib.program import NOT_BUILT


def tool(name):
    """A tool, as a module."""
    sys.dont_write_bytecode = True
    loader = SourceFileLoader(name, str(TOP / 'tools' / name))
    module = module_from_spec(spec_from_loader(name, loader))
    loader.exec_module(module)
    return module


build = tool('build')

# What the gate says, over a copy that it is run in: the first crates were proved before.
PROVER = '''#!/usr/bin/env python3
import pathlib, sys
names = [line.split(':')[0] for line in open('crates.txt') if ':' in line.split('#')[0]]
for name in names:
    print(f'== {name}\\nfn {name}::a: proved')
    if name == FAULTY:
        print(f'fn {name}::b: no proof\\nrt: {name} NOT PROVED')
        sys.exit(1)
    print(f'rt: {name} is kept: an earlier run' if name.startswith('spec_') else f'rt: {name} proved', flush=True)
out = pathlib.Path('crates/xt_cli/out')
out.mkdir(parents=True)
(out / 'xt_cli').write_text('the program')
'''


class Folder(unittest.TestCase):
    """Tests with files in a folder of their own."""

    def setUp(self):
        folder = tempfile.TemporaryDirectory()
        self.addCleanup(folder.cleanup)
        self.folder = Path(folder.name).resolve()

    def file(self, name, text, mode=0o644):
        path = self.folder / name
        path.parent.mkdir(parents=True, exist_ok=True)
        path.write_text(text)
        path.chmod(mode)
        return path


class Crates(Folder):
    def test_the_lowest_come_first(self):
        crates, seen = dependencies(), set()
        for name, names in crates.items():
            self.assertLessEqual(set(names), seen)
            seen.add(name)

    def test_what_is_below(self):
        crates = {'a': [], 'b': ['a'], 'c': ['b'], 'd': ['a', 'c']}
        self.assertEqual(below('d', crates), {'a', 'b', 'c'})
        self.assertEqual(below('a', crates), set())

    def test_lines_without_a_crate(self):
        self.assertEqual([name_of(line) for line in ('', '# a: b', 'a: b # c', 'a:')], [None, None, 'a', 'a'])

    def test_a_copy_of_some(self):
        copy_repository(self.folder, ['spec_lines', 'xt_rank'], without=('out', 'must-fail'))
        self.assertEqual(sorted(path.name for path in self.folder.glob('crates/*')), ['spec_lines', 'xt_rank'])
        named = [name_of(line) for line in (self.folder / 'crates.txt').read_text().split('\n')]
        self.assertEqual([name for name in named if name], ['spec_lines', 'xt_rank'])
        self.assertFalse((self.folder / 'crates' / 'xt_rank' / 'must-fail').exists())


class Pictures(unittest.TestCase):
    def test_what_is_left_out_is_reached(self):
        crates = drawn_crates()
        direct = reduced(crates)
        for name in crates:
            self.assertEqual(below(name, direct), below(name, crates))

    def test_heights_are_the_longest_ways(self):
        self.assertEqual(heights({'a': [], 'b': ['a'], 'c': ['a', 'b'], 'd': []}), {'a': 0, 'b': 1, 'c': 2, 'd': 0})

    def test_each_crate_has_a_box(self):
        picture = crates_picture()
        for name in drawn_crates():
            self.assertEqual(picture.count(f'>{name}</text>'), 1)
        self.assertLess(len(picture), 60_000)

    def test_each_record_is_run_or_kept(self):
        for edit in records.EDITS:
            self.assertLessEqual(edit.anew, {records.ROOT, *edit.items})
        anew = sum(len(edit.anew) for edit in records.EDITS)
        ElementTree.fromstring(records.records_picture())
        # One box more tells what the colour means.
        self.assertEqual(records.records_picture().count('<rect class="anew"'), anew + 1)


class Models(Folder):
    """The models of clauses in CONTRIBUTING.md, over a file with two functions."""

    SOURCE = '''fn other()
    ensures {}
{
}

pub fn made(
    of: u64,
) -> u64
    requires { of < 9 }
    ensures result { True }
    ensures more { True }
{
    let again = other();
}
'''

    def told(self, row):
        """What check-architecture says of a page with this row."""
        self.file('crates/a.rt', self.SOURCE)
        return list(tool('check-architecture').model_differences(f'\n| {row} | what it shows |\n', self.folder))

    def test_right(self):
        for row in ('`A::made`, `crates/a.rt:6`', '`made`, `crates/a.rt:10`'):
            with self.subTest(row):
                self.assertEqual(self.told(row), [])

    # The row, and what is said of it: it has moved, it is the clause of another, it has no line, no function, and is no model.
    WRONG = [
        ('`made`, `crates/a.rt:11`', 'made is at line 6 or 10 of crates/a.rt, and CONTRIBUTING.md says 11'),
        ('`other`, `crates/a.rt:10`', 'other is at line 1 or 2 of crates/a.rt, and CONTRIBUTING.md says 10'),
        ('`made`, `crates/a.rt`', 'made is at line 6 or 10 of crates/a.rt, and CONTRIBUTING.md says none'),
        ('`mad`, `crates/a.rt:6`', 'crates/a.rt has no function mad, which CONTRIBUTING.md has as a model'),
        ('made, `crates/a.rt:6`', 'CONTRIBUTING.md has no model of a clause'),
    ]

    def test_wrong(self):
        for row, said in self.WRONG:
            with self.subTest(row):
                self.assertEqual(self.told(row), [said])


class IsCurrent(Folder):
    """Whether ./xt runs the program of a small repository, or ends since it is not current."""

    def setUp(self):
        super().setUp()
        shutil.copy2(TOP / 'xt', self.folder / 'xt')
        self.file('crates.txt', 'xt_cli:')
        self.source = self.file('crates/xt_cli/src/main.rt', '')
        self.program = self.file('crates/xt_cli/out/xt_cli', '#!/bin/sh\nexit 7\n', 0o755)

    def check(self, status):
        done = subprocess.run([self.folder / 'xt'], env={**os.environ, 'XT_UNPROVED': 'no'}, stderr=subprocess.DEVNULL)
        self.assertEqual(done.returncode, status)

    def test_a_newer_program_runs(self):
        self.check(7)

    def test_one_that_is_not_there_does_not(self):
        self.program.unlink()
        self.check(NOT_BUILT)

    def test_a_newer_source(self):
        later = self.program.stat().st_mtime + 1
        os.utime(self.source, (later, later))
        self.check(NOT_BUILT)

    def test_a_source_that_is_gone(self):
        self.file('crates/xt_cli/src/old.rt', '').unlink()
        later = self.program.stat().st_mtime + 1
        os.utime(self.source.parent, (later, later))
        self.check(NOT_BUILT)


def only_names(to, names, without):
    """A copy of the repository in which the crates have no files."""
    (to / 'crates.txt').write_text(''.join(f'{name}:\n' for name in names))


class Building(Folder):
    def build(self, faulty=None):
        """Builds into this folder by the prover that only speaks, and gives what is said."""
        self.file('bin/rt', PROVER.replace('FAULTY', repr(faulty)), 0o755)
        path = f'{self.folder / "bin"}{os.pathsep}{os.environ["PATH"]}'
        self.program = self.folder / 'out' / 'xt_cli'
        said = StringIO()
        with mock.patch.dict(os.environ, PATH=path), mock.patch.object(build, 'PROGRAM', self.program), \
                mock.patch.object(build, 'copy_repository', only_names), redirect_stdout(said):
            try:
                build.build()
            except SystemExit as end:
                print(end)
        return said.getvalue()

    def test_all_crates_are_told(self):
        crates = dependencies()
        said = self.build()
        number = len(below('xt_cli', crates)) + 1
        self.assertIn(f'crate {number} of {number}, 0 min: xt_cli is proved', said)
        self.assertIn('spec_lines was proved before', said)
        self.assertEqual(self.program.read_text(), 'the program')

    def test_a_crate_that_is_not_proved(self):
        said = self.build('xt_io')
        self.assertIn('xt_io IS NOT PROVED', said)
        self.assertIn('fn xt_io::b: no proof', said)
        self.assertNotIn('fn xt_io::a', said)
        self.assertFalse(self.program.exists())

    def test_what_is_installed(self):
        program = self.file('xt_cli', 'the program')
        rows = [(program, *build.INSTALLED[0][1:]), *build.INSTALLED[1:]]
        with mock.patch.object(build, 'INSTALLED', rows), redirect_stdout(StringIO()):
            path = build.install(self.folder / 'prefix')
        self.assertEqual((path.read_text(), stat.S_IMODE(path.stat().st_mode)), ('the program', 0o755))
        for place in ('share/man/man1/xt.1', 'lib/xt/xt.py'):
            self.assertTrue((self.folder / 'prefix' / place).is_file())


if __name__ == '__main__':
    unittest.main()
