"""Tests of the tools that make reads, writes and requests for memory fail, on a small program in C in place of the proved
one; and of the cases that tools/failing-cases makes. What needs a C compiler, or the proved program, says that it is
skipped where there is none."""
import shutil
import subprocess
import sys
import tempfile
import unittest
from contextlib import redirect_stdout
from io import StringIO

from lib.crates import TOP
from lib.faults import End, Script, first_case, lines_of_file, section_of, stored_script
from lib.preloaded import compiled
from lib.program import PROGRAM, is_current
from lib.sessions import Run, session_fault
from test_tools import Folder, tool

# A program that holds one line: `source` and a body sets its last line, `show` tells it, and each other line is `ok done`.
# With -DFAULT=N it is wrong in one way.
STAND_IN = r'''
#include <stdlib.h>
#include <string.h>
#include <unistd.h>

#ifndef FAULT
#define FAULT 0
#endif

static char buffer[8192], line[8192];
static size_t begin, end;
static char *held, *made;
static int has_read_ahead;

/* The next line without its LF: 1, or 0 at the end, or -1 where a read fails. */
static int next_line(void) {
    for (size_t length = 0;; length++) {
        if (begin == end) {
            ssize_t count = read(0, buffer, sizeof buffer);
            if (count < 0 || (count == 0 && length))
                return -1;
            if (count == 0)
                return 0;
            begin = 0;
            end = count;
        }
        line[length] = buffer[begin++];
        if (line[length] == '\n') {
            line[length] = 0;
            return 1;
        }
    }
}

static int tell(const char *text) {
    size_t done = 0, length = strlen(text);
    if (FAULT == 1 && begin == end && !has_read_ahead) { /* reads before it writes */
        has_read_ahead = 1;
        ssize_t count = read(0, buffer, sizeof buffer);
        if (count < 0)
            return 1;
        begin = 0;
        end = count;
    }
    while (done < length) {
        ssize_t count = write(1, text + done, length - done);
        if (count < 0)
            return FAULT == 2 ? 0 : 2; /* goes on behind a failed write */
        done += count;
    }
    return 0;
}

/* A copy of the line as a reply, or NULL where there is no memory. */
static char *copy(void) {
    char *text = malloc(strlen(line) + 4);
    if (text)
        strcat(strcpy(text, line), "\n.\n");
    else if (FAULT == 4)
        abort();
    return text;
}

static int answer(void) {
    int is_source = strcmp(line, "source") == 0;
    int has_no_memory = 0;
    while (is_source) {
        int got = next_line();
        if (got < 1)
            return got < 0 ? 1 : 4;
        if (strcmp(line, ".") == 0)
            break;
        free(made);
        made = copy();
        has_no_memory |= !made;
        if (!made && FAULT == 3) { /* loses what it held */
            free(held);
            held = NULL;
        }
        if (!made && FAULT == 5) /* leaves the body unread */
            return tell("no 1\n");
    }
    if (has_no_memory)
        return tell("no 1\n");
    if (is_source) {
        free(held);
        held = made;
        made = NULL;
    }
    return tell(strcmp(line, "show") ? "ok done\n" : held ? held : ".\n");
}

int main(void) {
    if (!(made = malloc(1)))
        return FAULT == 6 ? tell("no 1\n") + 3 : 3;
    for (;;) {
        int got = next_line();
        if (got < 1)
            return got < 0 ? (FAULT == 7 ? 0 : 1) : 0;
        int status = answer();
        if (status)
            return status;
    }
}
'''
SESSION = b'source\n(a\n)a\n.\nshow\nsource\n(b\n)b\n.\nshow\ntext source /1/1 x\nshow\n'
WRITTEN = b'ok done\n)a\n.\nok done\n)b\n.\nok done\n)b\n.\n'

failing_cases, fail_io, refuse_memory = tool('failing-cases'), tool('fail-io'), tool('refuse-memory')

NO_COMPILER = None if shutil.which('cc') else 'there is no C compiler `cc`'
NO_PROGRAM = NO_COMPILER or (None if PROGRAM.is_file() and is_current() else 'the proved program is not built and current')


def setUpModule():
    """Says what is skipped, since `-q` does not."""
    for skipped, why in ('the tests on a small program in C', NO_COMPILER), ('those on the proved program', NO_PROGRAM):
        if why:
            print(f'test_hostile: {skipped} are skipped: {why}', file=sys.stderr)


class Judging(unittest.TestCase):
    """What the judge of whole sessions says of replies in batches."""

    def fault(self, session, *replies):
        data = 'source\n(a\n)a\n.\n' + ''.join(line + '\n' for line in session.split(', '))
        written = 'ok refused S01 -\n' + ''.join(reply + '\n' for reply in replies)
        return session_fault(data.encode(), Run(0, written.encode(), b'', 0))[0]

    def test_what_is_right(self):
        tree, other, pending, refused = '(a\n)a\n.', '(b\n)b\n.', 'ok pending', 'ok refused S01 -'
        for session, replies in [
                ('begin, rename source /1 b, dump source, commit, dump source', [pending, pending, other, refused, other]),
                ('begin, rename source /1 b, begin x, abandon, dump source', [pending, pending, 'no 4', 'ok dropped', tree]),
                ('begin, show, begin, commit, commit', [pending, 'refused S01 -', 'no 16', refused, 'no 17']),
                ('begin, begin, commit, abandon', ['no 1', pending, 'no 1', 'ok dropped'])]:
            self.assertIsNone(self.fault(session, *replies))

    def test_a_batch_that_is_open_or_not(self):
        done, pending = 'ok refused S01 -', 'ok pending'
        for session, replies in [
                ('begin, rename source /1 b', [pending, done]), ('rename source /1 b', [pending]), ('begin', [done]),
                ('begin', ['no 16']), ('commit', [done]), ('abandon', ['ok dropped']), ('commit', ['no 16']),
                ('begin, commit', [pending, 'no 17']), ('begin, commit', [pending, pending]),
                ('begin, abandon', [pending, done]), ('begin, begin', [pending, pending]), ('begin x', [pending])]:
            self.assertIsNotNone(self.fault(session, *replies), session)

    def test_what_is_told_of_the_pending_and_the_present(self):
        tree, other, pending, refused = '(a\n)a\n.', '(b\n)b\n.', 'ok pending', 'refused S01 -'
        edit = 'begin, rename source /1 b'
        for session, replies in [
                (f'show, {edit}, show', [refused, pending, pending, 'refused S02 -']),
                (f'dump source, {edit}, abandon, dump source', [tree, pending, pending, 'ok dropped', other]),
                (f'{edit}, dump source, commit, dump source', [pending, pending, other, f'ok {refused}', tree])]:
            self.assertIn('was answered otherwise', self.fault(session, *replies))
        self.assertIn('does not fit', self.fault(f'{edit}, show', pending, pending, 'refused S02 -'))


class Definitions(unittest.TestCase):
    def setUp(self):
        self.script = Script(SESSION, WRITTEN)

    def test_a_read_that_fails(self):
        self.assertEqual(self.script.ends[:2], [len(b'source\n(a\n)a\n.\n'), len(b'source\n(a\n)a\n.\nshow\n')])
        self.assertEqual(self.script.read_failed(0), End(1, b''))
        self.assertEqual(self.script.read_failed(self.script.ends[0] - 1), End(1, b''))
        self.assertEqual(self.script.read_failed(self.script.ends[0]), End(1, b'ok done\n'))
        self.assertEqual(self.script.read_failed(len(SESSION)), End(1, WRITTEN))

    def test_a_write_that_fails(self):
        self.assertEqual(self.script.write_failed(1), End(2, b''))
        self.assertEqual(self.script.write_failed(3), End(2, b'ok done\n)a\n.\n'))

    def test_replies_that_are_too_few(self):
        with self.assertRaises(ValueError):
            Script(SESSION + b'show\n', WRITTEN)

    def test_a_last_line_without_line_feed(self):
        with self.assertRaises(ValueError):
            Script(SESSION[:-1], WRITTEN)


class Cases(unittest.TestCase):
    def test_those_that_are_stored_are_those_that_are_made(self):
        made = failing_cases.sections(stored_script(), first_case(lines_of_file('stdin')))
        for name, section in zip(('stdin', 'stdout'), made):
            lines = lines_of_file(name)
            begin, end = section_of(lines)
            self.assertEqual(lines[begin:end], section, f'{name}: tools/failing-cases --write stores them')

    def test_each_call_fails_once(self):
        script = stored_script()
        rows = list(failing_cases.cases_of(script))
        reads = -(-len(script.data) // failing_cases.PIECE) + 1
        self.assertEqual(len(rows), (reads + 2) + (len(script.replies) + 1) + 3 * len(script.replies) + 1)
        self.assertEqual({end.status for *_, end in rows}, {0, 1, 2})
        for name, _, _, end in rows:
            self.assertTrue(script.undisturbed().written.startswith(end.written), name)


class StandIn(Folder):
    """Tests with the small program in place of the proved one."""

    def program(self, fault=0):
        source = self.file('stand_in.c', STAND_IN)
        path = self.folder / f'stand_in_{fault}'
        subprocess.run(['cc', '-O1', '-fno-builtin', f'-DFAULT={fault}', '-o', path, source], check=True)
        return path


@unittest.skipIf(NO_COMPILER, NO_COMPILER)
class FailIo(StandIn):
    def bench(self, fault=0):
        return fail_io.Bench(self.program(fault), compiled('failing.c', self.folder), self.folder, Script(SESSION, WRITTEN))

    def counts(self, bench, *turns):
        with redirect_stdout(StringIO()):
            for turn, *most in turns:
                turn(*most)
        return bench.tried, bench.wrong

    def test_one_that_is_right(self):
        bench = self.bench()
        reads = 2 + -(-len(SESSION) // 9) + 1
        writes = 6 + sum(-(-len(reply) // 5) for reply in bench.script.replies)
        turns = [(bench.failing_reads, 0), (bench.failing_reads, 9), (bench.failing_writes, 0), (bench.failing_writes, 5)]
        self.assertEqual(self.counts(bench, *turns, (bench.failing_at_commands,)), (reads + 4 + writes + 2 + 6, 0))

    def test_one_that_reads_before_it_writes(self):
        bench = self.bench(1)
        self.assertGreater(self.counts(bench, (bench.failing_at_commands,))[1], 0)

    def test_one_that_goes_on_behind_a_failed_write(self):
        bench = self.bench(2)
        self.assertEqual(self.counts(bench, (bench.failing_writes, 0)), (7, 6))

    def test_one_that_takes_a_failed_read_for_the_end(self):
        bench = self.bench(7)
        self.assertEqual(self.counts(bench, (bench.failing_reads, 0)), (4, 2))


@unittest.skipIf(NO_COMPILER, NO_COMPILER)
class RefuseMemory(StandIn):
    def counts(self, fault=0):
        script = refuse_memory.Script(self.program(fault), compiled('refusing.c', self.folder), self.folder, SESSION)
        with redirect_stdout(StringIO()):
            return refuse_memory.tried('a session', script, calls=0)

    def test_one_that_is_right(self):
        # One request at the start, and one for each line of a body.
        self.assertEqual(self.counts(), (2 * (5 + 1), 0))

    def test_one_that_loses_what_it_held(self):
        self.assertGreater(self.counts(3)[1], 0)

    def test_one_that_a_signal_ends(self):
        self.assertGreater(self.counts(4)[1], 0)

    def test_one_that_leaves_a_body_unread(self):
        self.assertGreater(self.counts(5)[1], 0)

    def test_one_that_writes_before_it_ends_with_3(self):
        self.assertGreater(self.counts(6)[1], 0)

    def test_which_requests_are_tried(self):
        self.assertEqual(list(refuse_memory.numbers(5, 0)), [1, 2, 3, 4, 5, 6])
        self.assertEqual(list(refuse_memory.numbers(100, 5)), [*range(1, 101, 5), 101])
        self.assertEqual(list(refuse_memory.numbers(7, 5)), [1, 2, 3, 4, 5, 6, 7, 8])


@unittest.skipIf(NO_PROGRAM, NO_PROGRAM)
class Program(unittest.TestCase):
    """The proved program, in whole pieces alone, which takes a second."""

    def test_each_read_and_each_write_fails(self):
        with tempfile.TemporaryDirectory() as folder, redirect_stdout(StringIO()) as said:
            bench = fail_io.Bench(PROGRAM, compiled('failing.c', folder), folder, stored_script())
            bench.failing_reads(0)
            bench.failing_writes(0)
            bench.failing_at_commands()
        self.assertEqual(bench.wrong, 0, said.getvalue())


if __name__ == '__main__':
    unittest.main()
