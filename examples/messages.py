#!/usr/bin/env python3
"""Compares what a person is told, on standard error and in a terminal, with what is expected.

usage: examples/messages.py [--table] PROGRAM

Each case has words, an input, and what standard input and output are. Where an expected text ends with `...`, only what
stands before that counts. With --table the cases are printed as a table, with what was told. The status is 1 where one
differs.
"""
import os
import pty
import select
import subprocess
import sys
import time

HERE = os.path.dirname(os.path.abspath(__file__))
HELP = '\n  leancheck reads an export of a Lean 4 library on standard input, ...'
IDENTITY = '1 #NS 0 p\n2 #NS 0 id\n0 #ES 0\n1 #EV 0\n2 #EV 1\n3 #EP #BD 0 1 2\n4 #EP #BD 1 0 3\n5 #EL #BD 0 1 1\n' \
           '6 #EL #BD 1 0 5\n#THM 2 4 6\n'
DERIVED = '1 #NS 0 a\n0 #ES 0\n#AX 1 0\n#TR\n1 #US 0\n1 #ES 1\n#AT 0\n0 #TY T-Sort 0 1\n#OK 0\n'
SEEMS = 'leancheck: the input seems to be '
NO_NAME = 'leancheck: no declaration has this name; names are as check writes them, such as Nat.rec\n'


def wrong(words, reason):
    return (words, '', 'pipe', 'pipe', 2, reason + HELP)


def fault(text, line, meaning, shown, more='', name=None, command='check'):
    """A case of a file with a fault: its line, what the word means, the line as it is shown, and what else is told."""
    told = f'leancheck: line {line} of the input: {meaning}\nleancheck: the line is: {shown}\n{more}'
    return (command, text, 'pipe', 'pipe', 3, told)


NUMBER = 'a field that has to be a number is none'
SECOND = 'leancheck: numbers do not begin anew, so a second export cannot follow, but in session behind a line #GO\n'
BUDGETS = 'leancheck: recheck and session read no budgets (#BUD); give one for all units by --steps\n'
VERSION = 'leancheck: a version stands in the first line alone; a second export cannot follow, but in session behind a line #GO\n'
# Words, input, what standard input and standard output are, the status, and what is told.
CASES = [
    # nothing where all is well
    ('check', IDENTITY, 'pipe', 'pipe', 0, ''),
    ('make --units 3 --seed 1', '', 'pipe', 'pipe', 0, ''),
    ('trial --units 3 --seed 1', '', 'pipe', 'pipe', 0, ''),
    ('check --allow=', IDENTITY, 'pipe', 'pipe', 0, ''),
    ('trial --units 3 --seed 1 --allow p', '', 'pipe', 'pipe', 0, ''),
    ('trim --name id', IDENTITY, 'pipe', 'pipe', 0, ''),
    ('trace', IDENTITY, 'pipe', 'pipe', 0, ''),
    ('replay', DERIVED, 'pipe', 'pipe', 0, ''),
    ('recheck', IDENTITY + '#GO\n', 'pipe', 'pipe', 0, ''),
    ('session --workers 2 --steps 100', IDENTITY + '#GO\n', 'pipe', 'pipe', 0, ''),
    # words
    wrong('', 'leancheck: no command is given: check, make, trial, trim, trace, replay, recheck or session\n'),
    wrong('chek', "leancheck: unrecognized subcommand 'chek'\n...") ,
    wrong('check more', "leancheck: unexpected argument 'more' found\n"),
    wrong('check --worker 2', "leancheck: unexpected argument '--worker' found\n"),
    wrong('check --workers', "leancheck: a value is required for '--workers <workers>' but none was supplied\n"),
    wrong('check --workers 65', 'leancheck: --workers 65 is out of range: it takes 1 to 64\n'),
    wrong('check --steps 0 --memo x', "leancheck: --steps 0 is out of range: it takes 1 to 18446744073709551615\n"
                                      "leancheck: --memo takes a number in decimal digits, not 'x'\n"),
    wrong('check --workers 1 --workers 2', "leancheck: the argument '--workers <workers>' cannot be used multiple times\n"),
    wrong('check --allow', "leancheck: a value is required for '--allow <allow>' but none was supplied\n"),
    wrong('check --allow --steps 1', "leancheck: a value is required for '--allow <allow>' but none was supplied\n"),
    wrong('check --allow p --allow p', "leancheck: the argument '--allow <allow>' cannot be used multiple times\n"),
    wrong('make --units 3 --seed 1 --allow p', "leancheck: unexpected argument '--allow' found\n"),
    wrong('make --units 3', 'leancheck: the following required arguments were not provided:\n  --seed <seed>\n'),
    wrong('trim', 'leancheck: the following required arguments were not provided:\n  --name <name>\n'),
    wrong('trim --name', "leancheck: a value is required for '--name <name>' but none was supplied\n"),
    wrong('trim --name p --steps 1', "leancheck: unexpected argument '--steps' found\n"),
    wrong('trace --workers 2', "leancheck: unexpected argument '--workers' found\n"),
    wrong('trace --steps 0', 'leancheck: --steps 0 is out of range: it takes 1 to 18446744073709551615\n'),
    wrong('replay --steps 4', "leancheck: unexpected argument '--steps' found\n"),
    wrong('recheck --workers 2', "leancheck: unexpected argument '--workers' found\n"),
    wrong('recheck --steps 0', 'leancheck: --steps 0 is out of range: it takes 1 to 18446744073709551615\n'),
    wrong('session --memo 2', "leancheck: unexpected argument '--memo' found\n"),
    wrong('session --workers 65 --steps 0', 'leancheck: --workers 65 is out of range: it takes 1 to 64\n'
                                            'leancheck: --steps 0 is out of range: it takes 1 to 18446744073709551615\n'),
    wrong('check --name p', "leancheck: unexpected argument '--name' found\n"),
    wrong('make --units 3 --seed 2147483648', 'leancheck: --seed 2147483648 is out of range: it takes 0 to 2147483647\n'),
    wrong('check \x1b[2J', "leancheck: unexpected argument '\\x1b[2J' found\n"),
    wrong('check \udcff', 'leancheck: the words are not all UTF-8\n'),
    wrong('--help', 'leancheck 0.1\n'),
    wrong('-h', 'leancheck 0.1\n'),
    wrong('help', 'leancheck 0.1\n'),
    wrong('check --help', 'leancheck 0.1\n'),
    wrong('--version', 'leancheck 0.1\n'),
    # faults: the line, its bytes, what the word means
    fault('2.0.0\n0 #EV x\n', 2, NUMBER, '0 #EV x'),
    fault('3.0.0\n', 1, 'the first number of the version is not 2', '3.0.0'),
    fault('0 #EQ 1\n', 1, 'no such tag, or a number stands before it that should not, or is missing', '0 #EQ 1'),
    fault('0 #EV 0\n1 #EA 0\n', 2, 'the line ends before a field that is due', '1 #EA 0'),
    fault('0 #ES 0 0\n', 1, 'a field stands behind the last one that is due', '0 #ES 0 0'),
    fault('0 #EA 0 0\n', 1, 'a number of a name, level, expression, rule or premise that no earlier line gives', '0 #EA 0 0'),
    fault('0 #ES 0\n\n0 #ES 0\n', 3, 'the number of the line was given to an earlier one', '0 #ES 0', SECOND),
    fault('2.0.0\n0 #ES 0\n2.0.0\n', 3, NUMBER, '2.0.0', VERSION),
    fault('0 #ELS 6\n', 1, 'a field of a text is not two hexadecimal digits', '0 #ELS 6'),
    fault('0 #ELS C3\n', 1, 'a name or a text is not UTF-8', '0 #ELS C3'),
    fault('0 #EV 4294967296\n', 1, 'a number is above 2^32 - 1, or above 2^64 - 1 in a name, a budget or behind #TR', '0 #EV 4294967296'),
    fault('1 #NS 0 a\n#BUD 1 18446744073709551616\n', 2,
          'a number is above 2^32 - 1, or above 2^64 - 1 in a name, a budget or behind #TR', '#BUD 1 18446744073709551616'),
    fault('0 #ES 0\n1 #EL #BX 0 0 0\n', 2, 'a binder info, a hint, a k or the rule of a derivation is none of its words', '1 #EL #BX 0 0 0'),
    fault('1 #NS 0 T\n0 #ES 0\n#IND 1 0 0 0 0 0 2 1\n', 3,
          'a list has fewer fields than its count says, or does not fit the block', '#IND 1 0 0 0 0 0 2 1'),
    fault('1 #NS 0 T\n0 #ES 0\n' + 2 * '#IND 1 0 0 0 0 0 1 1 0\n', 4,
          'the same type, constructor or recursor stands twice', '#IND 1 0 0 0 0 0 1 1 0'),
    fault('1 #NS 0 T\n2 #NS 1 mk\n0 #ES 0\n#IND 1 0 0 0 0 0 1 1 1 2\n', 4,
          'the block lacks a line: a type or constructor that is listed, or what lists this one',
          '#IND 1 0 0 0 0 0 1 1 1 2'),
    fault('1 #NS 0 ' + 17 * '1000000' + 2 ** 24 * 'x' + '\n', 1, 'the line has more than 2^24 bytes',
          ('1 #NS 0 ' + 17 * '1000000')[:80]),
    fault('0 #ES 0\n' + 200000 * '\n' + '0 #ES 0\n', 200002, 'the number of the line was given to an earlier one', '0 #ES 0',
          SECOND),
    fault('0 #EV \x1b[2K\x07\n', 1, NUMBER, '0 #EV \\x1b[2K\\x07'),
    fault('1 #NS 0 x\n0 #ES 0\n1 #EZ #BD 1 0 0 0\n', 3, NUMBER, '1 #EZ #BD 1 0 0 0',
          'leancheck: lines of lets have no binder info in this format\n'),
    fault('0 #EM 1 2\n', 1, 'no such tag, or a number stands before it that should not, or is missing', '0 #EM 1 2',
          'leancheck: lines of metadata (#EM) are no part of this format\n'),
    fault('#GO\n', 1, 'no such tag, or a number stands before it that should not, or is missing', '#GO',
          'leancheck: lines #GO are for recheck, before changes of a library, and for session, between exports\n'),
    fault(DERIVED, 4, 'no such tag, or a number stands before it that should not, or is missing', '#TR',
          'leancheck: derivations, behind a line #TR, are read by replay alone\n'),
    fault(DERIVED, 4, 'no such tag, or a number stands before it that should not, or is missing', '#TR',
          'leancheck: derivations, behind a line #TR, are read by replay alone\n', command='trace'),
    fault(DERIVED[:-6], 7, 'a line of derivations before #TR or outside of a section, a section out of order or not ended, '
          'or a line that may not follow #TR', '#AT 0', command='replay'),
    fault('#BUD 0 1\n', 1, 'no such tag, or a number stands before it that should not, or is missing', '#BUD 0 1', BUDGETS,
          command='recheck'),
    fault('#BUD 0 1\n', 1, 'no such tag, or a number stands before it that should not, or is missing', '#BUD 0 1', BUDGETS,
          command='session'),
    fault(IDENTITY + '#GO\n' + 2 * IDENTITY, 22, 'the number of the line was given to an earlier one', '1 #NS 0 p', SECOND,
          command='session'),
    fault('2.0.0\n#GO\n2.0.0\n2.0.0\n', 4, NUMBER, '2.0.0', VERSION, command='session'),
    # what the input seems to be
    fault('{"meta":{}}\n', 1, NUMBER, '{"meta":{}}',
          SEEMS + 'NDJSON, format 3 of lean4export; this program reads the text format 2\n'),
    fault(b'\x1f\x8b\x08\x00\n', 1, NUMBER, '\\x1f\\x8b\\x08\\x00',
          SEEMS + 'compressed by gzip; unpack it first, as with: gzip -dc\n'),
    fault(b'\x28\xb5\x2f\xfd\x04\n', 1, NUMBER, '(\\xb5/\\xfd\\x04',
          SEEMS + 'compressed by zstd; unpack it first, as with: zstd -dc\n'),
    fault('2.0.0\r\n1 #NS 0 a\r\n', 1, NUMBER, '2.0.0\\x0d',
          "leancheck: the lines end with CR LF; take the CR away, as with: tr -d '\\r'\n"),
    fault('olean\x02\x00\n', 1, NUMBER, 'olean\\x02\\x00',
          SEEMS + 'an olean file; this program reads what lean4export writes of one\n'),
    fault('import Mathlib\n', 1, NUMBER, 'import Mathlib',
          SEEMS + 'a source file of Lean; this program reads what lean4export writes of its library\n'),
    # cut or empty
    ('session', '#GO\n#GO\n', 'pipe', 'pipe', 0,
     'leancheck: the input has no declaration at all, so nothing was checked; did the exporter fail?\n'),
    ('recheck', '#GO\n#GO\n', 'pipe', 'pipe', 0,
     'leancheck: the input has no declaration at all, so nothing was checked; did the exporter fail?\n'),
    ('check', '', 'pipe', 'pipe', 0, 'leancheck: the input is empty, so nothing was checked; did the exporter fail?\n'),
    ('check', '2.0.0\n1 #NS 0 p\n', 'pipe', 'pipe', 0,
     'leancheck: the input has no declaration at all, so nothing was checked; did the exporter fail?\n'),
    ('check', IDENTITY[:-1], 'pipe', 'pipe', 0, 'leancheck: the last line has no line feed; the export may be cut off\n'),
    fault(IDENTITY[:-3], 10, 'the line ends before a field that is due', '#THM 2 4',
          'leancheck: the input ends in the middle of a line; it may be cut off\n'),
    # a name that no declaration has
    ('trim --name p', IDENTITY, 'pipe', 'pipe', 7, NO_NAME),
    ('trim --name p', IDENTITY[:-1], 'pipe', 'pipe', 7,
     'leancheck: the last line has no line feed; the export may be cut off\n' + NO_NAME),
    # more declarations than a session takes
    ('session', 2 * ('1 #NS 0 p\n0 #ES 0\n' + 32768 * '#AX 1 0\n' + '#GO\n') + IDENTITY, 'pipe', 'pipe', 8,
     'leancheck: the exports have more than 65536 declarations in all, and a session takes no more\n'),
    # reads and writes that fail
    ('check', '', 'folder', 'pipe', 4, 'leancheck: standard input cannot be read: Is a directory (os error 21)\n'),
    ('trim --name p', '', 'folder', 'pipe', 4, 'leancheck: standard input cannot be read: Is a directory (os error 21)\n'),
    ('check', '', 'closed', 'pipe', 4, 'leancheck: standard input cannot be read: Bad file descriptor (os error 9)\n'),
    ('check', IDENTITY, 'pipe', 'full', 5,
     'leancheck: standard output cannot be written, and is not whole: No space left on device (os error 28)\n'),
    ('trim --name id', IDENTITY, 'pipe', 'full', 5,
     'leancheck: standard output cannot be written, and is not whole: No space left on device (os error 28)\n'),
    ('make --units 100000 --seed 1', '', 'pipe', 'head', 5, 'leancheck: standard output was closed before all was written\n'),
    # terminals
    ('check', IDENTITY, 'terminal', 'pipe', 0, 'leancheck: waiting for an export on standard input; Ctrl-D ends it\n'),
    ('make --units 3 --seed 1', '', 'terminal', 'pipe', 0, ''),
]
# An input and what a terminal shows of its verdicts; where it is no terminal the bytes are as they are.
SHOWN = [
    ('1 #NS 0 a\x1b[1A\x1b[2Kb\n0 #ES 0\n#AX 1 0\n',
     'yes axiom 0 a\\x1b[1A\\x1b[2Kb\r\n  axiom a\\x1b[1A\\x1b[2Kb\r\nunits 1 yes 1 no 0 memory 0\r\n'),
    ('1 #NS 0 \u03b1\u009b\u202e\t.\n0 #ES 0\n#AX 1 0\n',
     'yes axiom 0 \u03b1\\xc2\\x9b\\xe2\\x80\\xae\\x09.\r\n  axiom \u03b1\\xc2\\x9b\\xe2\\x80\\xae\\x09.\r\n'
     'units 1 yes 1 no 0 memory 0\r\n'),
]


def read_terminal(main, child):
    """What a terminal gets until the program has ended."""
    got = b''
    while True:
        ready, _, _ = select.select([main], [], [], 0.3)
        if not ready:
            if child.poll() is not None:
                return got
            continue
        try:
            piece = os.read(main, 65536)
        except OSError:
            return got
        if not piece:
            return got
        got += piece


def run(program, words, text, source, sink):
    """(status, standard output, standard error) of a run, of which the source and the sink may be terminals."""
    text = text if isinstance(text, bytes) else text.encode()
    main, side = pty.openpty() if 'terminal' in (source, sink) else (None, None)
    opened = {'folder': HERE, 'full': '/dev/full'}
    stdin = side if source == 'terminal' else subprocess.PIPE
    if source == 'folder':
        stdin = os.open(opened[source], os.O_RDONLY)
    stdout = side if sink == 'terminal' else subprocess.PIPE
    if sink == 'full':
        stdout = os.open(opened[sink], os.O_WRONLY)
    given = [word.encode('utf-8', 'surrogateescape') for word in words.split(' ') if word]
    close = (lambda: os.close(0)) if source == 'closed' else None
    child = subprocess.Popen([program, *given], stdin=stdin, stdout=stdout, stderr=subprocess.PIPE, preexec_fn=close)
    if source == 'terminal':
        time.sleep(0.2)
        for line in text.splitlines(True):
            os.write(main, line)
        os.write(main, b'\x04')
    if sink == 'head':
        child.stdout.read(10)
        child.stdout.close()
        child.stdout = None
    if sink == 'terminal':
        child.stdin.write(text)
        child.stdin.close()
        out = read_terminal(main, child)
        err = child.stderr.read()
    else:
        out, err = child.communicate(text if stdin == subprocess.PIPE else None)
    status = child.wait()
    for handle in (main, side):
        if handle is not None:
            os.close(handle)
    return status, out or b'', err.decode()


def agrees(told, expected):
    """Whether a text is the expected one, of which each `...` stands for anything."""
    at = 0
    pieces = expected.split('...')
    for number, piece in enumerate(pieces):
        found = told.find(piece, at)
        if found < 0 or (number == 0 and found > 0):
            return False
        at = found + len(piece)
    return at == len(told) or pieces[-1] == ''


def main():
    words = sys.argv[1:]
    table = words[:1] == ['--table']
    program = os.path.abspath(words[-1]) if words else sys.exit(__doc__)
    bad = 0
    if table:
        print('| Command | Input | Standard input, output | Status | Standard error |\n|---|---|---|---|---|')
    for words, text, source, sink, status, expected in CASES:
        got, _, told = run(program, words, text, source, sink)
        if table:
            shown = told.split('\n\n')[0] if got == 2 else told
            print(f'| `leancheck {words!r}` | `{text[:60]!r}` | {source}, {sink} | {got} | `{shown!r}` |')
        if got != status or not agrees(told, expected):
            bad += 1
            print(f'leancheck {words} on {text[:60]!r}: status {got}, {told!r}, expected {status}, {expected!r}')
    for text, expected in SHOWN:
        _, shown, _ = run(program, 'check', text, 'pipe', 'terminal')
        _, plain, _ = run(program, 'check', text, 'pipe', 'pipe')
        name = text.split('\n')[0][8:]
        if table:
            print(f'| `leancheck check` | `{text!r}` | pipe, terminal | 0 | shown: `{shown!r}` |')
        if shown.decode() != expected or name.encode() not in plain:
            bad += 1
            print(f'{text!r} is shown as {shown!r}')
    print(f'{len(CASES) + len(SHOWN) - bad} agree, {bad} differ')
    return 1 if bad else 0


if __name__ == '__main__':
    sys.exit(main())
