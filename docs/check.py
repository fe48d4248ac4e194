#!/usr/bin/env python3
"""Checks that the pages are true: their links lead somewhere, and each command with a stated output gives it.

usage: docs/check.py [PROGRAM | --write]

Without PROGRAM only what needs none is checked. That the gate has a test for each of these commands is checked by the
table of crates/leancheck/src/page_tests.rt, which --write writes. A command is a code span or a line of an indented block
that begins with `./leancheck`, as `./leancheck check < FILE` or `./leancheck trim --name X < FILE`: words between single
spaces, and where it reads one the file, and no pipe behind it. Its output is the block or the code span behind the word
`prints`, and its status stands before that (`with status 1`). In a block of a shell session the lines behind `$ COMMAND`
are its output. The status is 1 where anything differs.
"""
import os
import re
import subprocess
import sys

TOP = os.path.dirname(os.path.dirname(os.path.abspath(__file__)))
PAGES = ['README.md', 'examples/README.md', 'examples/malformed/README.md', 'hostile/README.md'] + sorted(
    f'docs/{name}' for name in os.listdir(f'{TOP}/docs') if name.endswith('.md'))
WORDS_OF_README = 1300
TESTS = 'crates/leancheck/src/page_tests.rt'
wrong = []


def tell(page, what):
    wrong.append(what)
    print(f'{page}: {what}')


def read(page):
    with open(f'{TOP}/{page}', encoding='utf-8') as file:
        return file.read()


def anchors(text):
    """The anchors of a page's headings, as they are made of their words."""
    found = set()
    for heading in re.findall(r'^#+ (.*)$', text, re.M):
        plain = re.sub(r'[^\w\- ]', '', re.sub(r'\[([^\]]*)\]\([^)]*\)', r'\1', heading).lower())
        found.add(plain.replace(' ', '-'))
    return found


def check_links(page, text):
    for target in re.findall(r'\]\(([^)\s]+)\)', re.sub(r'`[^`\n]*`', '', text)):
        if '://' in target:
            continue
        path, _, anchor = target.partition('#')
        goal = os.path.normpath(os.path.join(os.path.dirname(page), path)) if path else page
        if not os.path.exists(f'{TOP}/{goal}'):
            tell(page, f'the link {target} leads nowhere')
        elif anchor and anchor not in anchors(read(goal)):
            tell(page, f'the link {target} has no such heading')


def check_crates():
    """ARCHITECTURE names each crate of crates.txt in a table, and no other."""
    listed = {line.split(':')[0].split()[0] for line in read('crates.txt').splitlines()
              if ':' in line and not line.startswith('#')}
    named = {name for row in re.findall(r'^\| (`[^|]*) \|', read('docs/ARCHITECTURE.md'), re.M)
             for name in re.findall(r'`(\w+)`', row)}
    for name in sorted(listed - named):
        tell('docs/ARCHITECTURE.md', f'the crate {name} is missing')
    for name in sorted(named - listed):
        tell('docs/ARCHITECTURE.md', f'there is no crate {name}')


def block_behind(lines, at):
    """The next block of code from a line on, without its indent, and the line behind it."""
    while at < len(lines) and not lines[at].startswith(('    ', '```')):
        if lines[at].strip() and not lines[at - 1].rstrip().endswith(('prints', ',')):
            return None, at
        at += 1
    found = []
    if at < len(lines) and lines[at].startswith('```'):
        at += 1
        while not lines[at].startswith('```'):
            found.append(lines[at])
            at += 1
        return found, at + 1
    while at < len(lines) and lines[at].startswith('    '):
        found.append(lines[at][4:])
        at += 1
    return found, at


def stated(text):
    """(command, output, status) of each command whose output a page states."""
    lines = text.split('\n')
    for at, line in enumerate(lines):
        for command, middle, inline in re.findall(r'`(\./leancheck [^`]*)`([^`]*?\bprints\b[^`]*)(?:`([^`]*)`)?', line):
            status = re.search(r'with status (\d+)', middle)
            output = [inline] if inline else block_behind(lines, at + 1)[0]
            if output:
                yield command, output, int(status.group(1)) if status else None
        if line.startswith('    ./leancheck ') and at + 2 < len(lines) and lines[at + 2].startswith('prints'):
            status = re.search(r'with status (\d+)', lines[at + 2])
            output = block_behind(lines, at + 3)[0]
            if output:
                yield line.strip(), output, int(status.group(1)) if status else None
        if line.startswith('$ ./leancheck '):
            end = at + 1
            while lines[end] and not lines[end].startswith(('$', '```')):
                end += 1
            status = int(lines[end + 1]) if lines[end] == '$ echo $?' else None
            yield line[2:], lines[at + 1:end], status


def files_stated(text):
    """(file, output, status) of FORMAT's table of faulty files, and of its file with a verdict."""
    rows = re.findall(r'^\| (`.*`)(, its last line twice)? \| (\d+) `(\w+)` \|$', text, re.M)
    for files, twice, line, word in rows:
        for file in re.findall(r'`([^`]*)`', files):
            lines = [part.strip() for part in file.split('/')]
            lines += lines[-1:] if twice else []
            yield '\n'.join(lines) + '\n', f'bad line {line} {word}\n', 3
    blocks = re.findall(r'^```\n(.*?)^```$', text, re.M | re.S)
    for file, output in zip(blocks, blocks[1:]):
        if re.match(r'\d+ #', file) and re.match(r'(yes|no) ', output):
            yield file, output, 1 if 'no ' in output.split('\n')[0] else 0


def rows_stated():
    """(page, words, input, output, status) of all that the pages state, each once."""
    found = []
    for page in PAGES:
        text = read(page)
        for command, output, status in stated(text):
            words, _, file = command[2:].partition(' < ')
            if file and not os.path.isfile(f'{TOP}/{file}'):
                tell(page, f'{command} has a stated output, and reads no file that is here')
                continue
            found.append((page, words, read(file) if file else '', '\n'.join(output) + '\n', status or 0))
        if page == 'docs/FORMAT.md':
            found += [(page, 'leancheck check', *row) for row in files_stated(text)]
    return [row for at, row in enumerate(found) if row[1:] not in [other[1:] for other in found[:at]]]


def check_rows(program):
    for page, words, file, output, status in rows_stated():
        ran = subprocess.run([program, *words.split(' ')[1:]], input=file.encode(), capture_output=True)
        if (ran.stdout.decode(), ran.returncode) != (output, status):
            tell(page, f'{words} on {file!r} gives {ran.stdout.decode()!r}, {ran.returncode}')
    print(f'{len(rows_stated())} commands and files')


def literal(text):
    """A byte string of Rust."""
    shown = ''.join('\\n' if c == 10 else chr(c) if 32 <= c < 127 and chr(c) not in '"\\' else f'\\x{c:02x}'
                    for c in text.encode())
    return f'b"{shown}"'


def tests():
    """The table of tests by which the gate runs what the pages state."""
    statuses = {0: 'AllYes', 1: 'SomeNo', 3: 'BadFile', 7: 'NoSuchName'}
    rows = [f'    (\n        "{words}",\n        {literal(file)},\n        {literal(output)},\n        '
            f'Status::{statuses[status]},\n    ),\n' for _, words, file, output, status in rows_stated()]
    return f'''//! Rows: what the pages state of commands and files. `docs/check.py --write` writes this table.

use crate::status::Status;
use crate::tests::is_row;
use std::test::Fail;

// Words, input, output, status.
const ROWS: [(&str, &[u8], &[u8], Status); {len(rows)}] = [
{''.join(rows)}];

#[test]
fn rows_of_the_pages(rt: HostRuntime) -> Result<(), Fail> {{
    let alloc = rt.alloc();
    for (line, bytes, written, status) in ROWS {{
        assert!(rt; is_row(&rt, alloc, line, bytes, written, status)?);
    }}
    Ok(())
}}
'''


def main():
    if len(sys.argv) > 2:
        sys.exit(__doc__)
    for page in PAGES:
        check_links(page, read(page))
    check_crates()
    if sys.argv[1:] == ['--write']:
        with open(f'{TOP}/{TESTS}', 'w', encoding='utf-8') as file:
            file.write(tests())
    elif len(sys.argv) == 2:
        check_rows(os.path.abspath(sys.argv[1]))
    if read(TESTS) != tests():
        tell(TESTS, 'the table is not that of the pages: docs/check.py --write')
    words = len(read('README.md').split())
    if words > WORDS_OF_README:
        tell('README.md', f'{words} words, {WORDS_OF_README} at most')
    return 1 if wrong else 0


if __name__ == '__main__':
    sys.exit(main())
