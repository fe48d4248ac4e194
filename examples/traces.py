#!/usr/bin/env python3
"""Traces exports, and has each trace replayed.

traces.py PROGRAM [--replayer WORDS] [--limit SECONDS] FILE..

A FILE is an export, also one packed by gzip. Of each the verdicts of `PROGRAM check` are compared with `PROGRAM trace`: there is a
section for each unit that says yes but for blocks, and for no other; the status is 0 where each unit but blocks has one, else 1; a
file with a fault has the same line and status. Then the trace is replayed, by PROGRAM and, with --replayer, by that one too (words
separated by spaces, as in "python3 oracle.py replay"): each section has to be said `ok`, and of each other unit `none` or `block`.
The last line is how many files were traced, how many had a fault, and how many differ. A line tells of each file that differs.
"""
import gzip
import subprocess
import sys


def run(words, data, limit):
    done = subprocess.run(words, input=data, capture_output=True, timeout=limit)
    return done.stdout, done.returncode


def verdicts(report):
    """Of each unit its verdict, and whether it is a block."""
    told = {}
    for line in report.split(b"\n"):
        if line[:1] == b" ":
            continue
        words = line.split(b" ")
        if words[0] in (b"yes", b"no", b"memory") and len(words) > 2:
            told[int(words[2])] = (words[0], words[1] == b"block")
    return told


def sections(trace):
    return [int(line[4:]) for line in trace.split(b"\n") if line[:4] == b"#AT "]


def replayed(words, trace, told, traced, limit, name):
    text, status = run(words, trace, limit)
    want = []
    for unit in sorted(told):
        if told[unit][1]:
            want.append(b"block %d " % unit)
        elif unit in traced:
            want.append(b"ok %d " % unit)
        else:
            want.append(b"none %d " % unit)
    lines = text.split(b"\n")
    for i, start in enumerate(want):
        if i >= len(lines) or not lines[i].startswith(start):
            return "%s says %r, not %r" % (name, lines[i : i + 1], start)
    wanted = 1 if any(line.startswith(b"none") for line in want) else 0
    if status != wanted:
        return "%s ends with status %d, not %d" % (name, status, wanted)
    return None


def problem(program, replayer, data, limit):
    report, checked = run([program, "check"], data, limit)
    trace, status = run([program, "trace"], data, limit)
    if checked not in (0, 1):
        same = (report, checked) == (trace, status)
        return None if same else "check ends with %d, trace with %d" % (checked, status), True
    told = verdicts(report)
    due = [unit for unit in sorted(told) if told[unit][0] == b"yes" and not told[unit][1]]
    traced = sections(trace)
    if traced != due:
        odd = sorted(set(due) ^ set(traced))
        return "sections of other units than due: %s" % odd[:5], False
    complete = all(told[unit][1] or unit in set(traced) for unit in told)
    if status != (0 if complete else 1):
        return "trace ends with status %d" % status, False
    found = replayed([program, "replay"], trace, told, set(traced), limit, "replay")
    if found is None and replayer:
        found = replayed(replayer, trace, told, set(traced), 10 * limit, "the other")
    return found, False


def main():
    words, replayer, limit = sys.argv[1:], None, 120
    if not words:
        sys.exit(__doc__)
    program = words.pop(0)
    while words and words[0].startswith("--"):
        option, value = words.pop(0), words.pop(0)
        if option == "--replayer":
            replayer = value.split()
        elif option == "--limit":
            limit = int(value)
        else:
            sys.exit(__doc__)
    traced = faults = differ = 0
    for file in words:
        data = gzip.open(file).read() if file.endswith(".gz") else open(file, "rb").read()
        try:
            found, fault = problem(program, replayer, data, limit)
        except subprocess.TimeoutExpired:
            found, fault = "no answer in %d s" % limit, False
        if found:
            differ += 1
            print("%s: %s" % (file, found), flush=True)
        elif fault:
            faults += 1
        else:
            traced += 1
    print("%d traced, %d with a fault, %d differ" % (traced, faults, differ))
    sys.exit(1 if differ else 0)


main()
