#!/usr/bin/env python3
"""oracle/typed_answer.py [--LIMIT N].. < TEXT: the lines that answer a typed text, by the reader of typed.py and the oracle.

One line for 11, 12 or the first call that is refused; else the report. LIMIT is a name of typed.py's LIMITS.
"""

import os
import subprocess
import sys

sys.dont_write_bytecode = True

import typed

ORACLE = os.path.join(os.path.dirname(os.path.abspath(__file__)), "..", "target", "oracle", "oracle")


class Wrong(Exception):
    """The oracle does not answer the calls as the reader has it: one of the two is wrong."""


def answer(text, **limits):
    cause, found = typed.stands_for(text, **limits)
    if cause:
        return f"refused {cause} {found}\n"
    done = subprocess.run([ORACLE], input=typed.job(found).encode(), capture_output=True, timeout=600)
    if done.returncode != 0:
        raise Wrong(done.stderr.decode())
    return of_calls(found, done.stdout.decode().splitlines())


def of_calls(calls, lines):
    """The line of the first refused call; else the report, which the last call, the run, is answered by."""
    if lines[-1] == "malformed":
        raise Wrong("a malformed job")
    rules = 0
    for (words, expected), line in zip(calls[:-1], lines):
        if line.startswith("refused "):
            return line + "\n"
        if expected == typed.RULE:
            expected, rules = rules, rules + 1
        if line != ("ok" if expected is None else f"ok {expected}"):
            raise Wrong(f"call {words}: {line}, expected {expected}")
    return "".join(line + "\n" for line in lines[len(calls) - 1:])


if __name__ == "__main__":
    names = [option.removeprefix("--") for option in sys.argv[1::2]]
    sys.stdout.write(answer(sys.stdin.buffer.read(), **dict(zip(names, map(int, sys.argv[2::2])))))
