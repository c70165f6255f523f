"""Holds a built program, and document01.py, to texts whose answers were written by hand: examples.py PROGRAM [ARGS..]

Each text is given to the program in three ways: on a pipe, on a pipe in pieces, and as a file.
"""

import shutil
import sys

import document01
import run_program
from example_systems import SYSTEMS
from example_texts import TEXTS

LONGEST_SHOWN = 2_000
# Refusal 2 is about tables that a program cannot be given as a text.
ANSWERS = (
    b"sat", b"unknown", b"unsat", b'(error "1")', b'(error "3 ', b'(error "4 ', b'(error "5 ', b'(error "6 ', b'(error "7")',
)


def runs(command, text):
    """The ways of handing the text over, each with the finished run."""
    yield "on a pipe", run_program.run(command, text)
    half = len(text) // 2
    yield "on a pipe, in three pieces", run_program.run(command, text[:half], text[half:-1], text[-1:])
    yield "as a file", run_program.run_on_file(command, text)


def faults(command, text, wanted):
    """What is wrong with one example: the place, the fault and the bytes that came."""
    by_document = document01.answer(text)
    if by_document != wanted:
        yield "document01.py", "it answers something else", by_document
    for way, finished in runs(command, text):
        fault = run_program.difference(finished, wanted)
        if fault:
            yield "the program, " + way, fault, finished.printed


def tell(name, text, wanted, fault):
    """One fault with both outputs."""
    place, what, printed = fault
    print("FAILED  %s: %s: %s" % (name, place, what))
    for title, data in (("text", text), ("wanted", wanted), ("printed", printed)):
        print("%-7s %r" % (title, data[:LONGEST_SHOWN]))


def main(command):
    if not command or shutil.which(command[0]) is None:
        sys.stderr.write("usage: examples.py PROGRAM [ARGS..]\n")
        return 2
    examples = SYSTEMS + TEXTS
    lacking = [kind for kind in ANSWERS if not any(wanted.startswith(kind) for _, _, wanted in examples)]
    failed = 0
    for name, text, wanted in examples:
        found = list(faults(command, text, wanted))
        for fault in found:
            tell(name, text, wanted, fault)
        failed += bool(found)
    for kind in lacking:
        print("FAILED  no example has the answer %r" % kind)
    print("%d examples tried, each in three ways; %d failed" % (len(examples), failed))
    return 1 if failed or lacking else 0


if __name__ == "__main__":
    sys.exit(main(sys.argv[1:]))
