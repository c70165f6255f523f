"""Tries the command that a person calls, and reads and writes of the built program that fail: command.py COMMAND PROGRAM

Each check has a stage of its own. Nothing is built: where the command would do so, it finds an rt that proves nothing.
"""

import os
import sys
import tempfile

import build_checks
import command_checks
import program_checks
from command_stage import Skipped, Stage

CHECKS = program_checks.CHECKS + command_checks.CHECKS + build_checks.CHECKS
LONGEST_SHOWN = 500


def tell(name, wanted, came):
    """A check that failed, with the parts that differ."""
    print("FAILED  %s" % name)
    for part in wanted._fields:
        pair = getattr(wanted, part), getattr(came, part)
        if pair[0] != pair[1]:
            print("        %s: wanted %.*r" % (part, LONGEST_SHOWN, pair[0]))
            print("        %s: came   %.*r" % (part, LONGEST_SHOWN, pair[1]))


def main(arguments):
    if len(arguments) != 2 or not all(os.access(path, os.X_OK) for path in arguments):
        sys.stderr.write("usage: command.py COMMAND PROGRAM\n")
        return 2
    failed = skipped = 0
    for name, call, wanted in CHECKS:
        with tempfile.TemporaryDirectory() as directory:
            try:
                came = call(Stage(directory, *arguments))
            except Skipped as reason:
                print("skipped %s: %s" % (name, reason))
                skipped += 1
                continue
        if came != wanted:
            tell(name, wanted, came)
            failed += 1
    print("%d checks of the command and of failing reads and writes; %d skipped, %d failed" % (len(CHECKS), skipped, failed))
    return 1 if failed else 0


if __name__ == "__main__":
    sys.exit(main(sys.argv[1:]))
