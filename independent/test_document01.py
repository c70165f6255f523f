"""Holds document01.py against the document's own systems and, by trying points and texts, against its promises.

Run: python3 independent/test_document01.py. One line for each group; the exit is non-zero if a group fails.
"""

import sys
import traceback

from test_systems import (
    printed_examples, systems_p1_to_p6, systems_p7_to_p12, worked_by_hand, worked_by_hand_at_the_limit,
)
from test_readings import (
    readings_of_inequalities, readings_of_refusals, readings_of_the_checker, readings_of_the_program,
    readings_of_the_reader, readings_of_the_run,
)
from test_promises import algebra_promises, box_promises, checker_against_box, solver_refusals
from test_reader import reader_against_grammar, refused_beginnings_complete, texts_of_systems

GROUPS = (
    systems_p1_to_p6, systems_p7_to_p12, worked_by_hand, worked_by_hand_at_the_limit, printed_examples,
    readings_of_the_run, readings_of_inequalities, readings_of_refusals, readings_of_the_checker,
    readings_of_the_reader, readings_of_the_program, box_promises, algebra_promises, solver_refusals,
    checker_against_box, reader_against_grammar, refused_beginnings_complete, texts_of_systems,
)


def main():
    failed = 0
    for group in GROUPS:
        name = group.__name__.replace("_", " ")
        try:
            said = group()
            print("ok     %s%s" % (name, ": " + said if said else ""), flush=True)
        except Exception:
            failed += 1
            print("FAILED %s: %s" % (name, traceback.format_exc(limit=-1).strip().split("\n")[-1]), flush=True)
    print("%d groups, %d failed" % (len(GROUPS), failed))
    return 1 if failed else 0


if __name__ == "__main__":
    sys.exit(main())
