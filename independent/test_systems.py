"""The document's systems and systems worked by hand."""

import os
import subprocess
import sys

import document01 as lib
import generate
from checks import same

W = lib.W
HERE = os.path.dirname(os.path.abspath(__file__))


def run_rows(equations, inequalities=(), n=None):
    """solve on rows, with result tables that held something else before."""
    n = len((list(equations) + list(inequalities))[0]) - 1 if n is None else n
    _, m, k, flat_equations, flat_inequalities = generate.system_of(n, equations, inequalities)
    return lib.solve(n, m, k, flat_equations, flat_inequalities, lib.fresh(n, m, k, 77))


def expect(rows, wanted, n=None, **tables):
    """The outcome, and every result table: those not given have to be zeros."""
    equations, inequalities = rows
    outcome, found = run_rows(equations, inequalities, n)
    same(outcome, wanted, rows)
    for name in lib.RESULT_TABLES:
        same(found[name], tables.get(name, [0] * len(found[name])), name, rows)


P1_TABLES = {
    "substitution": [2, -5, 4, -1, 3, -1],
    "marks": [0, 1],
    "way_back": [3, 5, -7, 1, 2, -2],
    "reasons": [1, 1, 0, 0],
}


def outcome_of(equations, inequalities=()):
    return run_rows(equations, inequalities)[0]


def systems_p1_to_p6():
    equation = [(3, 5, -7)]
    expect((equation, []), ("open", 3), **P1_TABLES)
    expect((equation, [(-1, 0, 0)]), ("open", 3), tightened=[0, 1, 0], used=[1], **P1_TABLES)
    expect(
        (equation, [(-1, 0, 0), (0, -1, 0)]), ("two-row conflict", 1, 2, 3),
        tightened=[0, 1, 0, 0, -1, 1], used=[1, 1], **P1_TABLES,
    )
    expect(([(6, 4, -3)], []), ("equation conflict", 1, 0), conflict=[1, 2])
    expect(([(2, 0, -6), (3, 4, -7)], []), ("equation conflict", 2, 1), conflict=[-3, 2, 8])
    expect(([(1, 0), (1, -1)], []), ("equation conflict", 2, 1), conflict=[-1, 1, 0])


def systems_p7_to_p12():
    expect(([(0, 0)], []), ("open", 0), substitution=[1, 0], marks=[1], way_back=[1, 0])
    for n in range(1, 33):
        one = lib.flat(lib.identity(n))
        expect(([], []), ("open", 0), n=n, substitution=one, marks=[1] * n, way_back=one)
    expect(([(1, 2, 0), (W, -W, 0)], []), ("refusal", 4, 1, 0))
    expect(([(1, -W, 0)], [(W, 0, 0)]), ("refusal", 5, 1))
    expect(
        ([(W, 0)], []), ("open", 1),
        substitution=[1, 0], marks=[0], way_back=[1, 0], reasons=[1, W],
    )
    expect(([(W + 1, 0)], []), ("refusal", 3, 0, 1, 1))
    one = {"substitution": [1, 0], "marks": [1], "way_back": [1, 0]}
    for row, wanted in [((5, -3), [1, 0]), ((-5, 2), [-1, 1]), ((2, -4), [2, -4]), ((5, 2), [1, 1])]:
        expect(([], [row]), ("open", 0), tightened=wanted, used=[0], **one)


def worked_by_hand():
    """Systems small enough to work on paper, one for each choice that P1 to P12 leave unseen."""
    # -7 by 3 is -2, remainder -1: two steps. Flooring would take three.
    expect(
        ([(3, -7, 0)], []), ("open", 2),
        substitution=[7, 2, 0, 3, 1, 0], marks=[1, 0], way_back=[1, -2, 0, -3, 7, 0], reasons=[0, 0, -1, 1],
    )
    # On a tie the lowest column is taken.
    expect(
        ([(-1, 1, 5)], []), ("open", 1),
        substitution=[1, 1, 5, 0, 1, 0], marks=[0, 1], way_back=[1, -1, -5, 0, 1, 0], reasons=[-1, 1, 0, 0],
    )
    # Only the closed columns whose sum is not zero are used.
    rows = [(1, 0, 0, 0), (0, 1, 0, 0)]
    _, tables = run_rows(rows, [(0, 0, 1, 0), (1, 0, 1, 0), (0, 3, 1, 0), (-2, 1, 0, 0)])
    same(tables["used"], [0, 1, 2, 3])
    same(tables["tightened"], [0, 0, 1, 0] * 3 + [0, 0, 0, 0])
    # 2·(0,1) - 2·(1,0) with divisor 2 comes to (-1,1) with divisor 1, then 3.
    same(run_rows([(2, 0, 0), (2, 3, 0)])[1]["reasons"], [1, 0, 2, -1, 1, 3])


def worked_by_hand_at_the_limit():
    """The same for choices that only the limit W shows."""
    # Without e = 16384 the divisor would be 2^28 before lowest terms.
    outcome, tables = run_rows([(16384, 0, 0, 0), (0, 16384, 0, 0), (1, 1, 1, 0)])
    same(outcome, ("open", 3))
    same(tables["reasons"], [1, 0, 0, 16384, 0, 1, 0, 16384, -1, -1, 16384, 16384])
    # Row 3 has nothing at column 2, so its divisor 16384 does not meet 32767.
    outcome, tables = run_rows([(16384, 0, 0, 0), (0, 32767, 0, 0), (1, 0, 1, 0)])
    same(outcome, ("open", 3))
    same(tables["reasons"], [1, 0, 0, 16384, 0, 1, 0, 32767, -1, 0, 16384, 16384])
    # With something there it does.
    expect(([(16384, 0, 0, 0), (0, 32767, 0, 0), (1, 1, 1, 0)], []), ("refusal", 4, 2, 1))
    # Only the substitution grows too large: x1 = y1 - 20000·y2 + 400000000·y3.
    expect(([(1, 20000, 0, 0), (0, 1, 20000, 0)], []), ("refusal", 4, 2, 1))
    # W and -W may stand, in a later row, the substitution and a sum; one more may not.
    same(outcome_of([(1, W, 0)], [(-1, 0, 0)]), ("open", 1))
    same(outcome_of([(1, 1, 0)], [(W, 0, 0), (-W, 0, 0)]), ("open", 1))
    same(outcome_of([(1, 1, 0)], [(W, -1, 0)]), ("refusal", 5, 1))
    same(outcome_of([(1, 1, 0), (W - 1, -1, 0)]), ("open", 2))
    same(outcome_of([(1, 1, 0), (W, -1, 0)]), ("refusal", 4, 1, 0))


EXAMPLE = b"2 4\n0 3 5 -7\n1 1 0 0\n"
EXAMPLE_ANSWER = b"unknown\n2 5\n0 -1 0 -5 4\n0 0 -1 3 -1\n1 3\n1 -1 0\n"
EXAMPLE_CONFLICT = b"3 4\n0 3 5 -7\n1 1 0 0\n1 0 1 0\n"
EXAMPLE_TABLES = (
    b"substitution: 2 -5 4 -1 3 -1\nmarks: 0 1\nway_back: 3 5 -7 1 2 -2\nreasons: 1 1 0 0\nconflict: 0 0\n"
    b"tightened: 0 1 0\nused: 1\n"
)


def run_program(data, *arguments):
    """What the command line prints."""
    command = [sys.executable, "-B", os.path.join(HERE, "plassobine.py"), *arguments]
    return subprocess.run(command, input=data, stdout=subprocess.PIPE, check=True).stdout


def printed_examples():
    same(lib.answer(EXAMPLE), EXAMPLE_ANSWER)
    same(lib.answer(EXAMPLE_CONFLICT), b"unsat\n(e1 i1 i2)\n")
    same(run_program(EXAMPLE), EXAMPLE_ANSWER)
    same(run_program(EXAMPLE_CONFLICT), b"unsat\n(e1 i1 i2)\n")
    same(run_program(EXAMPLE, "--tables"), EXAMPLE_ANSWER + EXAMPLE_TABLES)
    same(run_program(b"1 3\n0 1 x", "--tables"), b'(error "6 8")\n')
