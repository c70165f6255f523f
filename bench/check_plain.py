"""Holds the plain C solver against the independent program: python3 bench/check_plain.py SHARED_OBJECT SEED COUNT.

The benchmark compares the library with the plain solver; this says that the plain solver is document 01's as well, on
refusals and wrong lengths too, which the benchmark's systems seldom or never show.
"""

import ctypes
import os
import random
import sys

sys.path.insert(0, os.path.join(os.path.dirname(os.path.abspath(__file__)), "..", "independent"))

import document01  # noqa: E402
import generate  # noqa: E402

KINDS = ("open", "equation conflict", "one-row conflict", "two-row conflict", "refusal")
ELEMENT = {"marks": ctypes.c_uint8, "used": ctypes.c_uint64}


def lend(table, element=ctypes.c_int64):
    """The table as a C array."""
    return (element * len(table))(*table)


def five_numbers(outcome):
    """An outcome as the C interface tells it."""
    numbers = [KINDS.index(outcome[0]), *outcome[1:]]
    return numbers + [0] * (5 - len(numbers))


def answer_of(solver, n, m, k, equations, inequalities, results):
    """The outcome and the tables that the C function leaves."""
    lent = {name: lend(results[name], ELEMENT.get(name, ctypes.c_int64)) for name in document01.RESULT_TABLES}
    outcome = lend([77] * 5, ctypes.c_uint64)
    arguments = [ctypes.c_size_t(count) for count in (n, m, k)]
    for table in (lend(equations), lend(inequalities), *lent.values(), outcome):
        arguments += [table, ctypes.c_size_t(len(table))]
    solver(*arguments)
    return list(outcome), {name: list(table) for name, table in lent.items()}


def wrong_lengths(rng, results):
    """Result tables of which one is too long or too short; marks and used cannot hold numbers below 0."""
    damaged = generate.wrong_results(rng, results)
    return {name: [abs(number) for number in table] for name, table in damaged.items()}


def systems(rng, count):
    """Systems of every kind that the independent generator makes, with result tables that hold other numbers."""
    for source in generate.WRITABLE + generate.FOR_THE_SOLVER:
        for system in source(rng, count if source is not generate.large else count // 20 + 1):
            n, m, k = system[:3]
            results = document01.fresh(n, m, k, 7)
            yield system, wrong_lengths(rng, results) if rng.random() < 0.02 else results


def main(arguments):
    solver = ctypes.CDLL(os.path.abspath(arguments[0])).plain_solve
    seen = 0
    for system, results in systems(random.Random(int(arguments[1])), int(arguments[2])):
        outcome, tables = document01.solve(*system, results)
        if answer_of(solver, *system, results) != (five_numbers(outcome), tables):
            sys.exit("the plain solver differs on %r" % (system,))
        seen += 1
    print("the plain solver agrees with the independent program on %d systems" % seen)


if __name__ == "__main__":
    main(sys.argv[1:])
