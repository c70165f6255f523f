"""Systems and texts to run, from a seeded random.Random. A system is (n, m, k, equations, inequalities), flat lists.

Run as a program it writes texts into a directory: python3 generate.py SEED COUNT DIRECTORY.
"""

import os
import random
import sys

from kinds import (
    FOR_THE_SOLVER, WRITABLE, dense, dependence, dependent_rows, divisors, edge_of_limit, large, many_steps,
    near_limit, numbers, out_of_range, parities, row_through, small, solvable, sparse_row, system_of,
    through_zero, too_large_entry, too_large_inequality, too_large_run, triangular_row, wrong_lengths,
)
from damages import LONGEST_TEXT, at_longest, damaged, damaged_multipliers, random_byte, wrong_results

__all__ = [
    "FOR_THE_SOLVER", "LONGEST_TEXT", "WRITABLE", "at_longest", "damaged", "damaged_multipliers", "dense",
    "dependence", "dependent_rows", "divisors", "edge_of_limit", "large", "many_rows", "many_steps",
    "near_limit", "numbers", "out_of_range", "parities", "random_byte", "row_through", "small", "solvable",
    "sparse_row", "system_of", "texts", "through_zero", "to_text", "too_large_entry", "too_large_inequality",
    "too_large_run", "triangular_row", "wrong_lengths", "wrong_results",
]


def to_text(system, rng=None):
    """The PolyLib form of a system; with a random.Random, equations and inequalities come mixed."""
    n, m, k, equations, inequalities = system
    rows = [[0] + list(equations[j * (n + 1):(j + 1) * (n + 1)]) for j in range(m)]
    # The text says sum + constant >= 0, the table says <= 0.
    rows += [[1] + [-a for a in inequalities[i * (n + 1):(i + 1) * (n + 1)]] for i in range(k)]
    if rng is not None:
        marks = sorted(range(len(rows)), key=lambda _: rng.random())
        # The order within each kind is kept, so that the text still says the same system.
        kinds = [0 if at < m else 1 for at in marks]
        queues = {0: iter(rows[:m]), 1: iter(rows[m:])}
        rows = [next(queues[kind]) for kind in kinds]
    lines = ["%d %d" % (m + k, n + 2)] + [" ".join(str(number) for number in row) for row in rows]
    return "".join(line + "\n" for line in lines).encode("ascii")


def many_rows(rng, count):
    """Texts of up to 97 rows, with the number of equations near 32 and of inequalities near 64."""
    for _ in range(count):
        m, k = rng.choice([0, 31, 32, 33, 34]), rng.choice([0, 62, 63, 64, 65])
        n = rng.randint(1, 2)
        yield system_of(n, [[0] * (n + 1)] * m, [numbers(rng, n, 1) + [-1] for _ in range(k)])


def texts(rng, count):
    """Texts of all kinds, as they are and damaged."""
    sources = WRITABLE[:-1] + (many_rows,)
    for _ in range(count):
        source = large if rng.random() < 0.01 else rng.choice(sources)
        text = to_text(next(source(rng, 1)), rng)
        yield text if rng.random() < 0.5 else damaged(rng, text)


def main(arguments):
    if len(arguments) != 3:
        sys.stderr.write("usage: generate.py SEED COUNT DIRECTORY\n")
        return 2
    seed, count, directory = int(arguments[0]), int(arguments[1]), arguments[2]
    os.makedirs(directory, exist_ok=True)
    for number, text in enumerate(texts(random.Random(seed), count)):
        with open(os.path.join(directory, "%06d.txt" % number), "wb") as out:
            out.write(text)
    return 0


if __name__ == "__main__":
    sys.exit(main(sys.argv[1:]))
