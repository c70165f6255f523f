"""Writes the benchmark's systems into a file, from a fixed seed: python3 make_systems.py FILE.

The file is a row of 64-bit numbers: how many sets; for each set its name (48 bytes) and how many systems; for each
system n, m, k, the equation table and the inequality table. Entries are small, so that few runs grow past W: a refused
system ends early and says little about speed. Most systems have a whole point, so that few
runs end in a conflict of the equations.
"""

import array
import os
import random
import sys

sys.path.insert(0, os.path.join(os.path.dirname(os.path.abspath(__file__)), "..", "independent"))

import generate  # noqa: E402

SEED = 20_061
SYSTEMS = 300


def sparse_through(rng, point, most, size, slack=0):
    """A row with 1 to `most` coefficients whose sum + constant is -slack at the point."""
    row = [0] * len(point)
    for column in rng.sample(range(len(point)), rng.randint(1, min(most, len(point)))):
        row[column] = rng.choice([-1, 1]) * rng.randint(1, size)
    return row + [-slack - sum(a * x for a, x in zip(row, point))]


def dependence(rng, count):
    """Dependence systems, three in four with a pass of each loop that touches the same cell."""
    for n, m, k, equations, inequalities in generate.dependence(rng, count):
        if rng.random() < 0.75:
            point = [rng.randint(1, 3) for _ in range(n)]
            for start in range(0, len(equations), n + 1):
                equations[start + n] = -sum(a * x for a, x in zip(equations[start:start + n], point))
        yield n, m, k, equations, inequalities


def dense_eight(rng, count):
    """8 variables, 4 equations and 16 inequalities, every entry of a row drawn."""
    for _ in range(count):
        point = generate.numbers(rng, 8, 2)
        equations = [generate.row_through(rng, point, 2) for _ in range(4)]
        inequalities = [generate.row_through(rng, point, 5, rng.randint(0, 4)) for _ in range(16)]
        yield generate.system_of(8, equations, inequalities)


def sparse_wide(rng, count):
    """32 variables, 1 to 32 equations and 64 inequalities, 1 to 3 coefficients in a row."""
    for _ in range(count):
        point = generate.numbers(rng, 32, 2)
        equations = [sparse_through(rng, point, 3, 2) for _ in range(rng.randint(1, 32))]
        inequalities = [sparse_through(rng, point, 3, 4, rng.randint(0, 4)) for _ in range(64)]
        yield generate.system_of(32, equations, inequalities)


def growing(n):
    """n variables, n/2 equations and 2n inequalities, 1 to 4 coefficients in a row."""
    def systems(rng, count):
        for _ in range(count):
            point = generate.numbers(rng, n, 2)
            equations = [sparse_through(rng, point, 4, 2) for _ in range(n // 2)]
            inequalities = [sparse_through(rng, point, 4, 4, rng.randint(0, 4)) for _ in range(2 * n)]
            yield generate.system_of(n, equations, inequalities)
    return systems


def equations_alone(systems):
    """The same systems without their inequalities."""
    def alone(rng, count):
        for n, m, _, equations, _ in systems(rng, count):
            yield n, m, 0, equations, []
    return alone


WHOLE = (
    ("dependence, n 2 to 16", dependence),
    ("dense, n 8, m 4", dense_eight),
    ("sparse, n 32, m 1 to 32", sparse_wide),
    ("growth, n 4", growing(4)),
    ("growth, n 8", growing(8)),
    ("growth, n 16", growing(16)),
    ("growth, n 32", growing(32)),
)
SETS = WHOLE + tuple(("equations of " + name, equations_alone(systems)) for name, systems in WHOLE)


def main(arguments):
    with open(arguments[0], "wb") as out:
        def put(numbers):
            array.array("q", numbers).tofile(out)

        put([len(SETS)])
        for place, (name, systems) in enumerate(SETS):
            # Each set has its own seed, so that a change of one leaves the others as they are.
            made = list(systems(random.Random(SEED + place % len(WHOLE)), SYSTEMS))
            out.write(name.encode("ascii").ljust(48, b"\0"))
            put([len(made)])
            for n, m, k, equations, inequalities in made:
                put([n, m, k] + equations + inequalities)


if __name__ == "__main__":
    main(sys.argv[1:])
