#!/usr/bin/env python3
"""Holds the built library against the independent program: compare_library.py ARCHIVE [SEED].

The archive is linked into a shared object in a temporary directory and called through ctypes, as any program of another
language would call it. Systems, multipliers and texts come from a fixed seed and from a fresh one (or from SEED alone).
Every array that is lent has a guard on either side. At the first difference the seed and the index are printed and the
exit status is 1; it is 1 too if some kind of outcome did not occur.
"""

import concurrent.futures
import ctypes
import os
import random
import subprocess
import sys
import tempfile
import time
from collections import Counter

import document01
import document_systems
import generate

FIXED_SEED = 20_260
SYSTEMS, LARGE_SYSTEMS, TEXTS = 10_000, 60, 4_000
FUNCTIONS = ("plassobine_solve", "plassobine_check", "plassobine_read")
# What the header says that the archive needs from outside.
NEEDED = {"memcpy", "memset"}
KINDS = {
    "open": 0, "equation conflict": 1, "one-row conflict": 2, "two-row conflict": 3, "refusal": 4,
    "no": 0, "yes": 1, "system": 0,
}
EXPECTED_KINDS = {
    "solve": {"open", "equation conflict", "one-row conflict", "two-row conflict", "no room",
              "refusal 1", "refusal 2", "refusal 3", "refusal 4", "refusal 5"},
    "check": {"yes", "no", "no room", "refusal 1", "refusal 2", "refusal 3"},
    "read": {"system", "no room", "refusal 1", "refusal 2", "refusal 6", "refusal 7"},
}
# What result tables hold before a call, and what stands on either side of every array.
SENTINELS = {ctypes.c_int64: -7_777_777_777, ctypes.c_uint64: 0xA5A5_A5A5_A5A5_A5A5, ctypes.c_uint8: 0xA5}
RESULT_TYPES = {"marks": ctypes.c_uint8, "used": ctypes.c_uint64}


class Difference(Exception):
    """What the library did differs from what the independent program says."""


class Lent:
    """An array as the library gets it, with a guard before it and one behind it."""

    def __init__(self, kind, values):
        self.given = list(values)
        self.guard = SENTINELS[kind]
        self.cells = (kind * (len(self.given) + 2))(self.guard, *self.given, self.guard)
        self.pointer = ctypes.c_void_p(ctypes.addressof(self.cells) + ctypes.sizeof(kind))
        self.length = ctypes.c_size_t(len(self.given))

    def must_hold(self, name, expected):
        """The expected numbers between whole guards."""
        held = self.cells[:]
        if held[0] != self.guard or held[-1] != self.guard:
            raise Difference("%s: written outside the array" % name)
        if held[1:-1] != list(expected):
            raise Difference("%s: %s instead of %s" % (name, held[1:-1], list(expected)))


def filled(kind, length):
    """That many numbers to be written over."""
    return [SENTINELS[kind]] * length


def needed(archive):
    """The names that the archive needs from outside, as nm lists them: U and the name."""
    listed = subprocess.run(["nm", "-u", archive], check=True, capture_output=True, text=True).stdout
    return {line.split()[1] for line in listed.splitlines() if line.split()[:1] == ["U"]}


def load(archive, directory):
    """The library, linked from the archive."""
    shared = os.path.join(directory, "plassobine.so")
    subprocess.run(
        ["gcc", "-shared", "-o", shared, "-Wl,--whole-archive", os.path.abspath(archive), "-Wl,--no-whole-archive"],
        check=True,
    )
    library = ctypes.CDLL(shared)
    for name in FUNCTIONS:
        getattr(library, name).restype = ctypes.c_uint32
    return library


def call(function, counts, arrays):
    """Calls with numbers first, then each array as a pointer and a length."""
    arguments = [ctypes.c_size_t(count) for count in counts]
    for array in arrays:
        arguments += [array.pointer, array.length]
    return function(*arguments)


def numbers_of(outcome):
    """An outcome as the library says it: the kind, its values, zeros behind."""
    values = [KINDS[outcome[0]]] + [value for value in outcome[1:] if isinstance(value, int)]
    return values + [0] * (5 - len(values))


def kind_of(outcome):
    """The name under which an outcome is counted."""
    return "refusal %d" % outcome[1] if outcome[0] == "refusal" else outcome[0]


def outcome_array(rng):
    """Now and then not of five numbers."""
    length = rng.choice([0, 1, 4, 6, 10]) if rng.random() < 0.02 else 5
    return Lent(ctypes.c_uint64, filled(ctypes.c_uint64, length))


def judge(answer, outcome_lent, outcome, written):
    """Compares what a call answered and wrote; `written` has name, array and expected numbers. Says how to count it."""
    room = len(outcome_lent.given) == 5
    if answer != (1 if room else 0):
        raise Difference("answer %d" % answer)
    outcome_lent.must_hold("outcome", numbers_of(outcome) if room else outcome_lent.given)
    for name, array, expected in written:
        array.must_hold(name, expected if room else array.given)
    return kind_of(outcome) if room else "no room"


def extremes(rng, system):
    """The system with entries at the ends of 64 bits, or with counts at the end of theirs."""
    n, m, k, equations, inequalities = system
    table = rng.choice([equations, inequalities])
    if table and rng.random() < 0.5:
        table[rng.randrange(len(table))] = rng.choice([-2**63, 2**63 - 1, -2**63 + 1, 2**32, 2**28, -2**28])
        return n, m, k, equations, inequalities
    counts = [n, m, k]
    counts[rng.randrange(3)] = rng.choice([2**64 - 1, 2**64 - 2, 2**63, 2**32, 2**32 + 1])
    return (*counts, equations, inequalities)


def systems(rng):
    """Systems of every kind, in turn."""
    sources = [source for source in generate.WRITABLE + generate.FOR_THE_SOLVER if source is not generate.large]
    for index in range(SYSTEMS):
        system = next(sources[index % len(sources)](rng, 1))
        yield extremes(rng, system) if rng.random() < 0.02 else system
    yield from generate.large(rng, LARGE_SYSTEMS)


def result_tables(rng, n, m, k):
    """Result tables full of sentinels; of a length that is wrong now and then, and short where a count is enormous."""
    lengths = document01.result_lengths(min(n, 33), min(m, 33), min(k, 65))
    tables = {name: filled(RESULT_TYPES.get(name, ctypes.c_int64), length) for name, length in lengths.items()}
    if rng.random() < 0.04:
        changed = generate.wrong_results(rng, tables)
        tables = {
            name: filled(RESULT_TYPES.get(name, ctypes.c_int64), len(table)) for name, table in changed.items()
        }
    return tables


def compare_solve(library, rng, system):
    """One call of plassobine_solve. Gives how to count it, and the outcome with its tables."""
    n, m, k, equations, inequalities = system
    given = result_tables(rng, n, m, k)
    outcome, tables = document01.solve(n, m, k, equations, inequalities, given)
    rows = [Lent(ctypes.c_int64, table) for table in (equations, inequalities)]
    results = [Lent(RESULT_TYPES.get(name, ctypes.c_int64), given[name]) for name in document01.RESULT_TABLES]
    outcome_lent = outcome_array(rng)
    answer = call(library.plassobine_solve, (n, m, k), rows + results + [outcome_lent])
    for name, array in zip(("equations", "inequalities"), rows):
        array.must_hold(name, array.given)
    written = [(name, array, tables[name]) for name, array in zip(document01.RESULT_TABLES, results)]
    return judge(answer, outcome_lent, outcome, written), outcome, tables


def compare_check(library, rng, n, m, equations, table):
    """One call of plassobine_check."""
    outcome = document01.check_multipliers(n, m, equations, table)
    lent = [Lent(ctypes.c_int64, equations), Lent(ctypes.c_int64, table)]
    outcome_lent = outcome_array(rng)
    answer = call(library.plassobine_check, (n, m), lent + [outcome_lent])
    for name, array in zip(("equations", "multipliers"), lent):
        array.must_hold(name, array.given)
    return judge(answer, outcome_lent, outcome, []), outcome


def read_outcome(text, lengths):
    """What the reader has to answer, and what its two tables hold then: None where they are untouched."""
    if lengths != (document01.EQUATIONS_TABLE, document01.INEQUALITIES_TABLE):
        return ("refusal", 2), None
    outcome = document01.read_text(text)
    if outcome[0] == "system":
        return outcome[:4], outcome[4:]
    return outcome, ([0] * lengths[0], [0] * lengths[1])


def compare_read(library, rng, text):
    """One call of plassobine_read."""
    lengths = [document01.EQUATIONS_TABLE, document01.INEQUALITIES_TABLE]
    if rng.random() < 0.03:
        at = rng.randrange(2)
        lengths[at] = rng.choice([0, lengths[at] - 1, lengths[at] + 1])
    outcome, tables = read_outcome(text, tuple(lengths))
    bytes_lent = Lent(ctypes.c_uint8, text)
    lent = [Lent(ctypes.c_int64, filled(ctypes.c_int64, length)) for length in lengths]
    outcome_lent = outcome_array(rng)
    answer = call(library.plassobine_read, (), [bytes_lent] + lent + [outcome_lent])
    bytes_lent.must_hold("text", text)
    expected = tables if tables is not None else [array.given for array in lent]
    return judge(answer, outcome_lent, outcome, list(zip(("equations", "inequalities"), lent, expected)))


class NoDamage:
    """In place of a source of chances: no length is ever wrong."""

    def random(self):
        return 1.0


def run_document(library, counts):
    """P1 to P12 with room for everything: outcome and all tables."""
    for index, system in enumerate(document_systems.SYSTEMS):
        try:
            counts["solve"][compare_solve(library, NoDamage(), system)[0]] += 1
        except Difference as difference:
            raise Difference("system %d of the document: %s" % (index, difference)) from None


def run_systems(library, seed, counts):
    """The solver on every system; the checker on every conflict table and its damages, and on tables made at random."""
    rng = random.Random(seed)
    for index, system in enumerate(systems(rng)):
        try:
            n, m, _, equations, _ = system
            kind, outcome, tables = compare_solve(library, rng, system)
            counts["solve"][kind] += 1
            if outcome[0] == "equation conflict":
                tried = [tables["conflict"]] + [generate.damaged_multipliers(rng, tables["conflict"]) for _ in range(3)]
            else:
                tried = [generate.numbers(rng, min(m, 33), 3) + [rng.randint(0, 4)]]
            for at, table in enumerate(tried):
                kind, verdict = compare_check(library, rng, n, m, equations, table)
                counts["check"][kind] += 1
                if at == 0 and outcome[0] == "equation conflict" and verdict != ("yes",):
                    raise Difference("the checker does not say yes to a conflict table")
        except Difference as difference:
            raise Difference("seed %d, system %d: %s" % (seed, index, difference)) from None


def run_texts(library, seed, counts):
    """The reader on every text."""
    rng = random.Random(seed)
    for index, text in enumerate(generate.texts(rng, TEXTS)):
        try:
            counts["read"][compare_read(library, rng, text)] += 1
        except Difference as difference:
            raise Difference("seed %d, text %d: %s" % (seed, index, difference)) from None


def compare(library, seed):
    """All calls of a seed; the lines that say how many of which kind there were."""
    began = time.monotonic()
    counts = {name: Counter() for name in EXPECTED_KINDS}
    run_document(library, counts)
    run_systems(library, seed, counts)
    run_texts(library, seed, counts)
    lines = ["seed %d, %.0f s" % (seed, time.monotonic() - began)]
    for name, expected in EXPECTED_KINDS.items():
        line = ", ".join("%s %d" % pair for pair in sorted(counts[name].items()))
        lines.append("  plassobine_%s, %d calls: %s" % (name, sum(counts[name].values()), line))
        if set(counts[name]) != expected:
            raise Difference("seed %d: these did not occur: %s" % (seed, sorted(expected - set(counts[name]))))
    return "\n".join(lines)


def compare_seed(archive, seed):
    """A worker's work: the library loaded, and all calls of one seed."""
    with tempfile.TemporaryDirectory() as directory:
        return compare(load(archive, directory), seed)


def main(arguments):
    if len(arguments) not in (1, 2):
        sys.stderr.write("usage: compare_library.py ARCHIVE [SEED]\n")
        return 2
    seeds = [int(arguments[1])] if len(arguments) == 2 else [FIXED_SEED, int.from_bytes(os.urandom(4), "big")]
    # first of all, so that the seeds are known even if a call should crash
    print("seeds: %s" % ", ".join(map(str, seeds)), flush=True)
    if needed(arguments[0]) != NEEDED:
        print("DIFFERENCE: the archive needs %s, and not %s" % (sorted(needed(arguments[0])), sorted(NEEDED)))
        return 1
    with concurrent.futures.ProcessPoolExecutor() as workers:
        try:
            for lines in workers.map(compare_seed, [arguments[0]] * len(seeds), seeds):
                print(lines)
        except (Difference, concurrent.futures.process.BrokenProcessPool) as difference:
            print("DIFFERENCE: %s" % difference)
            return 1
    print("the library and the independent program agree")
    return 0


if __name__ == "__main__":
    sys.exit(main(sys.argv[1:]))
