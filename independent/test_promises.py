"""The promises, by trying points."""

import itertools
import random

import document01 as lib
import generate
from checks import check, same

W = lib.W


def value(row, point):
    """Sum + constant at a point."""
    return sum(a * x for a, x in zip(row, point)) + row[-1]


def values(rows, point):
    return [value(row, point) for row in rows]


def box(n, size):
    return itertools.product(range(-size, size + 1), repeat=n)


class Solved:
    """A system with its outcome and tables as rows."""

    def __init__(self, system):
        self.system = system
        n, m, k, equations, inequalities = system
        lent = list(equations), list(inequalities), lib.fresh(n, m, k, 9)
        self.outcome, self.tables = lib.solve(n, m, k, *lent)
        same(lent, (equations, inequalities, lib.fresh(n, m, k, 9)), "lent tables changed")
        self.n, self.m, self.k = n, m, k
        self.equations = lib.rows_of(equations, n + 1)
        self.inequalities = lib.rows_of(inequalities, n + 1)
        self.substitution = lib.rows_of(self.tables["substitution"], n + 1)
        self.way_back = lib.rows_of(self.tables["way_back"], n + 1)
        self.reasons = lib.rows_of(self.tables["reasons"], m + 1)
        self.tightened = lib.rows_of(self.tables["tightened"], n + 1)

    def has_tables(self):
        return self.outcome[0] in ("open", "one-row conflict", "two-row conflict")


def check_sizes(solved):
    """Every table number within -W..W, and closed columns zero in the tightened rows."""
    for name in ("substitution", "way_back", "reasons", "tightened"):
        check(all(-W <= number <= W for number in solved.tables[name]), name, solved.system)
    for row in solved.tightened:
        check(all(mark or not number for number, mark in zip(row, solved.tables["marks"])), solved.system)


def check_reasons(solved):
    """divisor · y_p is the combination of the equations, as polynomials in x; open p have zeros."""
    for p, reason in enumerate(solved.reasons):
        if solved.tables["marks"][p] == 1:
            check(not any(reason), "open", p, solved.system)
            continue
        divisor = reason[-1]
        check(divisor >= 1, "divisor", solved.system)
        combined = [sum(reason[j] * solved.equations[j][c] for j in range(solved.m)) for c in range(solved.n + 1)]
        same([divisor * number for number in solved.way_back[p]], combined, solved.system)


def check_both_ways(solved, rng):
    """Substitution and way back undo each other at any point, and open parameters always give solutions."""
    for _ in range(5):
        point = generate.numbers(rng, solved.n, 50)
        same(values(solved.substitution, values(solved.way_back, point)), point, solved.system)
        same(values(solved.way_back, values(solved.substitution, point)), point, solved.system)
        parameters = [y if mark else 0 for y, mark in zip(point, solved.tables["marks"])]
        found = values(solved.substitution, parameters)
        check(not any(values(solved.equations, found)), "no solution", solved.system)
        check_tightened(solved, found, parameters)


def check_tightened(solved, point, parameters):
    """At a solution of the equations an inequality and its tightened row hold together."""
    for row, tight in zip(solved.inequalities, solved.tightened):
        same(value(row, point) <= 0, value(tight, parameters) <= 0, "tightened", point, solved.system)


def check_used(solved, point, zero):
    """Whole numbers that satisfy the inequality and the used equations satisfy the tightened row at the way back."""
    parameters = values(solved.way_back, point)
    for i in range(solved.k):
        needed = [zero[j] for j in range(solved.m) if solved.tables["used"][i] >> j & 1]
        if all(needed) and value(solved.inequalities[i], point) <= 0:
            check(value(solved.tightened[i], parameters) <= 0, "used", i, point, solved.system)


def check_point(solved, point):
    """All that one point of the box can show about tables that are filled. Says whether it solves the equations."""
    zero = [number == 0 for number in values(solved.equations, point)]
    parameters = values(solved.way_back, point)
    closed = [y for y, mark in zip(parameters, solved.tables["marks"]) if mark == 0]
    same(all(zero), not any(closed), "closed", point, solved.system)
    check_used(solved, point, zero)
    if not all(zero):
        return False
    same(values(solved.substitution, parameters), list(point), "substitution", solved.system)
    check_tightened(solved, point, parameters)
    in_all = all(number <= 0 for number in values(solved.inequalities, point))
    check(solved.outcome[0] == "open" or not in_all, "conflict", point, solved.system)
    return True


def check_conflict(solved, points):
    """The checker's yes, and no solution among the points."""
    table = solved.tables["conflict"]
    same(lib.check_multipliers(solved.n, solved.m, solved.system[3], table), ("yes",), solved.system)
    for point in points:
        check(any(values(solved.equations, point)), "solved", point, solved.system)


def names_satisfied(solved, point):
    """Whether a point satisfies all that the line after `unsat` names."""
    printed = lib.answer(generate.to_text(solved.system)).split(b"\n")[1]
    for name in printed.strip(b"()").split():
        number = int(name[1:]) - 1
        rows = solved.equations if name[:1] == b"e" else solved.inequalities
        found = value(rows[number], point)
        if found > 0 or (found != 0 and name[:1] == b"e"):
            return False
    return True


def box_promises():
    rng = random.Random(1)
    kinds, solutions = {}, 0
    generators = (generate.small, generate.solvable, generate.parities, generate.dependent_rows, generate.divisors)
    for system in itertools.chain.from_iterable(generator(rng, 150) for generator in generators):
        solved = Solved(system)
        if solved.n > 3:
            continue
        kind = solved.outcome[0]
        kinds[kind] = kinds.get(kind, 0) + 1
        points = list(box(solved.n, (0, 12, 7, 4)[solved.n]))
        if kind == "equation conflict":
            check_conflict(solved, points)
        elif solved.has_tables():
            solutions += sum(check_point(solved, point) for point in points)
        if "conflict" in kind:
            for point in rng.sample(points, 20):
                check(not names_satisfied(solved, point), "names", point, system)
    check(min(kinds.values()) >= 10 and solutions > 1000, kinds, solutions)
    return "%s, %d solutions met" % (kinds, solutions)


def algebra_promises():
    rng = random.Random(2)
    kinds = {}
    for generator in generate.WRITABLE:
        for system in generator(rng, 12 if generator is generate.large else 150):
            solved = Solved(system)
            kind = solved.outcome[0] if solved.outcome[0] != "refusal" else "refusal %d" % solved.outcome[1]
            kinds[kind] = kinds.get(kind, 0) + 1
            if solved.has_tables():
                check_sizes(solved)
                check_reasons(solved)
                check_both_ways(solved, rng)
                check(not any(solved.tables["conflict"]), "conflict table", system)
            elif kind == "equation conflict":
                check_conflict(solved, [])
            else:
                same(solved.tables, lib.fresh(solved.n, solved.m, solved.k), system)
    return str(kinds)


def solver_refusals():
    rng = random.Random(3)
    for generator, number in [(generate.wrong_lengths, 2), (generate.out_of_range, 1)]:
        for n, m, k, equations, inequalities in generator(rng, 200):
            results = lib.fresh(min(n, 40), min(m, 40), min(k, 70), 4)
            wanted = ("refusal", number), {name: list(table) for name, table in results.items()}
            same(lib.solve(n, m, k, equations, inequalities, results), wanted)
    for n, m, k, equations, inequalities in generate.small(rng, 200):
        results = generate.wrong_results(rng, lib.fresh(n, m, k, 4))
        same(lib.solve(n, m, k, equations, inequalities, results), (("refusal", 2), results))


def checker_against_box():
    """A yes of the checker for random multipliers means that no point of the box solves the equations."""
    rng = random.Random(4)
    counts = {"yes": 0, "no": 0}
    for n, m, _, equations, _ in generate.small(rng, 3000):
        table = generate.numbers(rng, m, 3) + [rng.randint(0, 6)]
        said = lib.check_multipliers(n, m, equations, table)[0]
        counts[said] += 1
        if said == "yes":
            rows = lib.rows_of(equations, n + 1)
            check(all(any(values(rows, point)) for point in box(n, 3)), n, m, equations, table)
    check(counts["yes"] >= 100, counts)
    return str(counts)
