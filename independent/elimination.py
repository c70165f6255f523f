"""The elimination run and the inequalities of document 01, on lists of rows."""

from math import gcd

W = 268_435_455
MOST_VARIABLES = 32
MOST_EQUATIONS = 32
MOST_INEQUALITIES = 64
LARGEST_D = 2**56
LONGEST_TEXT = 65_536
EQUATIONS_TABLE = MOST_EQUATIONS * (MOST_VARIABLES + 1)
INEQUALITIES_TABLE = MOST_INEQUALITIES * (MOST_VARIABLES + 1)
RESULT_TABLES = ("substitution", "marks", "way_back", "reasons", "conflict", "tightened", "used")


class TooLarge(Exception):
    """A listed number lies outside -W..W."""


class Refused(Exception):
    """A refusal: its number, then its fields."""

    def __init__(self, number, *fields):
        super().__init__(number, *fields)
        self.outcome = ("refusal", number, *fields)


# ---------------------------------------------------------------------------------------------------------------------
# Numbers and rows
# ---------------------------------------------------------------------------------------------------------------------


def listed(numbers):
    """The same numbers, if all of them may stand; the document calls such numbers listed."""
    for number in numbers:
        if not -W <= number <= W:
            raise TooLarge
    return numbers


def truncated(number, by):
    """The quotient truncated toward zero. Python's // floors, so it is used on absolute values alone."""
    quotient = abs(number) // abs(by)
    return quotient if (number < 0) == (by < 0) else -quotient


def ceiling(number, by):
    """The least whole number not below number/by, for by >= 1."""
    return -((-number) // by)


def rows_of(table, width):
    """A flat table as a list of new rows."""
    return [list(table[at:at + width]) for at in range(0, len(table), width)]


def flat(rows):
    """Rows as one flat table."""
    return [number for row in rows for number in row]


def lowest_terms(multipliers, divisor):
    """Multipliers and divisor divided by all they share. They are listed before and after."""
    listed(multipliers)
    listed([divisor])
    shared = gcd(divisor, *multipliers)
    return listed([number // shared for number in multipliers]), divisor // shared


def identity(n):
    """n rows that give each variable by itself, with constant 0."""
    return [[1 if column == row else 0 for column in range(n)] + [0] for row in range(n)]


# ---------------------------------------------------------------------------------------------------------------------
# The elimination run
# ---------------------------------------------------------------------------------------------------------------------


class Run:
    """What the elimination run holds between two steps."""

    def __init__(self, n, m, equations):
        self.n = n
        self.m = m
        self.rows = rows_of(equations, n + 1)
        self.multipliers = [[1 if other == row else 0 for other in range(m)] for row in range(m)]
        self.divisors = [1] * m
        self.substitution = identity(n)
        self.way_back = identity(n)
        self.marks = [1] * n
        self.reasons = [[0] * (m + 1) for _ in range(n)]
        self.steps = 0


def divide_row(run, j):
    """Part (a). Says whether the row has anything left to work on."""
    g = gcd(*run.rows[j])
    if g >= 2:
        run.rows[j] = listed([number // g for number in run.rows[j]])
        run.multipliers[j], run.divisors[j] = lowest_terms(run.multipliers[j], run.divisors[j] * g)
    return g != 0


def smallest_column(coefficients):
    """The column of the non-zero coefficient of smallest absolute value, the lowest such column."""
    columns = [column for column, number in enumerate(coefficients) if number != 0]
    return min(columns, key=lambda column: (abs(coefficients[column]), column))


def put_in(row, column, quotients):
    """The row after y_column has become y_column - sum q_i y_i - q_c (the quotient of the column itself is 0)."""
    factor = row[column]
    return listed([number - factor * quotient for number, quotient in zip(row, quotients)])


def change_variable(run, j, column):
    """Part (c), for a chosen column."""
    row = run.rows[j]
    quotients = [truncated(number, row[column]) for number in row]
    quotients[column] = 0
    for h in range(j, run.m):
        run.rows[h] = put_in(run.rows[h], column, quotients)
    run.substitution = [put_in(line, column, quotients) for line in run.substitution]
    back = list(run.way_back[column])
    for quotient, line in zip(quotients, run.way_back):
        back = [number + quotient * other for number, other in zip(back, line)]
    back[run.n] += quotients[run.n]
    # Only the finished sums are listed, not the partial ones.
    run.way_back[column] = listed(back)


def correct_later_row(run, h, column, d):
    """Row h loses its coefficient at a column closed with divisor d, and its multipliers answer for that."""
    b = run.rows[h][column]
    reason = run.reasons[column][:run.m]
    e = gcd(run.divisors[h], d)
    f = b * (run.divisors[h] // e)
    listed([f])
    multipliers = [(d // e) * own - f * other for own, other in zip(run.multipliers[h], reason)]
    run.multipliers[h], run.divisors[h] = lowest_terms(multipliers, run.divisors[h] * (d // e))
    run.rows[h][column] = 0


def close_column(run, j, column):
    """Part (d) for |a| = 1."""
    sign = 1 if run.rows[j][column] > 0 else -1
    d = run.divisors[j]
    run.marks[column] = 0
    run.reasons[column] = [sign * number for number in run.multipliers[j]] + [d]
    for h in range(j + 1, run.m):
        if run.rows[h][column] != 0:
            correct_later_row(run, h, column, d)


def work_row(run, j):
    """Parts (a) to (d) for row j. Gives D if the row is a conflict, otherwise None."""
    if not divide_row(run, j):
        return None
    g = gcd(*run.rows[j][:run.n])
    if g != 1:
        return run.divisors[j] * g
    first = run.rows[j][smallest_column(run.rows[j][:run.n])]
    bound = 2 * abs(first).bit_length() - 1
    steps_before = run.steps
    closed = False
    while not closed:
        column = smallest_column(run.rows[j][:run.n])
        closed = abs(run.rows[j][column]) == 1
        change_variable(run, j, column)
        if closed:
            close_column(run, j, column)
        # The step counts only when its work is done: a refusal on the way carries the steps before it.
        run.steps += 1
        if run.steps - steps_before > bound:
            raise AssertionError("a row took more steps than document 01 allows")
    return None


def eliminate(run):
    """All rows in order. None if all are done, otherwise the outcome that ends the run and the conflict table."""
    for j in range(run.m):
        try:
            d = work_row(run, j)
        except TooLarge:
            raise Refused(4, j + 1, run.steps) from None
        if d is not None:
            return ("equation conflict", j + 1, run.steps), run.multipliers[j] + [d]
    return None


# ---------------------------------------------------------------------------------------------------------------------
# Inequalities
# ---------------------------------------------------------------------------------------------------------------------


def substituted(inequality, substitution):
    """The n+1 sums of an inequality with the substitution put in, closed columns too."""
    n = len(substitution)
    sums = [sum(inequality[i] * substitution[i][column] for i in range(n)) for column in range(n + 1)]
    sums[n] += inequality[n]
    return listed(sums)


def used_equations(run, sums):
    """The equations in the reasons of the closed columns that the sums need, as a set of bits."""
    used = 0
    for column in range(run.n):
        if run.marks[column] == 0 and sums[column] != 0:
            for j in range(run.m):
                if run.reasons[column][j] != 0:
                    used |= 1 << j
    return used


def tighten(row):
    """The tightening step. The row stays unless it becomes stronger."""
    coefficients, constant = row[:-1], row[-1]
    g = gcd(*coefficients)
    if g >= 2 and constant % g != 0:
        return [number // g for number in coefficients] + [ceiling(constant, g)]
    return list(row)


def work_inequalities(run, inequalities):
    """The tightened rows and the used sets of all inequalities."""
    tightened, used = [], []
    for i, inequality in enumerate(rows_of(inequalities, run.n + 1)):
        try:
            sums = substituted(inequality, run.substitution)
        except TooLarge:
            raise Refused(5, i + 1) from None
        used.append(used_equations(run, sums))
        left = [number if mark else 0 for number, mark in zip(sums, run.marks)] + [sums[-1]]
        tightened.append(tighten(left))
    return tightened, used


def one_row_conflict(tightened):
    """The lowest row without coefficients that says a positive number is not positive, or None."""
    for i, row in enumerate(tightened):
        if not any(row[:-1]) and row[-1] > 0:
            return i
    return None


def two_row_conflict(tightened):
    """The first pair of opposite rows that leave no room between them, or None."""
    for i, row in enumerate(tightened):
        opposite = [-number for number in row[:-1]]
        for j in range(i + 1, len(tightened)):
            other = tightened[j]
            if any(opposite) and other[:-1] == opposite and row[-1] + other[-1] > 0:
                return i, j
    return None


def last_outcome(tightened, steps):
    """Open, or the conflict between tightened rows that is found first."""
    single = one_row_conflict(tightened)
    if single is not None:
        return ("one-row conflict", single + 1, steps)
    pair = two_row_conflict(tightened)
    if pair is not None:
        return ("two-row conflict", pair[0] + 1, pair[1] + 1, steps)
    return ("open", steps)
