"""Systems by kind, from a seeded random.Random. A system is (n, m, k, equations, inequalities), flat lists."""

W = 268_435_455


def numbers(rng, count, size):
    """That many numbers in -size..size."""
    return [rng.randint(-size, size) for _ in range(count)]


def system_of(n, equations, inequalities):
    """A system from rows."""
    flat_equations = [number for row in equations for number in row]
    flat_inequalities = [number for row in inequalities for number in row]
    return n, len(equations), len(inequalities), flat_equations, flat_inequalities


def small(rng, count):
    """1 to 3 variables, few rows, entries from -9 to 9, so that a box of points can be looked through."""
    for _ in range(count):
        n, m, k = rng.randint(1, 3), rng.randint(0, 3), rng.randint(0, 4)
        size = rng.choice([1, 3, 6, 9])
        yield n, m, k, numbers(rng, m * (n + 1), size), numbers(rng, k * (n + 1), size)


def dense(rng, count):
    """2 to 8 variables, every entry of moderate size and seldom zero; the numbers grow quickly."""
    for _ in range(count):
        n, m, k = rng.randint(2, 8), rng.randint(1, 5), rng.randint(0, 6)
        size = rng.choice([5, 20, 100, 1000])
        yield n, m, k, numbers(rng, m * (n + 1), size), numbers(rng, k * (n + 1), size)


def row_through(rng, point, size, slack=0):
    """A row whose sum + constant is -slack at the point."""
    row = numbers(rng, len(point), size)
    return row + [-slack - sum(a * x for a, x in zip(row, point))]


def solvable(rng, count):
    """Systems with a known whole solution: every equation passes through it and every inequality holds there."""
    for _ in range(count):
        n, m, k = rng.randint(1, 6), rng.randint(0, 4), rng.randint(0, 5)
        size = rng.choice([2, 5, 12])
        point = numbers(rng, n, 5)
        equations = [row_through(rng, point, size) for _ in range(m)]
        inequalities = [row_through(rng, point, size, rng.randint(0, 4)) for _ in range(k)]
        yield system_of(n, equations, inequalities)


def unit(n, column, factor, constant):
    """A row with one coefficient."""
    return [factor if at == column else 0 for at in range(n)] + [constant]


def dependence(rng, count):
    """Two references to one array: 1 to 8 counters each, 1 to 4 subscripts, and the counters' bounds."""
    for _ in range(count):
        counters = rng.randint(1, 8)
        n = 2 * counters
        equations = []
        for _ in range(rng.randint(1, 4)):
            row = [0] * n
            for _ in range(rng.randint(1, 3)):
                row[rng.randrange(n)] += rng.choice([-4, -3, -2, -1, 1, 1, 2, 3, 4])
            equations.append(row + [rng.randint(-12, 12)])
        inequalities = []
        for column in range(n):
            inequalities.append(unit(n, column, -1, rng.randint(0, 1)))
            inequalities.append(unit(n, column, 1, -rng.choice([3, 10, 100])))
        yield system_of(n, equations, inequalities)


def large_number(rng):
    """A number at or near W, or near a root or part of it."""
    base = rng.choice([W, W, W - 1, W // 2, W // 3, 16384, 16383, 32768, 8192, 2**20, 3**17, 5**12, 1, 2, 3, 0])
    return rng.choice([-1, 1]) * min(W, max(0, base + rng.choice([0, 0, 0, -1, 1])))


def near_limit(rng, count):
    """1 to 4 variables with many entries at or near W, beside small ones."""
    for _ in range(count):
        n, m, k = rng.randint(1, 4), rng.randint(0, 3), rng.randint(0, 3)
        part = rng.choice([0.1, 0.3, 0.8])

        def entry():
            return large_number(rng) if rng.random() < part else rng.randint(-3, 3)

        equations = [entry() for _ in range(m * (n + 1))]
        yield n, m, k, equations, [entry() for _ in range(k * (n + 1))]


def edge_of_limit(rng, count):
    """A sum that comes out at W, one below it or one above it, in a later row, the way back or an inequality."""
    for _ in range(count):
        goal = rng.choice([-1, 1]) * (W + rng.choice([-1, 0, 1]))
        q, b = rng.randint(-40, 40), rng.randint(-3000, 3000)
        # With x1 = y1 - q·y2, the row (b, c) comes to (b, c - b·q), and so does the inequality.
        c = max(-W, min(W, goal + b * q))
        first = [rng.choice([1, 1, -1]), q, rng.randint(-2, 2)]
        second = [b, c, rng.randint(-5, 5)]
        if rng.random() < 0.5:
            yield system_of(2, [first, second], [])
        else:
            yield system_of(2, [first], [second])


def divisors(rng, count):
    """Rows with large common factors, so that the divisors and multipliers reach the limit before the entries do."""
    for _ in range(count):
        n = rng.randint(2, 4)
        point = numbers(rng, n, 2)
        equations = []
        for _ in range(rng.randint(2, 4)):
            factor = rng.choice([2, 3, 5, 6]) ** rng.randint(0, 9)
            row = row_through(rng, point, 2)
            row[n] += rng.choice([-1, 1]) if rng.random() < 0.1 else 0
            equations.append([factor * number for number in row])
            equations[-1][rng.randrange(n)] += rng.choice([-1, 1, 2]) if rng.random() < 0.2 else 0
        inequalities = [numbers(rng, n + 1, 50) for _ in range(rng.randint(0, 2))]
        yield system_of(n, equations, inequalities)


def many_steps(rng, count):
    """A row of two neighbouring Fibonacci-like numbers, which takes many steps, and perhaps a small row."""
    for _ in range(count):
        n = rng.randint(2, 4)
        low, high = 1, rng.randint(1, 3)
        goal = rng.choice([1000, 10**6, W // 2, W // 2])
        while low + high <= goal:
            low, high = high, low + high
        row = [rng.choice([-1, 1]) * number for number in (low, high)] + numbers(rng, n - 2, 2)
        rng.shuffle(row)
        rows = [row + [rng.randint(-9, 9)]] + [numbers(rng, n + 1, 2) for _ in range(rng.randint(0, 1))]
        rng.shuffle(rows)
        yield system_of(n, rows, [numbers(rng, n + 1, 3) for _ in range(rng.randint(0, 2))])


def combination(rng, rows, width):
    """A combination of the rows given, zero if there are none."""
    total = [0] * width
    for row in rows:
        factor = rng.randint(-2, 2)
        total = [a + factor * b for a, b in zip(total, row)]
    return total


def dependent_rows(rng, count):
    """Systems in which rows repeat, combine others (perhaps with another constant) or are zero."""
    for _ in range(count):
        n = rng.randint(1, 6)
        equations = []
        for _ in range(rng.randint(1, 6)):
            kind = rng.random()
            row = combination(rng, equations, n + 1) if kind < 0.5 else numbers(rng, n + 1, 4)
            if kind < 0.15:
                row[n] += rng.randint(-2, 2)
            equations.append([0] * (n + 1) if kind > 0.9 else row)
        inequalities = []
        for _ in range(rng.randint(0, 4)):
            row = numbers(rng, n + 1, 4)
            other = rng.choice(inequalities) if inequalities else row
            opposite = [-a for a in other[:n]] + [rng.randint(-6, 6)]
            inequalities.append(opposite if rng.random() < 0.4 else row)
        yield system_of(n, equations, inequalities)


def parities(rng, count):
    """Inequalities in opposite pairs over one equation, so that tightening and two-row conflicts are frequent."""
    for _ in range(count):
        n = rng.randint(2, 4)
        equations = [numbers(rng, n + 1, 7) for _ in range(rng.randint(0, n - 1))]
        inequalities = []
        for _ in range(rng.randint(1, 4)):
            row = [rng.randint(1, 4) * a for a in numbers(rng, n, 2)]
            low = rng.randint(-9, 9)
            inequalities.append(row + [low])
            inequalities.append([-a for a in row] + [rng.randint(-1, 3) - low])
        yield system_of(n, equations, inequalities)


def too_large_entry(rng, count):
    """Refusal 3: some entries past W, within the ten digits that a text can hold."""
    for n, m, k, equations, inequalities in small(rng, count):
        for table in (equations, inequalities):
            for _ in range(rng.randint(0, 2)):
                if table:
                    bad = rng.choice([W + 1, W + 2, 2**31, 2**32, 9_999_999_999])
                    table[rng.randrange(len(table))] = rng.choice([-1, 1]) * bad
        yield n, m, k, equations, inequalities


def too_large_run(rng, count):
    """Refusal 4 in most cases: good rows first, then a row that grows past W when they are put in."""
    for _ in range(count):
        n = rng.randint(2, 5)
        equations = [numbers(rng, n + 1, 4) for _ in range(rng.randint(1, n - 1))]
        equations.append([rng.choice([-W, W, W // 2, 0, 1]) for _ in range(n + 1)])
        yield system_of(n, equations, [numbers(rng, n + 1, 3)])


def too_large_inequality(rng, count):
    """Refusal 5 in most cases: a small run, then inequalities that grow past W, not always the first."""
    for _ in range(count):
        n = rng.randint(2, 4)
        equations = [numbers(rng, n + 1, 5) for _ in range(rng.randint(1, 2))]
        inequalities = [numbers(rng, n + 1, 3) for _ in range(rng.randint(0, 3))]
        for _ in range(rng.randint(1, 2)):
            inequalities.append([rng.choice([-W, W, W // 2, 0, 1]) for _ in range(n + 1)])
        rng.shuffle(inequalities)
        yield system_of(n, equations, inequalities)


def wrong_lengths(rng, count):
    """Refusal 2, for the solver alone: an input table one or more numbers too long or too short."""
    for n, m, k, equations, inequalities in small(rng, count):
        table = rng.choice([equations, inequalities])
        if table and rng.random() < 0.5:
            del table[rng.randrange(len(table)):]
        else:
            table.extend(numbers(rng, rng.randint(1, 3), 3))
        yield n, m, k, equations, inequalities


def out_of_range(rng, count):
    """Refusal 1, for the solver alone: n, m or k just outside its range, tables of any length."""
    for n, m, k, equations, inequalities in small(rng, count):
        kind = rng.randrange(3)
        if kind == 0:
            n = rng.choice([0, 33, 1000])
            m, k = rng.choice([0, m]), rng.choice([0, k])
        elif kind == 1:
            m = rng.choice([33, 34, 1000])
            equations = [0] * (m * (n + 1)) if rng.random() < 0.5 else equations
        else:
            k = rng.choice([65, 66, 1000])
            inequalities = [0] * (k * (n + 1)) if rng.random() < 0.5 else inequalities
        yield n, m, k, equations, inequalities


def sparse_row(rng, n, size):
    """A row with 1 to 3 coefficients."""
    row = [0] * n
    for _ in range(rng.randint(1, 3)):
        row[rng.randrange(n)] = rng.randint(-size, size)
    return row + [rng.randint(-size, size)]


def triangular_row(rng, n, column):
    """A row that begins at a column with a unit, with few further numbers behind it."""
    row = [0] * n
    row[column] = rng.choice([-1, 1])
    for _ in range(rng.randint(0, 2)):
        if column + 1 < n:
            row[rng.randrange(column + 1, n)] = rng.randint(-2, 2)
    return row + [rng.randint(-3, 3)]


def through_zero(rows, slack):
    """The rows with another constant, so that x = 0 satisfies them."""
    return [row[:-1] + [-slack] for row in rows]


def large(rng, count):
    """n = 32, m = 32, k = 64: sparse, triangular, repeated or dense rows, half of them through x = 0."""
    for _ in range(count):
        kind = rng.randrange(4)
        if kind == 0:
            equations = [sparse_row(rng, 32, 2) for _ in range(32)]
        elif kind == 1:
            equations = [triangular_row(rng, 32, column) for column in range(32)]
        elif kind == 2:
            half = [triangular_row(rng, 32, 2 * column) for column in range(16)]
            equations = half + [list(rng.choice(half)) for _ in range(16)]
        else:
            equations = [numbers(rng, 33, 9) for _ in range(32)]
        inequalities = [sparse_row(rng, 32, 4) for _ in range(64)]
        if rng.random() < 0.5:
            equations, inequalities = through_zero(equations, 0), through_zero(inequalities, 1)
        yield system_of(32, equations, inequalities)


# Every system of these can be written as a text.
WRITABLE = (
    small, dense, solvable, dependence, near_limit, edge_of_limit, divisors, many_steps, dependent_rows,
    parities, too_large_entry, too_large_run, too_large_inequality, large,
)
# The tables of these do not fit their counts, or the counts are out of range.
FOR_THE_SOLVER = (wrong_lengths, out_of_range)
