"""The solver and the multiplier checker of document 01: flat tables in, an outcome and flat tables out."""

from elimination import (
    LARGEST_D, MOST_EQUATIONS, MOST_INEQUALITIES, MOST_VARIABLES, RESULT_TABLES, Refused, Run, W, eliminate, flat,
    last_outcome, rows_of, work_inequalities,
)


def result_lengths(n, m, k):
    """The length of each result table."""
    return {
        "substitution": n * (n + 1),
        "marks": n,
        "way_back": n * (n + 1),
        "reasons": n * (m + 1),
        "conflict": m + 1,
        "tightened": k * (n + 1),
        "used": k,
    }


def fresh(n, m, k, fill=0):
    """Result tables of the right lengths."""
    return {name: [fill] * length for name, length in result_lengths(n, m, k).items()}


def refuse_counts(n, m, k):
    """Refusal 1."""
    if not (1 <= n <= MOST_VARIABLES and 0 <= m <= MOST_EQUATIONS and 0 <= k <= MOST_INEQUALITIES):
        raise Refused(1)


def refuse_entries(number, table, width):
    """Refusal 3 for an input table: the first bad entry, by row and then by column."""
    for at, entry in enumerate(table):
        if not -W <= entry <= W:
            raise Refused(3, number, at // width + 1, at % width + 1)


def refuse_lengths(n, m, k, equations, inequalities, results):
    """Refusal 2, for the two input tables and the seven result tables."""
    right = len(equations) == m * (n + 1) and len(inequalities) == k * (n + 1)
    for name, length in result_lengths(n, m, k).items():
        right = right and len(results[name]) == length
    if not right:
        raise Refused(2)


def solve_in_range(n, m, k, equations, inequalities):
    """The run and the inequalities, for tables that have passed refusals 1 to 3."""
    run = Run(n, m, equations)
    tables = fresh(n, m, k)
    ended = eliminate(run)
    if ended is not None:
        outcome, tables["conflict"] = ended
        return outcome, tables
    tightened, used = work_inequalities(run, inequalities)
    tables["substitution"] = flat(run.substitution)
    tables["marks"] = run.marks
    tables["way_back"] = flat(run.way_back)
    tables["reasons"] = flat(run.reasons)
    tables["tightened"] = flat(tightened)
    tables["used"] = used
    return last_outcome(tightened, run.steps), tables


def solve(n, m, k, equations, inequalities, results):
    """The outcome, and the result tables as the solver leaves them. Nothing that was lent is changed."""
    try:
        refuse_counts(n, m, k)
        refuse_lengths(n, m, k, equations, inequalities, results)
    except Refused as refused:
        return refused.outcome, {name: list(results[name]) for name in RESULT_TABLES}
    try:
        refuse_entries(0, equations, n + 1)
        refuse_entries(1, inequalities, n + 1)
        return solve_in_range(n, m, k, equations, inequalities)
    except Refused as refused:
        return refused.outcome, fresh(n, m, k)


def divides(d, number):
    """Whether d divides the number; 0 divides only 0."""
    return number == 0 if d == 0 else number % d == 0


def refuse_multipliers(m, table):
    """Refusal 3 for a table of multipliers and D."""
    for at in range(m):
        if not -W <= table[at] <= W:
            raise Refused(3, 2, 1, at + 1)
    if not 0 <= table[m] <= LARGEST_D:
        raise Refused(3, 2, 1, m + 1)


def check_multipliers(n, m, equations, table):
    """Whether the multipliers and D show that no whole numbers satisfy the equations."""
    try:
        refuse_counts(n, m, 0)
        if len(equations) != m * (n + 1) or len(table) != m + 1:
            raise Refused(2)
        refuse_entries(0, equations, n + 1)
        refuse_multipliers(m, table)
    except Refused as refused:
        return refused.outcome
    rows = rows_of(equations, n + 1)
    combined = [sum(table[j] * rows[j][column] for j in range(m)) for column in range(n + 1)]
    d = table[m]
    if all(divides(d, number) for number in combined[:n]) and not divides(d, combined[n]):
        return ("yes",)
    return ("no",)
