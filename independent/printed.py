"""The printed answer of document 01."""

from elimination import rows_of
from calls import fresh, solve
from texts import read_text


def line(numbers):
    """Numbers with one space between them."""
    return " ".join(str(number) for number in numbers)


def error_line(refusal):
    """What a refusal prints: its number and its fields."""
    return '(error "' + line(refusal[1:]) + '")'


def names_line(equations, inequalities):
    """The names in use, from sets of numbers that count from 1."""
    names = ["e%d" % j for j in sorted(equations)] + ["i%d" % i for i in sorted(inequalities)]
    return "(" + " ".join(names) + ")"


def conflict_names(m, outcome, tables):
    """The names after `unsat`."""
    if outcome[0] == "equation conflict":
        return names_line({j + 1 for j in range(m) if tables["conflict"][j] != 0}, set())
    rows = set(outcome[1:-1])
    equations = {j + 1 for i in rows for j in range(m) if tables["used"][i - 1] >> j & 1}
    return names_line(equations, rows)


def matrices(n, k, tables):
    """The lines of the two PolyLib matrices of an open system."""
    kept = [column for column in range(n) if tables["marks"][column] == 1] + [n]
    lines = [line([n, 1 + n + len(kept)])]
    for i, row in enumerate(rows_of(tables["substitution"], n + 1)):
        minus_x = [-1 if column == i else 0 for column in range(n)]
        lines.append(line([0] + minus_x + [row[column] for column in kept]))
    lines.append(line([k, 1 + len(kept)]))
    for row in rows_of(tables["tightened"], n + 1):
        lines.append(line([1] + [-row[column] for column in kept]))
    return lines


def answer_lines(n, m, k, outcome, tables):
    """The lines the program prints for an outcome of the solver."""
    if outcome[0] == "refusal":
        return [error_line(outcome)]
    if outcome[0] == "open":
        return ["sat" if k == 0 else "unknown"] + matrices(n, k, tables)
    return ["unsat", conflict_names(m, outcome, tables)]


def answer_and_tables(data):
    """The printed answer and the result tables; there are none (None) where the reader refuses."""
    read = read_text(data)
    if read[0] == "refusal":
        lines, tables = [error_line(read)], None
    else:
        n, m, k = read[1:4]
        equations, inequalities = read[4][:m * (n + 1)], read[5][:k * (n + 1)]
        outcome, tables = solve(n, m, k, equations, inequalities, fresh(n, m, k))
        lines = answer_lines(n, m, k, outcome, tables)
    return "".join(text + "\n" for text in lines).encode("ascii"), tables


def answer(data):
    """Exactly what the program prints for that standard input."""
    return answer_and_tables(data)[0]
