"""The settled readings."""

import document01 as lib
from checks import check, same
from test_systems import expect, outcome_of, run_rows

W = lib.W


def readings_of_the_run():
    for equations, wanted in [
        ([(1, 0, 0, 0), (0, 1, 2, 0), (0, W, -W, 0)], (4, 2, 1)),
        ([(1, 2, 0), (W, -W, 0)], (4, 1, 0)),
        ([(65536, 0, 0), (0, 59049, 0), (1, 2187, 0)], (4, 2, 1)),
        ([(0, -3, 0), (9, 512, 0), (991657, 0, 0)], (4, 2, 1)),
        ([(16384, 0, 0), (1, 32768, 16384)], (4, 2, 1)),
        ([(-19683, -8, 0, -3), (-1, -4, -2, 3)], (4, 2, 4)),
    ]:
        expect((equations, []), ("refusal", *wanted))
    same(outcome_of([(1, 2, 0), (W, W, 0)]), ("open", 2))
    same(outcome_of([(1, -2, 0)], [(W, -W, 0)])[0], "open")
    same(outcome_of([(-2, 89934462, 0), (3, 0, 1)])[:2], ("equation conflict", 2))
    outcome, tables = run_rows([(3, 5, -7), (2, 0, -1)], [(W, W, W)])
    same(outcome, ("equation conflict", 2, 3))
    check(not any(number for name, table in tables.items() if name != "conflict" for number in table), tables)


def readings_of_inequalities():
    expect(([(2, 1, 0), (1, 0, 0)], [(W, -W, 0)]), ("refusal", 5, 1))
    # Refusal 5 in the second row goes before the conflict in the first, and the lowest such row is named.
    expect(([(1, -W, 0)], [(0, 0, 1), (W, 0, 0), (-W, 0, 0)]), ("refusal", 5, 2))
    # A one-row conflict goes before a two-row conflict in lower rows.
    same(outcome_of([], [(1, 0), (-1, 1), (0, 0), (0, 1)]), ("one-row conflict", 4, 0))
    same(outcome_of([], [(1, 1), (2, 0), (-2, 1), (-1, 0)]), ("two-row conflict", 1, 3, 0))
    # The rows are compared after tightening: 2y - 1 <= 0 is y + 0 <= 0 and meets -y + 1 <= 0.
    same(outcome_of([], [(2, -1), (-1, 1)]), ("two-row conflict", 1, 2, 0))
    rows = [[0] * 33 for _ in range(32)]
    rows[31][0] = 1
    outcome, tables = run_rows(rows, [[1] + [0] * 32])
    same(outcome, ("open", 1))
    same(tables["used"], [2**31])


def readings_of_refusals():
    good = lib.fresh(1, 1, 1, 5)
    for name in lib.RESULT_TABLES:
        for wrong in (good[name] + [5], good[name][:-1]):
            results = dict(good, **{name: wrong})
            same(lib.solve(1, 1, 1, [W + 1, 0], [1, 0], results), (("refusal", 2), results), name)
    empty = lib.fresh(1, 0, 0, 5)
    for name in ("tightened", "used"):
        results = dict(empty, **{name: [5]})
        same(lib.solve(1, 0, 0, [], [], results), (("refusal", 2), results), name)
    same(lib.solve(1, 0, 0, [0], [], empty)[0], ("refusal", 2))
    same(lib.solve(1, 0, 0, [], [0], empty)[0], ("refusal", 2))
    for n, m, k in [(0, 0, 0), (33, 0, 0), (1, 33, 0), (1, 0, 65), (1, -1, 0), (1, 0, -1)]:
        same(lib.solve(n, m, k, [W + 1], [], good), (("refusal", 1), good), n, m, k)
    expect(([(1, 1, 0), (1, 0, -W - 1)], [(W + 1, 0, 0)]), ("refusal", 3, 0, 2, 3))
    expect(([(1, 1, 0), (1, 0, -W)], [(0, 0, 0), (0, -W - 1, W + 1)]), ("refusal", 3, 1, 2, 2))


def readings_of_the_checker():
    for arguments, wanted in [
        ((0, 1, [W + 1], []), (1,)),
        ((1, 33, [], []), (1,)),
        ((1, 1, [W + 1], [1, 2]), (2,)),
        ((1, 1, [W + 1, 0], [1]), (2,)),
        ((1, 1, [0, -W - 1], [W + 1, -1]), (3, 0, 1, 2)),
        ((1, 1, [1, 0], [-W - 1, -1]), (3, 2, 1, 1)),
        ((1, 1, [1, 0], [1, -1]), (3, 2, 1, 2)),
        ((1, 1, [1, 0], [1, 2**56 + 1]), (3, 2, 1, 2)),
        ((1, 0, [], [-1]), (3, 2, 1, 1)),
    ]:
        same(lib.check_multipliers(*arguments), ("refusal", *wanted), arguments)
    for arguments, wanted in [
        ((1, 1, [0, 1], [1, 2**56]), "yes"),
        ((1, 1, [0, 0], [1, 2**56]), "no"),
        ((2, 1, [6, 4, -3], [1, 2]), "yes"),
        ((2, 1, [6, 4, -4], [1, 2]), "no"),
        ((2, 2, [2, 0, -6, 3, 4, -7], [-3, 2, 8]), "yes"),
        ((2, 2, [2, 0, -6, 3, 4, -7], [-3, 2, 4]), "no"),
        ((2, 2, [2, 0, -6, 3, 4, -7], [-3, 2, 16]), "no"),
        ((1, 2, [1, 0, 1, -1], [-1, 1, 0]), "yes"),
        ((1, 2, [1, 0, 1, -1], [-1, 2, 0]), "no"),
        ((1, 0, [], [0]), "no"),
        ((1, 0, [], [7]), "no"),
    ]:
        same(lib.check_multipliers(*arguments), (wanted,), arguments)


def zero_rows(equations, inequalities):
    """A text of zero rows over one variable."""
    return b"%d 3\n" % (equations + inequalities) + b"0 0 0\n" * equations + b"1 0 0\n" * inequalities


READER_REFUSALS = [
    (b"97 4x", (6, 4)), (b"97 4", (1,)), (b"97 4 ", (1,)), (b"97 4\r", (6, 5)), (b"97 4\n\xff", (1,)),
    (b"96 35\n", (1,)), (b"0 2\n", (1,)), (b"0 2", (1,)), (b"1 3", (6, 3)),
    (zero_rows(33, 0), (1,)), (zero_rows(0, 65), (1,)), (zero_rows(33, 0) + b"x", (6, len(zero_rows(33, 0)))),
    (b"0 3\r", (6, 4)), (b"0 3\r\r\n", (6, 4)), (b"1 3\n0 1\r\n", (6, 7)), (b"0 3\n\r", (6, 5)), (b"\r", (6, 1)),
    (b"", (6, 0)), (b"#", (6, 1)), (b"2 3\n0 1 1\n", (6, 10)), (b"1 3\n0 1 -", (6, 9)), (b"1 3\n0 1 1-", (6, 9)),
    (b"1 3\n0 1 \n", (6, 8)), (b"1 3\n0 1 1  1\n", (6, 11)), (b"1 3\n0 1 1 -1\n", (6, 10)),
    (b"1 3\n0 1 1\n  0 1 1", (6, 12)), (b"1 3\n00 1 1", (6, 5)), (b"1 3\n2 1 1", (6, 4)), (b"1 3\n-0 1 1", (6, 4)),
    (b"1 3\n0 00000000001 1", (6, 16)), (b"1 3\n0 -00000000001 1", (6, 17)), (b"-1 3", (6, 0)), (b"1 -3", (6, 2)),
    (b"00000000000 3", (6, 10)), (b" # x\n0 3", (6, 1)), (b"0 3 # x", (6, 4)), (b"0 3\n #", (6, 5)),
    (b" " * 65_537, (7,)), (b"97 4\n" + b" " * 65_532, (7,)), (b" " * 65_536, (6, 65_536)),
]


def readings_of_the_reader():
    for data, wanted in READER_REFUSALS:
        same(lib.read_text(data), ("refusal", *wanted), data[:40])
    same(lib.read_text(b"0 3"), ("system", 1, 0, 0, [0] * 1056, [0] * 2112))
    same(lib.read_text(b"0 3\n" + b"\n" * 65_532)[:4], ("system", 1, 0, 0))
    same(lib.read_text(zero_rows(32, 64))[:4], ("system", 1, 32, 64))
    mixed = b"#\r\xff\n \t\r\n\t3 4 \r\n#\n1 1 -2 003\n\n 0\t-0 5 9999999999\t\n1 0 0 -7\n#end"
    wanted = [0, 5, 9999999999] + [0] * 1053, [-1, 2, -3, 0, 0, 7] + [0] * 2106
    same(lib.read_text(mixed), ("system", 2, 1, 2, *wanted))
    # A number past W is well formed and left to the solver.
    same(lib.answer(b"2 3\n1 0 268435456\n0 268435456 1"), b'(error "3 0 1 1")\n')
    same(lib.answer(b"2 3\n1 0 -268435456\n0 268435455 1"), b'(error "3 1 1 2")\n')


def readings_of_the_program():
    for data, wanted in [
        (b"1 3\n0 1 -5\n", b"sat\n1 3\n0 -1 5\n0 2\n"),
        (b"1 3\n1 0 -1\n", b"unsat\n(i1)\n"),
        (b"3 3\n1 1 0\n0 0 0\n1 -1 -1\n", b"unsat\n(i1 i2)\n"),
        (b"2 3\n0 1 0\n0 1 -1\n", b"unsat\n(e1 e2)\n"),
        (b"2 4\n0 1 2 0\n0 268435455 -268435455 0\n", b'(error "4 1 0")\n'),
        (b"97 4", b'(error "1")\n'),
        (b" " * 65_537, b'(error "7")\n'),
    ]:
        same(lib.answer(data), wanted, data[:40])
