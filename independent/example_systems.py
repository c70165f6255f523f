"""Systems as texts, with the exact bytes to be printed: document 01's own, and those that the settled readings name.

The answers were worked by hand from the document and its readings. W is 268435455. A row of a text says `sum + constant >= 0`
where the document's table says `<= 0`, so inequality rows are the negated ones. (name, text, answer)
"""

DOCUMENT = (
    ("the first printed example, and P2", b"2 4\n0 3 5 -7\n1 1 0 0\n",
     b"unknown\n2 5\n0 -1 0 -5 4\n0 0 -1 3 -1\n1 3\n1 -1 0\n"),
    ("the second printed example, and P3", b"3 4\n0 3 5 -7\n1 1 0 0\n1 0 1 0\n", b"unsat\n(e1 i1 i2)\n"),
    ("P1", b"1 4\n0 3 5 -7\n", b"sat\n2 5\n0 -1 0 -5 4\n0 0 -1 3 -1\n0 3\n"),
    ("P4", b"1 4\n0 6 4 -3\n", b"unsat\n(e1)\n"),
    ("P5", b"2 4\n0 2 0 -6\n0 3 4 -7\n", b"unsat\n(e1 e2)\n"),
    ("P6", b"2 3\n0 1 0\n0 1 -1\n", b"unsat\n(e1 e2)\n"),
    ("P7", b"1 3\n0 0 0\n", b"sat\n1 4\n0 -1 1 0\n0 3\n"),
    ("P8, n = 1", b"0 3\n", b"sat\n1 4\n0 -1 1 0\n0 3\n"),
    ("P8, n = 2", b"0 4\n", b"sat\n2 6\n0 -1 0 1 0 0\n0 0 -1 0 1 0\n0 4\n"),
    ("P9", b"2 4\n0 1 2 0\n0 268435455 -268435455 0\n", b'(error "4 1 0")\n'),
    ("P10", b"2 4\n0 1 -268435455 0\n1 -268435455 0 0\n", b'(error "5 1")\n'),
    ("P11", b"1 3\n0 268435455 0\n", b"sat\n1 3\n0 -1 0\n0 2\n"),
    ("P11, W + 1", b"1 3\n0 268435456 0\n", b'(error "3 0 1 1")\n'),
    ("P12, 5y - 3", b"1 3\n1 -5 3\n", b"unknown\n1 4\n0 -1 1 0\n1 3\n1 -1 0\n"),
    ("P12, -5y + 2", b"1 3\n1 5 -2\n", b"unknown\n1 4\n0 -1 1 0\n1 3\n1 1 -1\n"),
    ("P12, 2y - 4", b"1 3\n1 -2 4\n", b"unknown\n1 4\n0 -1 1 0\n1 3\n1 -2 4\n"),
    ("5y + 2 means y + 1", b"1 3\n1 -5 -2\n", b"unknown\n1 4\n0 -1 1 0\n1 3\n1 -1 -1\n"),
)

THE_RUN = (
    ("refusal 4's steps are those of the whole run",
     b"3 5\n0 1 0 0 0\n0 0 1 2 0\n0 0 268435455 -268435455 0\n", b'(error "4 2 1")\n'),
    # x1 = y1 - 2·y2 makes row 2 come to W·y1 - W·y2, by way of W·2, which may not stand; both columns are closed.
    ("a product is not listed in the run",
     b"2 4\n0 1 2 0\n0 268435455 268435455 0\n", b"sat\n2 4\n0 -1 0 0\n0 0 -1 0\n0 2\n"),
    # x1 = y1 + 2·y2 makes the sum W·y1 + W·y2; W divides the constant 0, so the row stays.
    ("a product is not listed in an inequality", b"2 4\n0 1 -2 0\n1 -268435455 268435455 0\n",
     b"unknown\n2 5\n0 -1 0 2 0\n0 0 -1 1 0\n1 3\n1 -268435455 0\n"),
    ("multipliers and divisors are listed before lowest terms",
     b"3 4\n0 65536 0 0\n0 0 59049 0\n0 1 2187 0\n", b'(error "4 2 1")\n'),
    ("a step counts after the work of (d)", b"3 4\n0 0 -3 0\n0 9 512 0\n0 991657 0 0\n", b'(error "4 2 1")\n'),
    ("the too large of (a) goes before the conflict of (b)", b"2 4\n0 16384 0 0\n0 1 32768 16384\n", b'(error "4 2 1")\n'),
    # Row 2 has the multipliers (3, 2) then, and D is 2·134901693, which is past W.
    ("D is not listed", b"2 4\n0 -2 89934462 0\n0 3 0 1\n", b"unsat\n(e1 e2)\n"),
    ("the way back is listed", b"2 5\n0 -19683 -8 0 -3\n0 -1 -4 -2 3\n", b'(error "4 2 4")\n'),
    # Row 2 comes to 4·y1 - 10·y2 + 7 and loses the 4: multipliers (-4, 1).
    ("only the row in hand is divided and tested", b"2 4\n0 3 5 -7\n0 2 0 -1\n", b"unsat\n(e1 e2)\n"),
    ("an equation conflict comes before any inequality is worked",
     b"3 4\n0 3 5 -7\n0 2 0 -1\n1 -268435455 -268435455 -268435455\n", b"unsat\n(e1 e2)\n"),
)

# What P1 to P12 do not show: P1 comes out the same with flooring.
CHOICES_OF_THE_RUN = (
    # -3 by 2 is -1, then 2 by -1 is -2: x1 = 3·y1 + y2, x2 = 2·y1 + y2. Flooring would give -3 and -2.
    ("truncation toward zero", b"1 4\n0 2 -3 0\n", b"sat\n2 5\n0 -1 0 3 0\n0 0 -1 2 0\n0 3\n"),
    # -5 by 2 is -2, then -1 by -1 is 1: the constants are 2 + 1 - 2 and -1.
    ("truncation of the constant", b"1 4\n0 2 -3 -5\n", b"sat\n2 5\n0 -1 0 3 1\n0 0 -1 2 -1\n0 3\n"),
    ("the lowest column on a tie", b"1 4\n0 -1 1 5\n", b"sat\n2 5\n0 -1 0 1 5\n0 0 -1 1 0\n0 3\n"),
    # Row 3 meets row 2 with (d/e)·m_h = 16385·16384, which is past W; the sums are (0, -16385, 16385).
    ("(d/e)·m_h is not listed",
     b"3 4\n0 1 0 0\n0 16384 16385 0\n0 16384 16385 0\n", b"sat\n2 4\n0 -1 0 0\n0 0 -1 0\n0 2\n"),
    # Without e = 16384 the divisor would be 2^28 before lowest terms.
    ("divisors are multiplied without what they share", b"3 5\n0 16384 0 0 0\n0 0 16384 0 0\n0 1 1 1 0\n",
     b"sat\n3 5\n0 -1 0 0 0\n0 0 -1 0 0\n0 0 0 -1 0\n0 2\n"),
)

INEQUALITIES = (
    ("the sums of closed columns count for refusal 5",
     b"3 4\n0 2 1 0\n0 1 0 0\n1 -268435455 268435455 0\n", b'(error "5 1")\n'),
    ("refusal 5 goes before a conflict in a lower row, and the lowest such row is told",
     b"4 4\n0 1 -268435455 0\n1 0 0 -1\n1 -268435455 0 0\n1 268435455 0 0\n", b'(error "5 2")\n'),
    ("the one-row look goes before the two-row look", b"4 3\n1 -1 0\n1 1 -1\n1 0 0\n1 0 -1\n", b"unsat\n(i4)\n"),
    # Row 3 is tightened to -y + 1, which meets row 1 before row 4 does.
    ("pairs come in order of i, then j", b"4 3\n1 -1 -1\n1 -2 0\n1 2 -1\n1 1 0\n", b"unsat\n(i1 i3)\n"),
    ("rows are compared after tightening", b"2 3\n1 -2 1\n1 1 -1\n", b"unsat\n(i1 i2)\n"),
    ("the lowest row of a one-row conflict", b"2 3\n1 0 -1\n1 0 -2\n", b"unsat\n(i1)\n"),
    ("opposite rows that leave one point", b"2 3\n1 1 0\n1 -1 0\n", b"unknown\n1 4\n0 -1 1 0\n2 3\n1 1 0\n1 -1 0\n"),
    ("equation 32 can be used", b"33 3\n" + b"0 0 0\n" * 31 + b"0 1 0\n1 1 -1\n", b"unsat\n(e32 i1)\n"),
    # x1 + x2 = 0 and x3 = 0 turn x1 + x2 >= 1 and x3 - x4 >= 0 into 0 >= 1 and -y4 >= 0.
    ("names come from the rows in conflict alone, in the tables' own numbers",
     b"4 6\n1 0 0 1 -1 0\n0 0 0 1 0 0\n1 1 1 0 0 -1\n0 1 1 0 0 0\n", b"unsat\n(e2 i2)\n"),
)

REFUSAL_3 = (
    ("the whole equation table before the inequality table", b"2 3\n1 0 268435456\n0 268435456 1\n", b'(error "3 0 1 1")\n'),
    ("the table's own row and column, equations",
     b"3 4\n1 268435456 0 0\n0 1 1 0\n0 1 0 -268435456\n", b'(error "3 0 2 3")\n'),
    ("the table's own row and column, inequalities",
     b"4 4\n0 1 1 0\n1 0 0 0\n0 1 0 -268435455\n1 0 268435456 -268435456\n", b'(error "3 1 2 2")\n'),
    ("W and -W may stand", b"2 3\n0 268435455 0\n1 -268435455 0\n", b"unknown\n1 3\n0 -1 0\n1 2\n1 0\n"),
    ("ten digits", b"1 3\n0 9999999999 0\n", b'(error "3 0 1 1")\n'),
    ("ten digits and a minus", b"1 3\n1 0 -9999999999\n", b'(error "3 1 1 2")\n'),
    # 4294967296 is 2^32: a number kept in 32 bits would come out as 0.
    ("a number past 32 bits", b"1 3\n0 4294967296 0\n", b'(error "3 0 1 1")\n'),
)

THE_PROGRAM = (
    ("sat prints both matrices", b"1 3\n0 1 -5\n", b"sat\n1 3\n0 -1 5\n0 2\n"),
    ("the equation group may be empty", b"1 3\n1 0 -1\n", b"unsat\n(i1)\n"),
    ("zero multipliers are not named", b"3 3\n0 0 0\n0 1 0\n0 1 -1\n", b"unsat\n(e2 e3)\n"),
    ("an inequality without coefficients that holds", b"1 3\n1 0 0\n", b"unknown\n1 4\n0 -1 1 0\n1 3\n1 0 0\n"),
)

SYSTEMS = DOCUMENT + THE_RUN + CHOICES_OF_THE_RUN + INEQUALITIES + REFUSAL_3 + THE_PROGRAM
