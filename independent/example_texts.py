"""Texts for the reader with the exact bytes to be printed: all that the settled readings state, and their neighbours.

The places were counted by hand. (name, text, answer)
"""

ONE_FREE_VARIABLE = b"sat\n1 4\n0 -1 1 0\n0 3\n"
X1_IS_ZERO = b"sat\n1 3\n0 -1 0\n0 2\n"

HEADERS = (
    ("97 rows, bad behind the columns", b"97 4x", b'(error "6 4")\n'),
    ("97 rows, the text's end ends the line", b"97 4", b'(error "1")\n'),
    ("97 rows, then bad bytes", b"97 4\n\xff", b'(error "1")\n'),
    ("97 rows, a CR alone", b"97 4\r", b'(error "6 5")\n'),
    ("35 columns", b"96 35\n", b'(error "1")\n'),
    ("2 columns", b"0 2\n", b'(error "1")\n'),
    ("no columns", b"1 0", b'(error "1")\n'),
    ("no columns, then a bad byte in the header's line", b"1 0 x", b'(error "6 4")\n'),
    ("the largest counts that can be written", b"9999999999 9999999999\n", b'(error "1")\n'),
    # 4294967296 is 2^32 and 4294967299 is 3 more: counts kept in 32 bits would come out as `0 3`.
    ("counts past 32 bits", b"4294967296 4294967299\n", b'(error "1")\n'),
    ("a row is missing", b"1 3", b'(error "6 3")\n'),
    ("no rows", b"0 3", ONE_FREE_VARIABLE),
    ("leading zeros", b"0000000000 0000000003", ONE_FREE_VARIABLE),
    ("an 11th digit", b"00000000000 3", b'(error "6 10")\n'),
    ("a header count takes no minus", b"-1 3", b'(error "6 0")\n'),
    ("a header count takes no minus, columns", b"1 -3", b'(error "6 2")\n'),
    ("a third number in the header", b"0 3 3\n", b'(error "6 4")\n'),
)

LINE_ENDS = (
    ("CR LF", b"1 3\r\n0 1 0\r\n", X1_IS_ZERO),
    ("a CR at the end of the text", b"0 3\r", b'(error "6 4")\n'),
    ("two CRs", b"0 3\r\r\n", b'(error "6 4")\n'),
    ("a CR where the line cannot end yet", b"1 3\n0 1\r\n", b'(error "6 7")\n'),
    ("a CR at the start of the last line", b"0 3\n\r", b'(error "6 5")\n'),
    ("only a CR", b"\r", b'(error "6 1")\n'),
    ("a CR in a comment", b"#\r\xff\x00\n0 3", ONE_FREE_VARIABLE),
    ("a comment that ends with the text", b"0 3\n#\r", ONE_FREE_VARIABLE),
)

EARLY_ENDS = (
    ("the empty text", b"", b'(error "6 0")\n'),
    ("a comment alone", b"#", b'(error "6 1")\n'),
    ("one of two rows", b"2 3\n0 1 1\n", b'(error "6 10")\n'),
    ("a minus at the end", b"1 3\n0 1 -", b'(error "6 9")\n'),
    ("blanks alone", b" \t\n", b'(error "6 3")\n'),
    ("one count", b"1", b'(error "6 1")\n'),
)

ROWS = (
    ("too short", b"1 3\n0 1 \n", b'(error "6 8")\n'),
    ("too long", b"1 3\n0 1 1  1\n", b'(error "6 11")\n'),
    ("too long, with a minus", b"1 3\n0 1 1 -1\n", b'(error "6 10")\n'),
    ("a row too many", b"1 3\n0 1 1\n  0 1 1", b'(error "6 12")\n'),
    ("the mark 00", b"1 3\n00 1 1", b'(error "6 5")\n'),
    ("the mark 2", b"1 3\n2 1 1", b'(error "6 4")\n'),
    ("the mark -0", b"1 3\n-0 1 1", b'(error "6 4")\n'),
    ("leading zeros and -0", b"1 3\n0 0000000001 -0\n", X1_IS_ZERO),
    ("an 11th digit", b"1 3\n0 00000000001 1", b'(error "6 16")\n'),
    ("an 11th digit behind a minus", b"1 3\n0 -00000000001 1", b'(error "6 17")\n'),
    ("a minus behind digits", b"1 3\n0 1 1-", b'(error "6 9")\n'),
    ("two minuses", b"1 3\n0 1 --1", b'(error "6 9")\n'),
    ("a plus", b"1 3\n0 1 +1", b'(error "6 8")\n'),
    ("tabs, and blanks around a line", b"\t1 \t3 \n \t0\t1  0\t \n", X1_IS_ZERO),
    ("packed with stride n + 1", b"2 4\n0 1 0 -2\n0 0 1 -3\n", b"sat\n2 4\n0 -1 0 2\n0 0 -1 3\n0 2\n"),
    ("equations and inequalities mixed", b"3 4\n1 0 1 0\n0 1 0 -2\n1 0 -1 4\n",
     b"unknown\n2 5\n0 -1 0 0 2\n0 0 -1 1 0\n2 3\n1 1 0\n1 -1 4\n"),
)

COMMENTS = (
    ("# behind a blank", b" # x\n0 3", b'(error "6 1")\n'),
    ("# behind the header", b"0 3 # x", b'(error "6 4")\n'),
    ("# behind a blank, after the last row", b"0 3\n #", b'(error "6 5")\n'),
    ("everywhere", b"#1\n\n \t\r\n1 3\n#2\n\t\n0 1 0\n#3\n\n", X1_IS_ZERO),
)

LIMITS = (
    ("33 equations", b"33 3\n" + b"0 0 0\n" * 33, b'(error "1")\n'),
    ("65 inequalities", b"65 3\n" + b"1 0 0\n" * 65, b'(error "1")\n'),
    ("33 equations, then a bad byte", b"33 3\n" + b"0 0 0\n" * 33 + b"x", b'(error "6 203")\n'),
    ("33 equations, the last row cut off", b"33 3\n" + b"0 0 0\n" * 32 + b"0 0", b'(error "6 200")\n'),
    ("32 equations", b"32 3\n" + b"0 0 0\n" * 32, ONE_FREE_VARIABLE),
    ("32 equations and 64 inequalities", b"96 3\n" + b"0 0 0\n" * 32 + b"1 0 0\n" * 64,
     b"unknown\n1 4\n0 -1 1 0\n64 3\n" + b"1 0 0\n" * 64),
    ("34 columns", b"1 34\n1" + b" 0" * 32 + b" -1\n", b"unsat\n(i1)\n"),
    ("65,536 bytes, good", b"0 3\n" + b"\n" * 65_532, ONE_FREE_VARIABLE),
    ("65,536 bytes, all blank", b" " * 65_536, b'(error "6 65536")\n'),
    ("65,537 bytes, good", b"0 3\n" + b"\n" * 65_533, b'(error "7")\n'),
    ("65,537 bytes, all blank", b" " * 65_537, b'(error "7")\n'),
    ("65,537 bytes, 97 rows", b"97 4\n" + b" " * 65_532, b'(error "7")\n'),
    ("65,537 bytes, bad from the start", b"x" * 65_537, b'(error "7")\n'),
    ("200,000 bytes", b"0 3\n" + b"#" * 199_996, b'(error "7")\n'),
)

TEXTS = HEADERS + LINE_ENDS + EARLY_ENDS + ROWS + COMMENTS + LIMITS
