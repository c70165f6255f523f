"""Reads one system from standard input and prints the outcome. With --tables, the result tables follow."""

import sys

from document01 import RESULT_TABLES, answer_and_tables


def table_lines(tables):
    """One line for each result table: name, colon, numbers. There are none if the reader refused."""
    if tables is None:
        return b""
    lines = [name + ":" + "".join(" %d" % number for number in tables[name]) + "\n" for name in RESULT_TABLES]
    return "".join(lines).encode("ascii")


def main(arguments):
    if arguments not in ([], ["--tables"]):
        sys.stderr.write("usage: plassobine.py [--tables] < system\n")
        return 2
    printed, tables = answer_and_tables(sys.stdin.buffer.read())
    sys.stdout.buffer.write(printed)
    if arguments:
        sys.stdout.buffer.write(table_lines(tables))
    return 0


if __name__ == "__main__":
    sys.exit(main(sys.argv[1:]))
