"""The reader of PolyLib texts of document 01."""

import re

from elimination import (
    EQUATIONS_TABLE, INEQUALITIES_TABLE, LONGEST_TEXT, MOST_EQUATIONS, MOST_INEQUALITIES, MOST_VARIABLES, Refused,
    flat,
)

BLANKS = b" \t"
SOME_BLANKS = re.compile(rb"[ \t]*")
SOME_DIGITS = re.compile(rb"[0-9]{0,10}")


class Text:
    """The bytes and the place in them. All before the place is the beginning of some well-formed text."""

    def __init__(self, data):
        self.data = data
        self.place = 0

    def at_end(self):
        return self.place == len(self.data)

    def next_in(self, group):
        """Whether there is a next byte and it is one of the group."""
        return not self.at_end() and self.data[self.place] in group

    def bad(self):
        """Refusal 6 at the place: the next byte fits nowhere, or the text stops too early."""
        raise Refused(6, self.place)

    def skip(self, some):
        """Over as many of the next bytes as match."""
        self.place = some.match(self.data, self.place).end()

    def skip_blanks(self):
        self.skip(SOME_BLANKS)

    def skip_comment(self):
        """The rest of a comment line with its LF, or with the text's end."""
        line_feed = self.data.find(b"\n", self.place)
        self.place = len(self.data) if line_feed < 0 else line_feed + 1


def line_end(text):
    """LF, CR LF or the end of the text. A CR is good by itself, but then only an LF is."""
    if text.at_end():
        return
    if text.next_in(b"\r"):
        text.place += 1
    if not text.next_in(b"\n"):
        text.bad()
    text.place += 1


def find_line(text):
    """From a line's start to the first byte that is not blank of the next header or row line; False if none comes."""
    while not text.at_end():
        if text.next_in(b"#"):
            text.skip_comment()
            continue
        text.skip_blanks()
        if not text.at_end() and not text.next_in(b"\r\n"):
            return True
        line_end(text)
    return False


def read_count(text):
    """1 to 10 digits. An 11th is left for the caller, who finds it bad."""
    start = text.place
    text.skip(SOME_DIGITS)
    if text.place == start:
        text.bad()
    return int(text.data[start:text.place])


def read_number(text):
    """An optional minus and 1 to 10 digits."""
    if text.next_in(b"-"):
        text.place += 1
        return -read_count(text)
    return read_count(text)


def separator(text):
    """At least one space or tab."""
    if not text.next_in(BLANKS):
        text.bad()
    text.skip_blanks()


def finish_line(text):
    """Blanks and the line's end."""
    text.skip_blanks()
    line_end(text)


def read_header(text):
    """The number of rows and of columns."""
    if not find_line(text):
        text.bad()
    rows = read_count(text)
    separator(text)
    columns = read_count(text)
    finish_line(text)
    # The counts are judged only now that the line has ended: until then a bad byte is refusal 6.
    if rows > MOST_EQUATIONS + MOST_INEQUALITIES or not 3 <= columns <= MOST_VARIABLES + 2:
        raise Refused(1)
    return rows, columns


def read_row(text, columns):
    """The mark and the numbers of one row."""
    if not find_line(text) or not text.next_in(b"01"):
        text.bad()
    mark = text.data[text.place] - ord("0")
    text.place += 1
    numbers = []
    for _ in range(columns - 1):
        separator(text)
        numbers.append(read_number(text))
    finish_line(text)
    return mark, numbers


def read_system(text):
    """A whole text: n, the equation rows and the inequality rows, the latter negated."""
    count, columns = read_header(text)
    equations, inequalities = [], []
    for _ in range(count):
        mark, numbers = read_row(text, columns)
        if mark == 0:
            equations.append(numbers)
        else:
            inequalities.append([-number for number in numbers])
    if find_line(text):
        text.bad()
    if len(equations) > MOST_EQUATIONS or len(inequalities) > MOST_INEQUALITIES:
        raise Refused(1)
    return columns - 2, equations, inequalities


def filled(rows, length):
    """A row table: the rows at the front, zeros behind."""
    numbers = flat(rows)
    return numbers + [0] * (length - len(numbers))


def read_text(data):
    """The system a text holds, in row tables of 1,056 and 2,112 numbers, or the refusal."""
    if len(data) > LONGEST_TEXT:
        return ("refusal", 7)
    try:
        n, equations, inequalities = read_system(Text(data))
    except Refused as refused:
        return refused.outcome
    return (
        "system", n, len(equations), len(inequalities),
        filled(equations, EQUATIONS_TABLE), filled(inequalities, INEQUALITIES_TABLE),
    )
