"""The reader against a second definition of its texts."""

import itertools
import random
import re

import document01 as lib
import generate
from checks import check, same


class Grammar:
    """Well-formed texts as a grammar that is tried in all ways at once: each part takes a set of places to the set of
    places where it can end. A part that asks for a byte at the end of the text makes the grammar hungry. As every part
    can be brought to an end, a hungry text has a well-formed continuation."""

    def __init__(self, data):
        self.data = data
        self.hungry = False

    def byte(self, places, group):
        self.hungry = self.hungry or len(self.data) in places
        return {at + 1 for at in places if at < len(self.data) and self.data[at] in group}

    def many(self, places, group):
        """Any number of bytes of a group."""
        reached, new = set(places), set(places)
        while new:
            new = self.byte(new, group) - reached
            reached |= new
        return reached

    def newline(self, places):
        return self.byte(places, b"\n") | self.byte(self.byte(places, b"\r"), b"\n")

    def digits(self, places):
        reached, new = set(), places
        for _ in range(10):
            new = self.byte(new, b"0123456789")
            reached |= new
        return reached

    def number(self, places):
        return self.digits(places | self.byte(places, b"-"))

    def blanks(self, places):
        return self.many(places, b" \t")

    def gap(self, places):
        return self.blanks(self.byte(places, b" \t"))

    def skipped(self, places):
        """A blank line or a comment, without its end."""
        return self.blanks(places) | self.many(self.byte(places, b"#"), NO_LINE_FEED)

    def row(self, places, columns):
        places = self.byte(self.blanks(places), b"01")
        for _ in range(columns - 1):
            if places:
                places = self.number(self.gap(places))
        return self.blanks(places)

    def headers(self, place):
        """Pairs of an end of a header line from the place and the counts in it."""
        for middle in self.digits(self.blanks({place})):
            for start in self.gap({middle}):
                for stop in self.digits({start}):
                    counts = int(self.data[place:middle]), int(self.data[start:stop])
                    for end in self.blanks({stop}):
                        yield end, counts


NO_LINE_FEED = bytes(byte for byte in range(256) if byte != 10)


def grammar_ends(grammar):
    """Where the grammar can end. A text is lines with newlines between them, the last of which may be empty; a state is
    a place at a line's start with the rows still to come and their columns (None before the header)."""
    ends, done, waiting = set(), set(), [(0, None, None)]
    while waiting:
        state = waiting.pop()
        if state in done:
            continue
        done.add(state)
        place, left, columns = state
        after = [(end, left, columns) for end in grammar.skipped({place})]
        if left is None:
            after += [(end, *counts) for end, counts in grammar.headers(place)]
        elif left > 0:
            after += [(end, left - 1, columns) for end in grammar.row({place}, columns)]
        for end, new_left, new_columns in after:
            if new_left == 0:
                ends.add(end)
            waiting += [(start, new_left, new_columns) for start in grammar.newline({end})]
    return ends


def has_continuation(data):
    """Whether the bytes begin (or are) some well-formed text."""
    grammar = Grammar(data)
    ends = grammar_ends(grammar)
    return grammar.hungry or len(data) in ends


def longest_beginning(data):
    """By trying every length; one byte more never helps, so the first bad length ends it."""
    for length in range(1, len(data) + 1):
        if not has_continuation(data[:length]):
            return length - 1
    return len(data)


HEADER_LINE = re.compile(rb"[ \t]*(\d{1,10})[ \t]+(\d{1,10})[ \t]*")
ROW_LINE = re.compile(rb"[ \t]*([01])((?:[ \t]+-?\d{1,10})*)[ \t]*")
BLANK_LINE = re.compile(rb"[ \t]*")


def content_lines(data):
    """All lines that are not skipped, without line ends. A CR before the end of the text stays, as it ends no line."""
    pieces = data.split(b"\n")
    for number, piece in enumerate(pieces):
        last = number == len(pieces) - 1
        if piece[:1] == b"#":
            continue
        if not last and piece[-1:] == b"\r":
            piece = piece[:-1]
        if not BLANK_LINE.fullmatch(piece):
            yield piece


def by_lines(data):
    """A third definition, by splitting into lines: the header's counts (None if bad) and the rows (None if bad)."""
    lines = list(content_lines(data))
    header = HEADER_LINE.fullmatch(lines[0]) if lines else None
    if header is None:
        return None, None
    counts = int(header[1]), int(header[2])
    rows = []
    for line in lines[1:]:
        match = ROW_LINE.fullmatch(line)
        numbers = [int(word) for word in match[2].split()] if match else []
        if match is None or len(numbers) != counts[1] - 1:
            return counts, None
        rows.append((int(match[1]), numbers))
    return counts, rows if len(rows) == counts[0] else None


def expected_reading(data):
    """What read_text has to give, from the grammar and the split lines."""
    if len(data) > 65_536:
        return ("refusal", 7)
    counts, rows = by_lines(data)
    if counts is not None and not (counts[0] <= 96 and 3 <= counts[1] <= 34):
        return ("refusal", 1)
    if rows is None:
        return ("refusal", 6, longest_beginning(data))
    equations = [numbers for mark, numbers in rows if mark == 0]
    inequalities = [[-number for number in numbers] for mark, numbers in rows if mark == 1]
    if len(equations) > 32 or len(inequalities) > 64:
        return ("refusal", 1)
    tables = [lib.flat(equations), lib.flat(inequalities)]
    tables = [table + [0] * (length - len(table)) for table, length in zip(tables, (1056, 2112))]
    return ("system", counts[1] - 2, len(equations), len(inequalities), *tables)


def small_counts(counts):
    """Header counts for which a continuation can be found by trying."""
    return counts[0] <= 6 and 1 <= counts[1] <= 6


def completed(beginning):
    """A well-formed text that continues the beginning, found by trying; None if the header asks for much or none is."""
    for header_tail in (b"", b"\n", b"3", b" 3", b"0 3", b"\n0 3"):
        text = beginning + header_tail
        counts, _ = by_lines(text)
        if counts is None or not small_counts(counts):
            continue
        row = b"\n0" + b" 0" * (counts[1] - 1)
        for tail, more, missing in itertools.product((b"", b"0", b"\n"), range(counts[1]), range(counts[0] + 1)):
            candidate = text + tail + b" 0" * more + row * missing
            if by_lines(candidate)[1] is not None:
                return candidate
    return None


def all_strings(alphabet, longest):
    for length in range(longest + 1):
        for letters in itertools.product(alphabet, repeat=length):
            yield bytes(letters)


def short_texts(rng):
    """All short strings over small alphabets, alone and behind good beginnings, and damaged small texts."""
    yield from all_strings(b"03 \n\r#-", 4)
    for start, alphabet in [
        (b"1 3\n0 1", b" 1\n\r-"), (b"1 3\n", b"01 \r\n#"), (b"0 3", b"0 \r\n#"), (b"1 3\r\n1 -2\t3", b"4 \r\n#x"),
    ]:
        for tail in all_strings(alphabet, 4):
            yield start + tail
    for _ in range(2500):
        text = rng.choice([b"0 3\n", b"1 3\n0 1 1\n", b"2 3\r\n1 -1 0\n0 2 3", b"#\n1 4\n\n1 0 0 -10\n"])
        yield generate.damaged(rng, text)
    for _ in range(1500):
        yield bytes(rng.choice(b"0123 \t\n\r#-x") for _ in range(rng.randint(0, 14)))


def reader_against_grammar():
    rng = random.Random(5)
    seen = {}
    for data in short_texts(rng):
        if len(data) > 100:
            continue
        read = lib.read_text(data)
        same(read, expected_reading(data), data)
        name = "system" if read[0] == "system" else "refusal %d" % read[1]
        seen[name] = seen.get(name, 0) + 1
        if name == "system":
            same(longest_beginning(data), len(data), data)
    return str(seen)


def small_beginning(beginning):
    """Whether a beginning has a header with small counts, or in place of it at most one small count."""
    counts, _ = by_lines(beginning.rstrip(b"\r"))
    if counts is not None:
        return small_counts(counts)
    return re.fullmatch(rb"[ \t]*[0-6]?[ \t]*", b"".join(content_lines(beginning))) is not None


def refused_beginnings_complete():
    """Each beginning that refusal 6 calls good really has a well-formed continuation, where trying can show it."""
    rng = random.Random(6)
    count = 0
    for data in short_texts(rng):
        read = lib.read_text(data)
        if len(data) > 100 or read[:2] != ("refusal", 6) or not small_beginning(data[:read[2]]):
            continue
        check(completed(data[:read[2]]) is not None, "not completed", data, read)
        count += 1
    check(count > 5000, count)
    return "%d beginnings" % count


def texts_of_systems():
    """Writing a system and reading it gives it back; damaged texts of all kinds agree with the second definition."""
    rng = random.Random(7)
    for generator in generate.WRITABLE:
        for system in generator(rng, 5 if generator is generate.large else 60):
            n, m, k, equations, inequalities = system
            for text in (generate.to_text(system), generate.to_text(system, rng)):
                read = lib.read_text(text)
                same(read[:4], ("system", n, m, k))
                same(read[4][:len(equations)] + read[5][:len(inequalities)], equations + inequalities)
                check(not any(read[4][len(equations):]) and not any(read[5][len(inequalities):]))
    counts = {}
    for text in generate.texts(rng, 1500):
        word = lib.answer(text).split()[0 if lib.answer(text)[:1] != b"(" else 1].strip(b'")').decode()
        counts[word] = counts.get(word, 0) + 1
        if len(text) < 150:
            same(lib.read_text(text), expected_reading(text), text)
    return str(counts)
