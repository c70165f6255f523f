"""Damages of a text, from a seeded random.Random, some of them harmless; and of tables."""

from document01 import W

LONGEST_TEXT = 65_536


def random_byte(rng):
    """A byte, most often one that means something to the reader."""
    return bytes([rng.choice(b"0123456789- \t\r\n#01x") if rng.random() < 0.9 else rng.randrange(256)])


def change_byte(rng, text):
    """One byte changed."""
    if not text:
        return text
    at = rng.randrange(len(text))
    return text[:at] + random_byte(rng) + text[at + 1:]


def add_byte(rng, text):
    """One byte added."""
    at = rng.randint(0, len(text))
    return text[:at] + random_byte(rng) + text[at:]


def drop_bytes(rng, text):
    """One to three bytes dropped."""
    at = rng.randint(0, len(text))
    return text[:at] + text[at + rng.randint(1, 3):]


def cut_off(rng, text):
    """The end cut off."""
    return text[:rng.randint(0, len(text))]


def cr_lf(rng, text):
    """Some or all line ends as CR LF, now and then without the LF."""
    part = rng.choice([0.3, 1.0])
    ends = [b"\r\n" if rng.random() < part else b"\n" for _ in range(text.count(b"\n"))]
    if ends and rng.random() < 0.2:
        ends[rng.randrange(len(ends))] = b"\r"
    pieces = text.split(b"\n")
    return b"".join(piece + end for piece, end in zip(pieces, ends + [b""]))


def extra_line(rng, text):
    """A comment or a blank line put between two lines, the comment sometimes one byte too far right."""
    extra = rng.choice([b"# a comment", b"#", b"#\r\xff\x00", b"", b" ", b"\t \t", b" #", b"#0 1 2"])
    lines = text.split(b"\n")
    lines.insert(rng.randint(0, len(lines)), extra)
    return b"\n".join(lines)


def blanks(rng, text):
    """Tabs for some spaces, and blanks added at places that may bear them."""
    out = bytearray()
    for byte in text:
        if byte in b" \n" and rng.random() < 0.3:
            out += rng.choice([b" ", b"\t", b" \t "])
        out.append(byte if byte != 32 or rng.random() < 0.6 else 9)
    return bytes(out) if rng.random() < 0.5 else rng.choice([b" ", b"\t"]) + bytes(out)


def change_header(rng, text):
    """Another number of rows or of columns in the first line, a little off or far out of range."""
    first, _, rest = text.partition(b"\n")
    words = first.split()
    at = rng.randrange(2)
    if len(words) != 2 or not words[at].isdigit():
        return text
    value = rng.choice([int(words[at]) + 1, max(0, int(words[at]) - 1), 96, 97, 0, 2, 3, 34, 35, 9_999_999_999])
    words[at] = b"%d" % value
    return b" ".join(words) + b"\n" + rest


def change_mark(rng, text):
    """A row's mark changed to the other one or to something that is no mark."""
    lines = text.split(b"\n")
    at = rng.randrange(len(lines))
    if at > 0 and lines[at]:
        lines[at] = rng.choice([b"0", b"1", b"1", b"2", b"00", b"-0", b"01"]) + lines[at][1:]
    return b"\n".join(lines)


def long_number(rng, text):
    """Zeros put before a digit, so that a number has about ten digits."""
    places = [at for at, byte in enumerate(text) if byte in b"0123456789"]
    if not places:
        return text
    at = rng.choice(places)
    return text[:at] + b"0" * rng.choice([1, 7, 8, 9, 10]) + text[at:]


def at_longest(rng, text):
    """The text brought to 65,535, 65,536 or 65,537 bytes by a comment, blank lines or blanks."""
    missing = LONGEST_TEXT + rng.choice([-1, 0, 1]) - len(text)
    if missing < 1:
        return text
    filler = rng.choice([b"#" + b"c" * (missing - 2) + b"\n", b"\n" * missing, b" " * missing])[:missing]
    return filler + text if rng.random() < 0.5 else text + filler


DAMAGES = (
    change_byte, change_byte, add_byte, add_byte, drop_bytes, cut_off, cr_lf, extra_line, blanks, change_header,
    change_mark, long_number,
)


def damaged(rng, text):
    """The text with one to three damages (some of them harmless), now and then at the longest length."""
    for _ in range(rng.randint(1, 3)):
        text = rng.choice(DAMAGES)(rng, text)
    if rng.random() < 0.03:
        text = at_longest(rng, text)
    return text


def wrong_results(rng, results):
    """New result tables (a dict) with one of them a little too long or too short."""
    damaged_tables = {name: list(table) for name, table in results.items()}
    table = damaged_tables[rng.choice(sorted(damaged_tables))]
    if table and rng.random() < 0.5:
        table.pop()
    else:
        table.append(rng.randint(-3, 3))
    return damaged_tables


def damaged_multipliers(rng, table):
    """The table with another multiplier, another D, or another length."""
    changed = list(table)
    kind = rng.randrange(6)
    if kind == 0 and len(changed) > 1:
        changed[rng.randrange(len(changed) - 1)] += rng.choice([-1, 1])
    elif kind == 1 and len(changed) > 1:
        changed[rng.randrange(len(changed) - 1)] = rng.choice([-1, 1]) * (W + rng.choice([0, 1, 2**40]))
    elif kind == 2:
        changed[-1] = rng.choice([0, 1, 2, changed[-1] + 1, 2 * changed[-1]])
    elif kind == 3:
        changed[-1] = rng.choice([-1, -2**63, 2**56, 2**56 + 1, 2**63 - 1])
    elif kind == 4:
        changed.append(rng.randint(-2, 2))
    else:
        changed.pop(rng.randrange(len(changed)))
    return changed
