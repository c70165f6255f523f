"""The texts that a program is compared on: text number i of seed s is made from the two numbers alone.

Even numbers are systems as they stand, odd numbers are damaged texts, so that any beginning of the row of texts has both.
"""

import random

import generate

LONGEST_TEXT = generate.LONGEST_TEXT
SMALL_KINDS = tuple(kind for kind in generate.WRITABLE if kind is not generate.large)
# Of the systems, one in this many has the most variables, equations and inequalities that there may be.
LARGE_EVERY = 100
# Of the damaged texts, one in so many is brought near the longest length, is beyond it, or is a scrap.
LONGEST_EVERY = 40
BEYOND_EVERY = 500
SCRAP_EVERY = 10
# One text in this many is handed over in pieces.
PIECES_EVERY = 21


def wide(rng, count):
    """9 to 32 variables and any number of rows: the sizes between the small kinds and the largest."""
    for _ in range(count):
        n = rng.randint(9, 32)
        m, k = rng.randint(0, n), rng.randint(0, 64)
        if rng.random() < 0.7:
            equations = [generate.triangular_row(rng, n, column) for column in range(m)]
        else:
            equations = [generate.sparse_row(rng, n, 3) for _ in range(m)]
        inequalities = [generate.sparse_row(rng, n, 4) for _ in range(k)]
        if rng.random() < 0.5:
            equations, inequalities = generate.through_zero(equations, 0), generate.through_zero(inequalities, 1)
        yield generate.system_of(n, equations, inequalities)


KINDS = SMALL_KINDS + (wide,)
DAMAGED_KINDS = KINDS + (generate.many_rows,)


def system_text(rng, number):
    """A system of the kind whose turn it is, its equations and inequalities mixed or not."""
    kind = generate.large if number % LARGE_EVERY == 0 else KINDS[number % len(KINDS)]
    system = next(kind(rng, 1))
    return generate.to_text(system, rng if rng.random() < 0.7 else None)


def scrap(rng):
    """A few bytes that mean something to the reader, behind a good beginning; nearly every one is an edge case."""
    start = rng.choice([b"", b"", b"0 3", b"1 3", b"1 3\n", b"1 3\n0 1", b"1 3\n1 -2\t3", b"1 4\r\n0 1 2 3", b"97 4", b"2 35"])
    return start + bytes(rng.choice(b"0123 \t\n\r#-x") for _ in range(rng.randint(0, 8)))


def beyond_longest(rng, text):
    """A text, good or bad, made longer than may be read, up to many times what a pipe holds."""
    missing = rng.choice([LONGEST_TEXT + 2, 70_000, 131_073, 200_000, 300_000]) - len(text)
    filler = rng.choice([b"#" + b"c" * missing, b"\n" * missing, b" " * missing, b"0 1 2\n" * missing])[:missing]
    return filler + text if rng.random() < 0.3 else text + filler


def bad_ending(rng, text):
    """Other bytes in place of the last few: what is bad there is found only behind nearly all rows."""
    return text[:len(text) - rng.randint(0, 8)] + b"".join(generate.random_byte(rng) for _ in range(rng.randint(0, 2)))


def damaged_text(rng, number):
    """A text with damage of the kind whose turn it is."""
    kind = generate.large if rng.random() < 1 / LARGE_EVERY else rng.choice(DAMAGED_KINDS)
    text = generate.to_text(next(kind(rng, 1)), rng)
    if number % BEYOND_EVERY == 0:
        return beyond_longest(rng, text)
    if number % LONGEST_EVERY == 1:
        return generate.at_longest(rng, text if rng.random() < 0.6 else generate.damaged(rng, text))
    if number % SCRAP_EVERY == 2:
        return scrap(rng)
    if kind is generate.many_rows and rng.random() < 0.7:
        # Too many equations or inequalities are told only after a whole good text.
        return text if rng.random() < 0.5 else bad_ending(rng, text)
    return generate.damaged(rng, text)


def text_of(seed, index):
    """Text number `index` of the seed."""
    rng = random.Random("%d:%d" % (seed, index))
    make = damaged_text if index % 2 else system_text
    return make(rng, index // 2)


def pieces_of(index, text):
    """The text as it is handed to the program: whole, or in pieces where its number or its length says so."""
    if len(text) > LONGEST_TEXT + 1:
        # The last byte comes when all others were read: a program that has stopped reading by then breaks the pipe.
        return text[:LONGEST_TEXT + 1], text[LONGEST_TEXT + 1:-1], text[-1:]
    if index % PIECES_EVERY == 0:
        third = len(text) // 3
        return text[:third], text[third:2 * third], text[2 * third:]
    return (text,)
