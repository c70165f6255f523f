"""Holds a built program to document01.py: the same text has to give the same bytes.

compare.py [--count N] PROGRAM [ARGS..]                 two passes: a fixed seed, then a fresh one
compare.py --seed S [--count N] PROGRAM [ARGS..]        one pass, with that seed
compare.py --seed S --index I PROGRAM [ARGS..]          one text alone
compare.py --seed S --index I --text > FILE             one text, written out and not run
compare.py --time PROGRAM [ARGS..]                      how long one small system takes
"""

import argparse
import collections
import multiprocessing
import os
import shutil
import statistics
import sys
import time
import traceback

import document01
import numbered_texts
import run_program

FIXED_SEED = 1
TEXTS_IN_A_PASS = 10_000
WORKERS = 4
# Texts handed to a worker at once.
SHARE = 50
LONGEST_SHOWN = 2_000

ANSWERS = (
    "sat", "unknown", "equation conflict", "one-row conflict", "two-row conflict",
    "refusal 1", "refusal 3", "refusal 4", "refusal 5", "refusal 6", "refusal 7",
)
# How many texts of these sizes a whole pass must have; a shorter pass, that part of them.
SIZES = {"32 variables, 32 equations, 64 inequalities": 25, "65,535 to 65,537 bytes": 30, "longer": 5}

TIMED_TEXT = b"2 4\n0 3 5 -7\n1 1 0 0\n"
TIMED_ANSWER = b"unknown\n2 5\n0 -1 0 -5 4\n0 0 -1 3 -1\n1 3\n1 -1 0\n"
TIMED_RUNS = 200
LONGEST_MEDIAN = 0.005

# One text with what was wanted, what came and what is wrong ("" if nothing is).
Compared = collections.namedtuple("Compared", "index text wanted printed fault")


def kind_of_answer(printed):
    """The kind of a printed answer. The names tell the kinds of unsat apart: by how many inequalities they hold."""
    word, _, rest = printed.partition(b"\n")
    if word == b"unsat":
        return ("equation conflict", "one-row conflict", "two-row conflict")[rest.count(b"i")]
    if word.startswith(b"(error "):
        return "refusal " + word.split(b'"')[1].split()[0].decode()
    return word.decode()


def kind_of_size(index, text):
    """The size that a pass has to have texts of, or None."""
    if index % 2 == 0 and text.startswith(b"96 34\n"):
        return "32 variables, 32 equations, 64 inequalities"
    if len(text) > document01.LONGEST_TEXT + 1:
        return "longer"
    return "65,535 to 65,537 bytes" if len(text) >= document01.LONGEST_TEXT - 1 else None


def compare_text(command, seed, index):
    """One text, run and compared."""
    text = numbered_texts.text_of(seed, index)
    try:
        wanted = document01.answer(text)
    except Exception:
        return Compared(index, text, b"", b"", "the independent program fails: " + traceback.format_exc(limit=-1))
    finished = run_program.run(command, *numbered_texts.pieces_of(index, text))
    return Compared(index, text, wanted, finished.printed, run_program.difference(finished, wanted))


def compare_share(share):
    """A worker's work: the kinds that occurred, and the first text with a fault or None."""
    command, seed, indices = share
    counts = collections.Counter()
    for index in indices:
        compared = compare_text(command, seed, index)
        if compared.fault:
            return counts, compared
        counts[kind_of_answer(compared.printed)] += 1
        counts[kind_of_size(index, compared.text)] += 1
    return counts, None


def compare_pass(command, seed, count):
    """All texts of a pass. The shares come back in order, so the text with the lowest index is the one told."""
    shares = [(command, seed, range(start, min(start + SHARE, count))) for start in range(0, count, SHARE)]
    counts = collections.Counter()
    with multiprocessing.Pool(WORKERS) as pool:
        for share_counts, faulty in pool.imap(compare_share, shares):
            if faulty is not None:
                return counts, faulty
            counts += share_counts
    return counts, None


def shown(data):
    """Bytes as they are printed, cut where they are long."""
    cut = "" if len(data) <= LONGEST_SHOWN else " .. (%d bytes)" % len(data)
    return repr(data[:LONGEST_SHOWN]) + cut


def tell(compared):
    """A text with its answers and what is wrong, if something is."""
    for title, data in (("text", compared.text), ("wanted", compared.wanted), ("printed", compared.printed)):
        print("%-7s %s" % (title, shown(data)))
    if compared.fault:
        print("FAULT   %s" % compared.fault)


def missing(counts, count):
    """What a pass of so many texts must have had and had not."""
    lacking = [name for name in ANSWERS if counts[name] == 0]
    return lacking + [name for name, least in SIZES.items() if counts[name] < least * count // TEXTS_IN_A_PASS]


def judge_pass(command, seed, count, which):
    """One pass with its line. Says whether all is well."""
    began = time.perf_counter()
    counts, faulty = compare_pass(command, seed, count)
    if faulty is not None:
        print("%s seed %d: the program fails at text %d" % (which, seed, faulty.index))
        tell(faulty)
        print("repeat  python3 %s --seed %d --index %d %s" % (sys.argv[0], seed, faulty.index, " ".join(command)))
        return False
    said = ", ".join("%s: %d" % (name, counts[name]) for name in ANSWERS + tuple(SIZES))
    print("%s seed %d: %d texts in %.0f s, all the same; %s" % (which, seed, count, time.perf_counter() - began, said))
    lacking = missing(counts, count)
    if lacking:
        print("%s seed %d: too few texts of these kinds: %s" % (which, seed, "; ".join(lacking)))
    return not lacking


def judge_text(command, seed, index):
    """One text alone."""
    compared = compare_text(command, seed, index)
    tell(compared)
    return not compared.fault


def judge_time(command):
    """The median of many runs on one small system, and whether it is short enough."""
    times = []
    for _ in range(TIMED_RUNS):
        finished = run_program.run(command, TIMED_TEXT)
        fault = run_program.difference(finished, TIMED_ANSWER)
        if fault:
            tell(Compared(None, TIMED_TEXT, TIMED_ANSWER, finished.printed, fault))
            return False
        times.append(finished.seconds)
    median = statistics.median(times)
    print("a small system: %.2f ms from start to end, the median of %d runs" % (1000 * median, TIMED_RUNS))
    if median > LONGEST_MEDIAN:
        print("that is longer than %.0f ms" % (1000 * LONGEST_MEDIAN))
    return median <= LONGEST_MEDIAN


def judge(asked):
    """What the command line asks for. Says whether all is well."""
    if asked.time:
        return judge_time(asked.command)
    if asked.index is not None:
        return judge_text(asked.command, asked.seed, asked.index)
    if asked.seed is not None:
        return judge_pass(asked.command, asked.seed, asked.count, "given")
    fresh_seed = int.from_bytes(os.urandom(4), "big")
    passes = [(FIXED_SEED, "fixed"), (fresh_seed, "fresh")]
    return all(judge_pass(asked.command, seed, asked.count, which) for seed, which in passes)


def main(arguments):
    parser = argparse.ArgumentParser(usage="\n" + __doc__.partition("\n\n")[2].rstrip())
    parser.add_argument("--seed", type=int)
    parser.add_argument("--index", type=int)
    parser.add_argument("--count", type=int, default=TEXTS_IN_A_PASS)
    parser.add_argument("--text", action="store_true")
    parser.add_argument("--time", action="store_true")
    parser.add_argument("command", nargs=argparse.REMAINDER)
    asked = parser.parse_args(arguments)
    if (asked.index is not None or asked.text) and None in (asked.seed, asked.index):
        parser.error("one text has a seed and an index")
    if asked.text:
        sys.stdout.buffer.write(numbered_texts.text_of(asked.seed, asked.index))
        return 0
    if not asked.command or shutil.which(asked.command[0]) is None:
        parser.error("there is no program to run")
    # A line is seen when it is printed, also where the output is kept in a file.
    sys.stdout.reconfigure(line_buffering=True)
    return 0 if judge(asked) else 1


if __name__ == "__main__":
    sys.exit(main(sys.argv[1:]))
