"""The checks of the built program: reads and writes that fail, and a small stack."""

from command_stage import Ran, run, unfinished_pipe

UNREAD = b"plassobine: standard input could not be read\n"
UNWRITTEN = b"plassobine: standard output could not be written\n"

# Without its last digit this text says -1 for -10. Nothing fits that, so the answer to the front alone would be a wrong unsat.
TEXT = b"1 3\n0 2 -10\n"
FRONT = TEXT[:-2]
ANSWER = b"sat\n1 3\n0 -1 5\n0 2\n"
TOO_LONG = TEXT.ljust(70_000, b"\n")
REFUSED_TOO_LONG = b'(error "7")\n'
# In KiB. It needs 248 (docs/SPEED.md); what the system puts on a stack of its own differs a little from one to another.
SMALL_STACK = 272


def unfinished(text):
    """The program on a pipe that does not block and holds this much."""

    def call(stage):
        with unfinished_pipe(text) as given:
            return stage.run_program(given=given)

    return call


def given(text, redirection=""):
    """The program on a pipe that has the whole text."""
    return lambda stage: stage.run_program(redirection, text)


def in_small_stack(text):
    """The program where its stack is small, and no environment lies on it."""
    limited = 'ulimit -s %d && exec "$0"' % SMALL_STACK
    return lambda stage: run(["/bin/sh", "-c", limited, stage.program], given=text, env={})


CHECKS = (
    ("the program: nothing there yet is not the end of the text", unfinished(FRONT), Ran(0, b"", UNREAD)),
    ("the program: the same text, whole", given(TEXT), Ran(0, ANSWER, b"")),
    ("the program: a text that is too long, and nothing there yet", unfinished(TOO_LONG), Ran(0, b"", UNREAD)),
    ("the program: the same text that is too long, whole", given(TOO_LONG), Ran(0, REFUSED_TOO_LONG, b"")),
    ("the program: a directory is standard input", given(b"", "</"), Ran(0, b"", UNREAD)),
    ("the program: standard input is closed", given(b"", "<&-"), Ran(0, b"", UNREAD)),
    ("the program: standard output is full", given(TEXT, ">/dev/full"), Ran(0, b"", UNWRITTEN)),
    ("the program: standard output is closed", given(TEXT, ">&-"), Ran(0, b"", UNWRITTEN)),
    ("the program: a small stack", in_small_stack(TEXT), Ran(0, ANSWER, b"")),
    ("the program: a small stack, and a text that is too long", in_small_stack(TOO_LONG), Ran(0, REFUSED_TOO_LONG, b"")),
)
