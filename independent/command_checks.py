"""The checks of how the command is called and what it answers: arguments, messages, exit statuses."""

import os
import shutil

import document01
from command_stage import PROGRAM, WRITES, Ran, Skipped, unfinished_pipe, without_program
from program_checks import UNREAD, UNWRITTEN

NO_TEXT, NO_ANSWER = b"3 4\n0 3 5 -7\n1 1 0 0\n1 0 1 0\n", b"unsat\n(e1 i1 i2)\n"
OPEN_TEXT, OPEN_ANSWER = b"1 3\n1 2 -1\n", b"unknown\n1 4\n0 -1 1 0\n1 3\n1 1 -1\n"
BAD_TEXT, BAD_ANSWER = b"97 4x", b'(error "6 4")\n'
HELP = (b"usage: plassobine [FILE ..]", b"standard input", b"PolyLib", b"Exit status")


def long_text():
    """64 inequalities over 32 variables, with numbers of nine digits: an answer of more than 20,000 bytes."""
    rows = (range(200_000_000 + 999 * row, 200_000_032 + 999 * row) for row in range(64))
    return b"64 34\n" + b"".join(b"1 %s 1\n" % b" ".join(b"%d" % number for number in row) for row in rows)


LONG_TEXT = long_text()


def answered(text, status=0):
    return Ran(status, text, b"")


def told(*lines):
    """Nothing printed, and these messages."""
    return Ran(2, b"", b"".join(b"plassobine: %s\n" % line for line in lines))


def call(*arguments, **how):
    """The command with these arguments, beside three texts."""

    def called(stage):
        for name, text in (("no.txt", NO_TEXT), ("open.txt", OPEN_TEXT), ("bad.txt", BAD_TEXT)):
            stage.write(name, text)
        return stage.call(*arguments, **how)

    return called


def call_named(name, *arguments):
    """With a text in a file of this name."""

    def called(stage):
        stage.write(name, NO_TEXT)
        return stage.call(*arguments, name)

    return called


def unbuilt(*arguments):
    """The same where the program would have to be built."""
    return without_program(WRITES, call(*arguments))


def help_alone(option):
    """The command with nothing of its repository around it, and no rt. Of the help only what it has to say is kept."""

    def called(stage):
        os.mkdir(stage.path("alone"))
        alone = shutil.copy(stage.script, stage.path("alone/plassobine"))
        ran = stage.call(option, command=alone)
        return ran._replace(printed=b"\n".join(words for words in HELP if words in ran.printed))

    return called


def unreadable(stage):
    stage.write("closed.txt", NO_TEXT)
    path = os.path.join(stage.texts, "closed.txt")
    os.chmod(path, 0)
    if os.access(path, os.R_OK):
        raise Skipped("this user can read every file")
    return stage.call("closed.txt")


def ended_program(stage):
    """A program that is ended in the middle of its answer."""
    with open(stage.source(PROGRAM), "w", encoding="ascii") as file:
        file.write("#!/bin/sh\nprintf 'unsat'\nexit 3\n")
    return stage.call(given=NO_TEXT)


def nothing_there_yet(stage):
    with unfinished_pipe(NO_TEXT[:-2]) as given:
        return stage.call(given=given)


def through_links(stage):
    """A link to a link, the first of them by a path that holds only beside it."""
    os.mkdir(stage.path("links"))
    os.symlink("../the repository/plassobine", stage.path("links/first"))
    os.symlink(stage.path("links/first"), stage.path("second"))
    return stage.call(command=stage.path("second"), given=NO_TEXT)


def inside(stage):
    """Called as it stands, from the repository."""
    stage.write("no.txt", NO_TEXT)
    return stage.call("../texts/no.txt", command="./plassobine", place=stage.home)


def in_place(stage):
    """The command and the program where they stand, both of them as they are."""
    return stage.call(command=stage.script, given=NO_TEXT)


SEVERAL = b"# no.txt\n" + NO_ANSWER + b"# open.txt\n" + OPEN_ANSWER
MISSING, DIRECTORY = b"none.txt: there is no such file", b"..: is a directory"

HOW_IT_IS_CALLED = (
    ("no argument: standard input", call(given=NO_TEXT), answered(NO_ANSWER)),
    ("-: standard input", call("-", given=NO_TEXT), answered(NO_ANSWER)),
    ("one file: its answer alone", call("no.txt"), answered(NO_ANSWER)),
    ("several files: each answer after its name", call("no.txt", "open.txt"), answered(SEVERAL)),
    ("- among several", call("no.txt", "-", given=OPEN_TEXT), answered(SEVERAL.replace(b"open.txt", b"-"))),
    ("a long answer comes whole", call(given=LONG_TEXT), answered(document01.answer(LONG_TEXT))),
    ("a file and a closed standard input", call("no.txt", redirection="<&-"), answered(NO_ANSWER)),
    ("-h, with nothing built", help_alone("-h"), answered(b"\n".join(HELP))),
    ("--help, with nothing built", help_alone("--help"), answered(b"\n".join(HELP))),
    ("a name with spaces", call_named("two words .txt"), answered(NO_ANSWER)),
    ("a name that begins with =", call_named("=$(*)\\n"), answered(NO_ANSWER)),
    ("a name that begins with -, after --", call_named("-h", "--"), answered(NO_ANSWER)),
    ("-- alone: standard input", call("--", given=NO_TEXT), answered(NO_ANSWER)),
    ("through symbolic links", through_links, answered(NO_ANSWER)),
    ("from its own directory", inside, answered(NO_ANSWER)),
    ("where it stands, with the program that was built there", in_place, answered(NO_ANSWER)),
)

WHAT_IT_REFUSES = (
    ("a file that is missing", unbuilt("none.txt"), told(MISSING)),
    ("an empty name", unbuilt(""), told(b": there is no such file")),
    ("a directory", unbuilt(".."), told(DIRECTORY)),
    ("a file that cannot be read", unreadable, told(b"closed.txt: cannot be read")),
    ("every bad file is told, and none is answered", unbuilt("no.txt", "none.txt", ".."), told(MISSING, DIRECTORY)),
    (
        "an option that there is not", unbuilt("-x", "no.txt"),
        told(b"-x: there is no such option; plassobine --help says which there are"),
    ),
    (
        "a long option that there is not, behind a file", unbuilt("no.txt", "--all"),
        told(b"--all: there is no such option; plassobine --help says which there are"),
    ),
)

STATUSES = (
    ("a refusal is status 1", call("bad.txt"), answered(BAD_ANSWER, 1)),
    ("a refusal, then an answer", call("bad.txt", "no.txt"), answered(b"# bad.txt\n" + BAD_ANSWER + b"# no.txt\n" + NO_ANSWER, 1)),
    ("an answer, then a refusal", call("no.txt", "bad.txt"), answered(b"# no.txt\n" + NO_ANSWER + b"# bad.txt\n" + BAD_ANSWER, 1)),
    ("a failed read, then a refusal", call("-", "bad.txt", redirection="</"), Ran(2, b"# bad.txt\n" + BAD_ANSWER, UNREAD)),
    ("a refusal, then a failed read", call("bad.txt", "-", redirection="<&-"), Ran(2, b"# bad.txt\n" + BAD_ANSWER, UNREAD)),
    ("nothing there yet on a pipe", nothing_there_yet, Ran(2, b"", UNREAD)),
    ("standard input is a directory", call(redirection="</"), Ran(2, b"", UNREAD)),
    ("standard input is closed", call(redirection="<&-"), Ran(2, b"", UNREAD)),
    ("standard input and standard output are closed", call(redirection="<&- >&-"), Ran(2, b"", UNREAD)),
    ("a program that is ended has no answer", ended_program, told(b"the program ended with status 3")),
    ("standard output is full", call("no.txt", redirection=">/dev/full"), Ran(2, b"", UNWRITTEN)),
    ("standard output is full, for several", call("no.txt", "open.txt", redirection=">/dev/full"), Ran(2, b"", UNWRITTEN)),
    ("standard output is full, for a refusal", call("bad.txt", redirection=">/dev/full"), Ran(2, b"", UNWRITTEN)),
    ("standard output is full, for the help", call("-h", redirection=">/dev/full"), Ran(2, b"", UNWRITTEN)),
    ("standard output is closed", call("no.txt", redirection=">&-"), Ran(2, b"", UNWRITTEN)),
    ("standard error is closed, for an answer", call("no.txt", redirection="2>&-"), answered(NO_ANSWER)),
    ("standard error is closed, for a message", call("none.txt", redirection="2>&-"), Ran(2, b"", b"")),
    ("standard error is full, for a message", call("none.txt", redirection="2>/dev/full"), Ran(2, b"", b"")),
)

CHECKS = HOW_IT_IS_CALLED + WHAT_IT_REFUSES + STATUSES
