"""The checks of when the command builds, with an rt that proves nothing."""

import os

from command_stage import MADE, MUST_FAIL, PROGRAM, SOURCE, WRITES, Ran, without_program
from command_checks import NO_ANSWER, NO_TEXT, answered, told
from program_checks import UNREAD

BEGUN = b"plassobine: proving and building the program, once\nrt is at work\n"
BUILT = BEGUN + b"plassobine: built in .. s\n"
ONCE, TWICE = ("run in plassobine",), ("run in plassobine",) * 2

# As rt does where it has proved the same before.
LEAVES_IT = "true"
FAILS = "exit 1"
# A program that was linked, and then its own run failed.
FAILS_AT_THE_END = "write_program; exit 1"
# Long enough for the clock of the file system, which is coarse.
IS_OVERTAKEN = "sleep 0.1; write_program; touch ../../%s; sleep 0.1" % SOURCE


def answer(stage):
    return stage.call(given=NO_TEXT)


def after(name, does=WRITES, calls=1):
    """After a change of this file; the last of so many calls."""

    def called(stage):
        stage.age(name, 0)
        if does:
            stage.put_rt(does)
        for _ in range(calls):
            ran = answer(stage)
        return ran

    return called


def unchanged(stage):
    stage.put_rt(WRITES)
    return answer(stage)


def source_gone(stage):
    stage.put_rt(WRITES)
    os.remove(stage.source(SOURCE))
    return answer(stage)


def only_made(stage):
    """The program where rt has left it, and not where the command puts it."""
    os.remove(stage.source(PROGRAM))
    stage.put_rt(LEAVES_IT)
    return answer(stage)


def kept_beside(stage):
    """What a build by hand leaves beside the sources of a crate."""
    kept = stage.source("crates/whole/out/rlib")
    os.makedirs(kept)
    with open(os.path.join(kept, "stamp"), "w", encoding="ascii") as file:
        file.write("here\n")
    stage.put_rt(WRITES)
    return answer(stage)


def mended(stage):
    """After a build that failed, one that does not."""
    after(SOURCE, FAILS)(stage)
    stage.put_rt(LEAVES_IT)
    return answer(stage)


def closed_input(stage):
    return stage.call(redirection="<&-")


def through_link(stage):
    os.symlink(stage.command, stage.path("link"))
    return stage.call(command=stage.path("link"), given=NO_TEXT)


BUILD = Ran(0, NO_ANSWER, BUILT, ONCE)
NO_BUILD = answered(NO_ANSWER)
FAILED = Ran(2, b"", BEGUN + b"plassobine: the program could not be built\n", ONCE)
NO_RT = told(b"the Rattle toolchain (rt) is not on the PATH")

CHECKS = (
    ("it builds where there is no program", without_program(WRITES, answer), BUILD),
    ("it builds through a symbolic link", without_program(WRITES, through_link), BUILD),
    ("it builds with a closed standard input", without_program(WRITES, closed_input), Ran(2, b"", BUILT + UNREAD, ONCE)),
    ("it does not build where nothing is newer", unchanged, NO_BUILD),
    ("it needs no rt where nothing is newer", answer, NO_BUILD),
    ("it builds where a source is newer", after(SOURCE), BUILD),
    ("it builds where crates.txt is newer", after("crates.txt"), BUILD),
    ("it builds where a source is gone", source_gone, BUILD),
    ("it does not build for an edit that must fail", after(MUST_FAIL), NO_BUILD),
    ("it does not build for what rt keeps beside a crate's sources", kept_beside, NO_BUILD),
    ("it does not build for a newer program that rt has left", after(MADE), NO_BUILD),
    ("it asks rt where there is only the program that rt has left", only_made, BUILD),
    ("it builds once for a newer source", after(SOURCE, WRITES, 2), NO_BUILD._replace(builds=ONCE)),
    ("it builds once where rt leaves the program as it is", after(SOURCE, LEAVES_IT, 2), NO_BUILD._replace(builds=ONCE)),
    ("it builds again after a change during the build", after(SOURCE, IS_OVERTAKEN, 2), BUILD._replace(builds=TWICE)),
    ("there is no program, and no rt", without_program("", answer), NO_RT),
    ("a source is newer, and there is no rt", after(SOURCE, ""), NO_RT),
    ("a build that fails, with no program", without_program(FAILS, answer), FAILED),
    ("a build that fails, with an older program", after(SOURCE, FAILS), FAILED),
    ("a build that fails fails again", after(SOURCE, FAILS, 2), FAILED._replace(builds=TWICE)),
    ("a build that fails at the end fails again", after(SOURCE, FAILS_AT_THE_END, 2), FAILED._replace(builds=TWICE)),
    ("a build after one that failed", mended, BUILD._replace(builds=TWICE)),
    (
        "a build that leaves no program", without_program(LEAVES_IT, answer),
        Ran(2, b"", BEGUN + b"plassobine: rt has left no program; remove HERE/crates/plassobine/out and call again\n", ONCE),
    ),
)
