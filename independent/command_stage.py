"""Where the command is tried: a small repository with a copy of it, the built program, and an rt that proves nothing.

No check can start a real build: the PATH has only the tools that the command calls, and that rt where a check asks for it.
"""

import contextlib
import fcntl
import os
import re
import shlex
import shutil
import signal
import subprocess
import time
from collections import namedtuple

LONGEST_RUN = 30
TOOLS = ("bash", "cat", "cp", "date", "dirname", "find", "mkdir", "mv", "readlink", "sleep", "touch")

# In seconds. Nothing has to wait for a source to become newer than the program.
SOURCE_AGE, PROGRAM_AGE = 2_000, 1_000
SOURCE = "crates/whole/src/lib.rt"
MUST_FAIL = "crates/whole/must-fail/wrong.edit"
PROGRAM = "target/bin/plassobine"
# Where rt leaves the program.
MADE = "crates/plassobine/out/plassobine"

# fcntl.F_SETPIPE_SZ has its name only since Python 3.10. The size is that of more than the longest text.
SET_PIPE_SIZE, PIPE_SIZE = 1031, 1 << 17

# It takes all of its standard input, so that a system which is given to it by mistake is lost. As rt does, it says on standard error what
# it does; on standard output comes what the program prints that it runs.
RT = """#!/bin/sh
echo "$* in ${PWD##*/}" >>%(calls)s
cat >/dev/null
echo "rt is at work" >&2
write_program() { mkdir -p out && cp %(program)s out/plassobine; }
echo "an answer to nothing"
%(does)s
"""

# For rt to do.
WRITES = "write_program"

# builds: what rt was called with and in which directory, each time since the stage was made.
Ran = namedtuple("Ran", "status printed said builds", defaults=[()])


class Skipped(Exception):
    """This check says nothing here."""


def run(command, redirection="", given=b"", **where):
    """One run with a redirection as a shell writes it. Standard input is a pipe with the bytes given, or a descriptor."""
    from_pipe = isinstance(given, bytes)
    process = subprocess.Popen(
        ["/bin/sh", "-c", 'exec "$@" ' + redirection, "sh", *command],
        stdin=subprocess.PIPE if from_pipe else given, stdout=subprocess.PIPE, stderr=subprocess.PIPE,
        # A process group of its own, so that a command that hangs is ended with the program that it started.
        start_new_session=True, **where,
    )
    try:
        printed, said = process.communicate(given if from_pipe else None, timeout=LONGEST_RUN)
    except subprocess.TimeoutExpired:
        os.killpg(process.pid, signal.SIGKILL)
        process.communicate()
        return Ran("none: it had not ended after %d s" % LONGEST_RUN, b"", b"")
    return Ran(process.returncode, printed, said)


@contextlib.contextmanager
def unfinished_pipe(front):
    """The end to read from of a pipe that does not block. It holds the front of a text, and the rest may still come."""
    reading, writing = os.pipe()
    try:
        os.set_blocking(reading, False)
        fcntl.fcntl(writing, SET_PIPE_SIZE, PIPE_SIZE)
        os.write(writing, front)
        yield reading
    finally:
        os.close(reading)
        os.close(writing)


class Stage:
    """A repository and texts beside it, made for one check."""

    def __init__(self, directory, script, program):
        self.directory = directory
        self.script, self.program = os.path.abspath(script), os.path.abspath(program)
        # A space in its name, in every check.
        self.home = self.path("the repository")
        self.command = os.path.join(self.home, "plassobine")
        self.tools, self.calls = self.path("tools"), self.path("calls")
        self.make_repository()
        os.mkdir(self.tools)
        for tool in TOOLS:
            os.symlink(shutil.which(tool), os.path.join(self.tools, tool))
        self.texts = self.path("texts")
        os.mkdir(self.texts)

    def path(self, name):
        return os.path.join(self.directory, name)

    def source(self, name):
        return os.path.join(self.home, name)

    def make_repository(self):
        """The command, the program where rt has left it and where the command has put it, and sources that are older."""
        for name in ("crates.txt", SOURCE, MUST_FAIL, MADE, PROGRAM):
            os.makedirs(os.path.dirname(self.source(name)), exist_ok=True)
            with open(self.source(name), "w", encoding="ascii") as file:
                file.write("here\n")
        shutil.copy(self.script, self.command)
        for name in (MADE, PROGRAM):
            shutil.copy(self.program, self.source(name))
        for place, directories, files in os.walk(self.home):
            for name in directories + files:
                self.age(os.path.join(place, name), SOURCE_AGE)
        self.age(PROGRAM, PROGRAM_AGE)

    def age(self, name, seconds):
        """As if it had been changed so long ago."""
        moment = time.time() - seconds
        os.utime(self.source(name), (moment, moment))

    def write(self, name, text):
        """A text beside the repository, where the command is called."""
        with open(os.path.join(self.texts, name), "wb") as file:
            file.write(text)

    def put_rt(self, does):
        """An rt on the PATH that does this, in shell."""
        path = os.path.join(self.tools, "rt")
        words = {"calls": shlex.quote(self.calls), "program": shlex.quote(self.program), "does": does}
        with open(path, "w", encoding="utf-8") as file:
            file.write(RT % words)
        os.chmod(path, 0o755)

    def builds(self):
        if not os.path.exists(self.calls):
            return ()
        with open(self.calls, encoding="utf-8") as file:
            return tuple(file.read().splitlines())

    def call(self, *arguments, command=None, redirection="", given=b"", place=None):
        """The command, called beside its repository. What it says is made free of times and of the stage's own path."""
        ran = run(
            [command or self.command, *arguments], redirection, given,
            cwd=place or self.texts, env={"PATH": self.tools},
        )
        said = re.sub(rb"built in [0-9]+ s", b"built in .. s", ran.said.replace(os.fsencode(self.home), b"HERE"))
        return ran._replace(said=said, builds=self.builds())

    def run_program(self, redirection="", given=b""):
        """The built program itself."""
        return run([self.program], redirection, given)


def without_program(does, call):
    """The call where the program has to be built first, by an rt that does this; there is no rt where it does nothing."""

    def called(stage):
        for name in (MADE, PROGRAM):
            os.remove(stage.source(name))
        if does:
            stage.put_rt(does)
        return call(stage)

    return called
