"""Runs a built program on one text and says what it printed and what was wrong with how it ran.

A run costs as little as Python allows (posix_spawn and bare pipes), because tens of thousands of texts are run.
"""

import fcntl
import os
import select
import signal
import struct
import tempfile
import termios
import time
from collections import namedtuple

# A program that needs longer than this for one text is taken to hang. It is ended, and that is a fault.
LONGEST_RUN = 30.0
# Between two pieces of a text, so that the program's read comes back with the first piece alone.
PAUSE = 0.0005
READ_SIZE = 1 << 16

# fault is "" for a program that read all its input, ended with status 0 and wrote nothing on standard error.
Finished = namedtuple("Finished", "printed fault seconds")


class Hangs(Exception):
    """The program has used up its time."""


def seconds_left(deadline):
    """How long may still be waited."""
    left = deadline - time.perf_counter()
    if left <= 0:
        raise Hangs
    return left


def wait_until_taken(end, deadline):
    """Until the program has read all that was written, or reads no more."""
    watch = select.poll()
    # Asked for nothing, poll still tells that the reading side is gone.
    watch.register(end, 0)
    while not watch.poll(0):
        waiting = struct.unpack("i", fcntl.ioctl(end, termios.FIONREAD, b"\0" * 4))[0]
        if waiting == 0:
            break
        seconds_left(deadline)
        time.sleep(PAUSE)
    time.sleep(PAUSE)


def write_piece(end, piece, deadline):
    """The whole piece, although the pipe may be full now and then."""
    ready = select.poll()
    ready.register(end, select.POLLOUT)
    while piece:
        try:
            piece = piece[os.write(end, piece):]
        except BlockingIOError:
            ready.poll(1000 * seconds_left(deadline))


def feed(end, pieces, deadline):
    """Writes the pieces, each when all before it were taken. Gives the fault, "" if there is none."""
    os.set_blocking(end, False)
    try:
        for number, piece in enumerate(pieces):
            if number > 0:
                wait_until_taken(end, deadline)
            write_piece(end, piece, deadline)
    except BrokenPipeError:
        return "it did not read all its input"
    finally:
        os.close(end)
    return ""


def collect(printed_end, complaint_end, deadline):
    """All that comes on standard output and on standard error, until both are closed."""
    parts = {printed_end: [], complaint_end: []}
    waiting = select.poll()
    for end in parts:
        waiting.register(end, select.POLLIN)
    still_open = len(parts)
    while still_open:
        for end, _ in waiting.poll(1000 * seconds_left(deadline)):
            part = os.read(end, READ_SIZE)
            parts[end].append(part)
            if not part:
                waiting.unregister(end)
                still_open -= 1
    return b"".join(parts[printed_end]), b"".join(parts[complaint_end])


def spawn(command, standard_input):
    """Starts the program: its process id and the ends to read its standard output and standard error from."""
    printed_end, printed_from = os.pipe()
    complaint_end, complaint_from = os.pipe()
    joined = [(standard_input, 0), (printed_from, 1), (complaint_from, 2)]
    pid = os.posix_spawnp(
        command[0], command, os.environ,
        file_actions=[(os.POSIX_SPAWN_DUP2, end, number) for end, number in joined],
        # Python ignores SIGPIPE, a shell does not; the program is run as a shell would run it.
        setsigdef=[signal.SIGPIPE],
    )
    os.close(printed_from)
    os.close(complaint_from)
    return pid, printed_end, complaint_end


def fault_of(status, complaint):
    """What is wrong with the way the program ended, "" if nothing is."""
    if status != 0:
        return "its exit status is %d" % status
    if complaint:
        return "it wrote %r on standard error" % complaint[:500]
    return ""


def finish(command, standard_input, pieces, feeding_end):
    """Starts the program, feeds it the pieces if there is a pipe for them, and waits for its end."""
    began = time.perf_counter()
    deadline = began + LONGEST_RUN
    pid, printed_end, complaint_end = spawn(command, standard_input)
    os.close(standard_input)
    try:
        fault = feed(feeding_end, pieces, deadline) if feeding_end is not None else ""
        printed, complaint = collect(printed_end, complaint_end, deadline)
    except Hangs:
        os.kill(pid, signal.SIGKILL)
        printed, complaint, fault = b"", b"", "it had not ended after %d s" % LONGEST_RUN
    status = os.waitstatus_to_exitcode(os.waitpid(pid, 0)[1])
    seconds = time.perf_counter() - began
    os.close(printed_end)
    os.close(complaint_end)
    return Finished(printed, fault or fault_of(status, complaint), seconds)


def run(command, *pieces):
    """The program with a text on a pipe. A text in several pieces makes it meet reads that give less than it asked for."""
    standard_input, feeding_end = os.pipe()
    return finish(command, standard_input, pieces, feeding_end)


def run_on_file(command, text):
    """The program with a text in a file as its standard input."""
    with tempfile.TemporaryFile() as file:
        file.write(text)
        file.seek(0)
        return finish(command, os.dup(file.fileno()), (), None)


def difference(finished, wanted):
    """What is wrong with a finished run when these bytes are wanted, "" if nothing is."""
    if finished.fault:
        return finished.fault
    return "" if finished.printed == wanted else "it printed something else"
