"""What the checks share: programs that they start, each of which is ended, whatever comes; and how a check fails."""
import atexit
import os
import signal
import subprocess
import sys

# The seconds that one run of a program, one read and one connection may take.
LIMIT = 120
running = []


class Failed(Exception):
    """Something is not as it should be."""


class Skipped(Exception):
    """The machine lacks what is needed to look."""


def check(is_so, what):
    if not is_so:
        raise Failed(what)


def start(*words, **how):
    """Starts a program in a session of its own, so that all that it starts ends with it."""
    program = subprocess.Popen([str(it) for it in words], start_new_session=True, **how)
    running.append(program)
    return program


def end(program):
    try:
        os.killpg(program.pid, signal.SIGKILL)
    except ProcessLookupError:
        pass
    program.wait()
    running.remove(program)


def end_all():
    for program in list(running):
        end(program)


def outcome(program, given=b"", seconds=LIMIT):
    """What a program that was started writes to standard output and standard error, and its status; it is ended by then."""
    try:
        out, err = program.communicate(given, timeout=seconds)
    except subprocess.TimeoutExpired as late:
        raise Failed(f"{program.args[0]} had not ended after {seconds} seconds") from late
    finally:
        end(program)
    return out, err, program.returncode


def run(*words, given=b"", seconds=LIMIT, **how):
    """Runs a program to its end."""
    pipes = {"stdin": subprocess.PIPE, "stdout": subprocess.PIPE, "stderr": subprocess.PIPE}
    return outcome(start(*words, **{**pipes, **how}), given, seconds)


def interrupted(number, _frame):
    end_all()
    sys.exit(128 + number)


atexit.register(end_all)
for it in (signal.SIGHUP, signal.SIGINT, signal.SIGTERM):
    signal.signal(it, interrupted)
