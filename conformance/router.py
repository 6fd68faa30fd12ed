"""Starts a router's program: what it prints, and how it ends."""
import os
import signal
import subprocess
import sys
import typing

SECONDS = 60


class Ended(typing.NamedTuple):
    """What a program printed, and how it ended unless it ended well."""

    printed: str
    badly: str = ""
    hung: bool = False


def run(command, data):
    """Gives a program its input."""
    try:
        # A session of its own, so that what the program starts can be ended with it.
        program = subprocess.Popen(command, stdin=subprocess.PIPE, stdout=subprocess.PIPE, stderr=subprocess.PIPE, start_new_session=True)
    except OSError as error:
        sys.exit(f"{' '.join(map(str, command))} cannot be started: {error.strerror}")
    with program:
        try:
            printed, errors = program.communicate(data, timeout=SECONDS)
        except subprocess.TimeoutExpired:
            kill(program)
            return Ended(text(program.communicate()[0]), f"the program did not end within {SECONDS} seconds", True)
    return Ended(text(printed), bad_end(program.returncode, text(errors)))


def kill(program):
    """Ends a program, with all that it has started where the system knows groups of processes."""
    if hasattr(os, "killpg"):
        os.killpg(program.pid, signal.SIGKILL)
    else:
        program.kill()


def text(data):
    return data.decode(errors="replace")


def bad_end(status, errors):
    """What is told of a status other than 0, with the last line that was written to standard error."""
    if status == 0:
        return ""
    how = f"the program ended with status {status}" if status > 0 else f"the program was ended by signal {-status}"
    return ": ".join([how, *errors.strip().splitlines()[-1:]])
