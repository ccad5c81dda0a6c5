"""Asking the operator. A run that waits for an answer may have something to do meanwhile, such as renewing a lease."""
import os
import select
import sys

from . import output
from .output import say
from .reasons import Stop


def agrees(question, meanwhile=lambda: None):
    """Whether the operator answers yes. `meanwhile` is called about once a second until then."""
    say(f"{question} [y/N] ", end="")
    if output.lost:
        raise Stop(f"standard output: {output.lost}: the question is not shown, so it is not answered")
    return answer(meanwhile).strip().lower() in (b"y", b"yes")


def answer(meanwhile):
    """A line of standard input. No more is read than that, since others may follow for later questions."""
    line = b""
    while not line.endswith(b"\n"):
        while not select.select([sys.stdin], [], [], 1)[0]:
            meanwhile()
        byte = os.read(sys.stdin.fileno(), 1)
        if not byte:
            break
        line += byte
    return line
