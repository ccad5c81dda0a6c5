"""What a run prints. That standard output is closed, or full, does not end a run: it may be between two changes."""
import os
import shutil
import sys
import textwrap
import time

# Why standard output can no longer be written.
lost = None


def prepare():
    """Makes each standard stream one that can be used, whatever this process was given."""
    for number in range(3):
        try:
            os.fstat(number)
        except OSError:
            os.open(os.devnull, os.O_RDWR)
    for name, mode in (("stdin", "r"), ("stdout", "w"), ("stderr", "w")):
        if getattr(sys, name) is None:
            setattr(sys, name, open(os.devnull, mode, encoding="utf-8"))
    for stream in (sys.stdout, sys.stderr):
        stream.reconfigure(errors="backslashreplace")


def say(text="", end="\n"):
    global lost
    try:
        print(text, end=end, flush=True)
    except OSError as error:
        lost = error.strerror
        os.dup2(os.open(os.devnull, os.O_WRONLY), sys.stdout.fileno())


def complain(text):
    """Prints a line on standard error."""
    try:
        print("\n".join(wrapped(text, sys.stderr) if sys.stderr.isatty() else [text]), file=sys.stderr, flush=True)
    except OSError:
        pass


def paragraph(text):
    for line in wrapped(text, sys.stdout):
        say(line)


def now():
    return time.strftime("%Y-%m-%dT%H:%M:%SZ", time.gmtime())


def note(text, is_command=False):
    """Prints what a run does or waits for: with the time, where the output is no terminal. A command is not wrapped."""
    if not sys.stdout.isatty():
        say(f"{now()} {text}")
    elif is_command:
        say(text)
    else:
        paragraph(text)


def wrapped(text, stream):
    """A text in lines that fit the terminal, or 80 columns."""
    width = shutil.get_terminal_size((80, 24)).columns if stream.isatty() else 80
    indent = " " * (len(text) - len(text.lstrip()))
    return textwrap.wrap(text, width - 1, subsequent_indent=indent, break_long_words=False, break_on_hyphens=False) or [""]
