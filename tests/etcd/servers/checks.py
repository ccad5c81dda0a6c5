"""Counting what holds, and waiting for states."""
import time

LIMIT = 120  # seconds for one state; it only ends a test that hangs
passed = failed = 0


class Broken(Exception):
    """Why a test cannot go on."""


def holds(name, condition):
    """Counts a condition as passed or failed."""
    global passed, failed
    if condition:
        passed += 1
    else:
        failed += 1
        print(f"FAILED: {name}", flush=True)


def wait_for(what, condition, pause=0.1):
    """Waits until a condition holds, and returns its value."""
    end = time.monotonic() + LIMIT
    while not (value := condition()):
        if time.monotonic() > end:
            raise Broken(f"waited in vain: {what}")
        time.sleep(pause)
    return value
