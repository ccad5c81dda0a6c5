"""The toolchain as a Python module: tools/prove, tools/check and tests/edits call it so, and another release may want changes here."""

import concurrent.futures
import importlib.machinery
import importlib.util
import math
import os
import shutil
import time

# Processor seconds of the proofs that take longest, of a crate or of its tests; any other counts by its lines. They decide only what begins first.
SECONDS = {
    ("plan_tests", "tests"): 550, ("confscript_c", "proof"): 450, ("plan_output", "proof"): 300, ("conf_tool", "proof"): 300, ("driver_json", "proof"): 280,
    ("conf_driver", "proof"): 220, ("script_tests", "tests"): 220, ("core_tests", "tests"): 180, ("conf_plan", "proof"): 180, ("conf_session", "proof"): 150,
    ("quorum_sets", "proof"): 120, ("conf_change", "proof"): 150,
}  # fmt: skip
# A proof uses one more job for so many of them, up to one a processor.
SECONDS_OF_A_JOB = 30

ROOT = os.path.dirname(os.path.dirname(os.path.realpath(__file__)))


def toolchain():
    """Returns `rt` as a module: it knows the crates, proves one, and checks a copy of one that was changed."""
    loader = importlib.machinery.SourceFileLoader("rt", os.path.realpath(shutil.which("rt")))
    module = importlib.util.module_from_spec(importlib.util.spec_from_loader("rt", loader))
    loader.exec_module(module)
    module.rtlib.Crate = module.Crate
    # The first call sets a signal handler, which only the main thread may do.
    module.rtlib.guarded()
    module.Crate.allowed = module.handles_of(ROOT)
    return module


def release(rt):
    """Returns what `rt version` prints."""
    with open(f"{rt.KIT}/KIT-ID", encoding="utf-8") as it:
        return it.read().strip()


def marks_of(folder):
    """Returns the folder in which tools/prove marks each crate whose library in this folder is whole."""
    return f"{folder}/proved"


def stamp_libraries(crates):
    """Has `rt` take the libraries below these crates that `rt ci` built in this folder after their sources were written: it leaves them without a stamp."""
    for it in dict.fromkeys(below for crate in crates for below in crate.below()):
        built, stamp = f"{it.rlib}/format", f"{os.path.dirname(it.rlib)}/stamp"
        if not os.path.exists(built) or os.path.exists(stamp) or not all(below.is_built() for below in it.below()):
            continue
        # Files that rt ci restored may be older than their folder.
        if os.stat(it.rlib).st_mtime > newest([it, *it.below()]):
            with open(stamp, "w", encoding="utf-8") as file:
                file.write(it.stamp())


def newest(crates):
    """Returns when a source of these crates was written last."""
    files = (f"{at}/{name}" for crate in crates for part in ("src", "specs", "proofs") for at, _, names in os.walk(f"{crate.folder}/{part}") for name in names)
    return max(map(os.path.getmtime, files))


class Order:
    """Runs the tasks of `rt ci` (its proofs) in place of its own `in_lanes`: first what has the longest chain of others behind it, so that no long proof is
    left at the end. A long proof has a job for each processor even while others run, since it cannot get more once they have ended: it ends on idle ones
    else. Memory holds what begins."""

    def __init__(self, rt, ended):
        # ended is called with each task that has ended, whether it is proved, and its seconds.
        self.rt, self.ended = rt, ended
        fixed = os.environ.get("RT_JOBS", "")
        self.processors = int(fixed) if fixed.isdigit() and int(fixed) else rt.processors()

    def chains(self, tasks):
        """Returns how long it takes from the beginning of each task to the end of what waits for it."""
        behind = dict.fromkeys(tasks, 0)
        # A task comes after those that it waits for.
        for key in reversed([*tasks]):
            behind[key] += self.seconds(tasks, key)
            for it in tasks[key][0]:
                behind[it] = max(behind[it], behind[key])
        return behind

    def seconds(self, tasks, key):
        lines = tasks[key][1]
        return SECONDS.get(key, lines / 20) if lines else 0

    def jobs(self, seconds, needs, room, used):
        """Returns how many jobs a proof gets: twice as many as processors at once, so that each of these is busy while a proof loads or ends."""
        by_memory = 1 + int((room / needs - 1) / 0.6) if room > needs else 1
        return max(1, min(self.processors, math.ceil(seconds / SECONDS_OF_A_JOB), by_memory, 2 * self.processors - used))

    def __call__(self, tasks):
        """Runs the tasks, and returns what each gave."""
        behind, memory = self.chains(tasks), 0.85 * self.rt.free()
        left, running, given = sorted(tasks, key=lambda it: -behind[it]), {}, {}
        with self.rt.ending(), concurrent.futures.ThreadPoolExecutor(self.processors) as pool:
            while left or running:
                for key in [it for it in left if all(below in given for below in tasks[it][0])]:
                    needs, call = tasks[key][2:]
                    room = memory - sum(taken for _, taken, _, _ in running.values())
                    if len(running) < self.processors and (not running or needs <= room):
                        left.remove(key)
                        jobs = self.jobs(self.seconds(tasks, key), needs, room, sum(it for _, _, it, _ in running.values()))
                        running[pool.submit(call, given, jobs)] = key, needs * (1 + 0.6 * (jobs - 1)), jobs, time.monotonic()
                for it in concurrent.futures.wait(running, return_when=concurrent.futures.FIRST_COMPLETED).done:
                    key, _, _, began = running.pop(it)
                    given[key] = it.result()
                    self.ended(key, given[key], time.monotonic() - began)
        return given
