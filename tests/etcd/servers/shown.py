"""What a run prints: lines that fit the terminal, and settings that start a server."""
import fcntl
import os
import pty
import re
import struct
import subprocess
import termios

from checks import Broken, holds
from clusters import ENVIRONMENT, Cluster
from runs import begin, command, lines

# Lines that are not broken: rows of a table, commands and settings.
UNBROKEN = re.compile(r"(name|step|now|\d+|n\d|-) .*| *etcdctl .*|# start .*|    ETCD_.*")


def on_terminal(cluster, columns, *words):
    """The lines of a run whose output is a terminal with so many columns. With 0 its size is not known."""
    line, environment = command(cluster, *words)
    mine, its = pty.openpty()
    fcntl.ioctl(its, termios.TIOCSWINSZ, struct.pack("HHHH", 24 if columns else 0, columns, 0, 0))
    shown = {name: value for name, value in environment.items() if name not in ("COLUMNS", "LINES")}
    with subprocess.Popen(line, stdin=subprocess.DEVNULL, stdout=its, stderr=its, env=shown, cwd=cluster.folder, start_new_session=True):
        os.close(its)
        printed = b""
        try:
            while data := os.read(mine, 65536):
                printed += data
        except OSError:  # the run has ended
            pass
    os.close(mine)
    return printed.decode().splitlines()


def lines_fit_the_terminal():
    """Sentences are broken where the terminal ends, or after 80 columns, on standard output and on standard error."""
    with Cluster(1, ["n2"]).running() as cluster:
        new = f"n2={cluster['n2'].peer}"
        for words in (["status"], ["replace", "n1", "--with", new, "--healthy", "--dry-run"], ["add", new, "--yes", "--limit", "0"]):
            for columns, least in ((60, 41), (0, 61), (120, 81)):
                sentences = [line for line in on_terminal(cluster, columns, *words) if not UNBROKEN.fullmatch(line)]
                longest = max(map(len, sentences))
                holds(f"{words[0]} on {columns} columns:\n" + "\n".join(sentences), longest <= (columns or 80) and (words[0] == "status" or longest >= least))
        cluster.check_end("n1 +n2")


def printed_settings():
    """A new server is started with nothing but the settings that are printed, with its client URL filled in."""
    with Cluster(1, ["n2"]).running() as cluster:
        new = cluster["n2"]
        it = begin(cluster, "add", f"n2={new.peer}", "--yes", "--limit", "30")
        settings, shown = {}, []
        for line in lines(it):
            shown.append(line)
            setting = re.fullmatch(r'    (ETCD_\w+)="(.*)"\n', line)
            if setting:
                settings[setting[1]] = setting[2].replace("http://HOST:PORT", new.client)
            elif line == "  start n2 now\n":
                new.process = subprocess.Popen(["etcd", "--data-dir", new.data, "--log-outputs", new.log, "--logger=zap"], env={**ENVIRONMENT, **settings},
                                               start_new_session=True, stdin=subprocess.DEVNULL, stdout=subprocess.DEVNULL, stderr=subprocess.DEVNULL)
                cluster.groups.append(new.process)
        if it.wait():
            raise Broken(f"status {it.returncode}:\n{''.join(shown)}")
        cluster.check_end("n1 n2")


TESTS = (lines_fit_the_terminal, printed_settings)
