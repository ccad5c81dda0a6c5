"""The command line of confscript-etcd, without a cluster."""
import os
import re
import signal
import subprocess
import tempfile
import time

from checks import holds, wait_for
from clusters import ENVIRONMENT
from runs import COMMAND, TOP, built_program

COMMANDS = ("status", "replace", "add", "remove", "carry-out")
SHARE = ("man/man1/confscript-etcd.1", "bash-completion/completions/confscript-etcd", "zsh/site-functions/_confscript-etcd",
         "fish/vendor_completions.d/confscript-etcd.fish")


def run(*words):
    it = subprocess.run([COMMAND, *words], capture_output=True, text=True, env={**ENVIRONMENT, "CONFSCRIPT": built_program()},
                        stdin=subprocess.DEVNULL, check=False)
    return it.returncode, it.stdout, it.stderr


def command_line():
    """The help of each command has an example. The manual page and the completions have each command and each option."""
    shared = {}
    for path in SHARE:
        with open(f"{TOP}/share/{path}", encoding="utf-8") as file:
            shared[path] = file.read().replace("\\-", "-").replace("-l ", "--")
    for command in COMMANDS:
        status, output, _ = run(command, "--help")
        holds(f"{command}: an example", status == 0 and re.search(rf"(?m)^Example:\n  confscript-etcd {command}( |$)", output))
        for path, text in shared.items():
            holds(f"{path} has {command}", re.search(rf"(?m)\b{command}\b", text))
            missing = {option for option in re.findall(r"(?m)^  (--[a-z-]+)", output) if not re.search(rf"{option}\b", text)}
            holds(f"{path} has the options of {command}, but not {missing}", not missing)
    status, output, _ = run("remove", "--help")
    holds(f"remove starts no server, so it has no options for that:\n{output}", not re.search("--start|--env-file|--with|new ones join", output))
    for command, parts in (("status", ("hangs", "Quorum is lost")), ("replace", ("hangs", "Quorum is lost", "take a change back", "one spare"))):
        output = run(command, "--help")[1]
        holds(f"{command} says what to do in an outage:\n{output}", all(part in output for part in parts))
    holds("the version", run("--version") == (0, f"confscript-etcd {subprocess.check_output([built_program(), '--version'], text=True).split()[1]}\n", ""))
    for words, wanted in (
        ([], "expected a command"),
        (["replace", "n1"], "the following arguments are required: --with"),
        (["status", "--limit", "-1"], "argument --limit: invalid seconds value: '-1'"),
        (["status", "--yes"], "unrecognized arguments: --yes"),
    ):
        status, _, error = run(*words)
        holds(f"{words}: status {status}: {error}", status == 2 and error.splitlines()[-1].endswith(f": error: {wanted}"))
    for words, status, wanted in (
        (["status", "--etcdctl", "/none/etcdctl"], 1,
         "/none/etcdctl cannot be run: No such file or directory (Debian has it in etcd-client; --etcdctl names another one)"),
        (["status", "--etcdctl", "echo no"], 1,
         "member list: expected JSON from etcdctl, and not 'no --endpoints=http://127.0.0.1:2379 member list --write-out=json'"),
        (["status", "--endpoints", "", "--etcdctl", "echo no"], 1,
         "member list: expected JSON from etcdctl, and not 'no --endpoints=http://127.0.0.1:2379 member list --write-out=json'"),
        (["status", "--endpoints", "10.0.0.1:2379/,", "--etcdctl", "echo no"], 1,
         "member list: expected JSON from etcdctl, and not 'no --endpoints=http://10.0.0.1:2379 member list --write-out=json'"),
        (["status", "--etcdctl", r"""sh -c 'printf "\303"'"""], 1, "member list: expected JSON from etcdctl, and not '\ufffd'"),
        (["status", "--etcdctl", "etcdctl --user 'root"], 2, "--etcdctl: no closing quotation"),
        (["status", "--endpoints", "http://10.0.0.1:2379,n2"], 2, "'http://n2': expected a URL with a scheme, a host and a port, such as http://10.0.0.4:2380"),
        (["status", "--client-url", "n1=10.0.0.1:2379"], 2, "'10.0.0.1:2379': expected a URL with a scheme, a host and a port, such as http://10.0.0.4:2380"),
        # What is wrong is found before the cluster is asked.
        (["replace", "n1,n2", "--with", "n4=http://10.0.0.4:2380"], 2, "2 to replace, and 1 with a name of their own in --with: expected as many"),
        (["add", "n4"], 2, "'n4': expected NAME=URL, such as n4=http://10.0.0.4:2380"),
        (["remove", "n1,n1"], 2, "n1 is named twice"),
        (["carry-out", "/none/plan"], 1, "/none/plan: No such file or directory"),
        (["carry-out", os.devnull], 1, "there is no plan in the input"),
    ):
        actual, _, error = run(*words)
        holds(f"{words}: status {actual}: {error}", (actual, error) == (status, f"confscript-etcd: {wanted}\n"))
    it = subprocess.run([COMMAND, "status", "--etcdctl", "echo \u00e9"], capture_output=True, text=True, check=False,
                        env={**ENVIRONMENT, "CONFSCRIPT": built_program(), "PYTHONIOENCODING": "ascii"})
    holds(f"what cannot be encoded: {it.stderr}", it.returncode == 1 and r"and not '\xe9 --endpoints" in it.stderr)
    with tempfile.TemporaryDirectory() as folder:
        program = f"{folder}/confscript"
        with open(program, "w", encoding="utf-8") as script:
            script.write("#!/bin/sh\necho 'cc: one' >&2\necho 'cc: two' >&2\nexit 3\n")
        os.chmod(program, 0o755)
        it = subprocess.run([COMMAND, "--version"], capture_output=True, text=True, env={**ENVIRONMENT, "CONFSCRIPT": program}, check=False)
        holds(f"a program that cannot be linked: {it.stderr}", (it.returncode, it.stderr) == (1, f"confscript-etcd: {program} cannot be run: cc: two\n"))
    closed = subprocess.run(["sh", "-c", '"$0" --version >&- 2>&- <&-', COMMAND], env={**ENVIRONMENT, "CONFSCRIPT": built_program()}, check=False)
    holds(f"without standard streams: status {closed.returncode}", closed.returncode == 0)


def etcdctl_hangs():
    """A call of etcdctl that does not end is given up."""
    for words, after in (["status", "--limit", "1"], 0.5), (["remove", "n1", "--limit", "1"], 8):
        status, _, error = run(*words, "--etcdctl", "sh -c 'exec sleep 1000'")
        holds(f"{words}: status {status}: {error}", status == 1 and error.startswith("confscript-etcd: cannot reach http://127.0.0.1:2379: ")
              and error.endswith(f" (etcdctl: it did not end after {after} s); is --endpoints right?\n"))


def plugin_is_late():
    """The plugin of Nagios ends in time, whatever it waits for."""
    found = run("status", "--nagios", "--limit", "0", "--etcdctl", "sh -c 'exec sleep 1000'")
    holds(f"it is not known: {found}", found == (3, "ETCD UNKNOWN - not known within 0 s\n", ""))


def interrupted_at_once():
    """An interrupt in the first moments, also while Python itself starts, ends the command with one line or with none."""
    wrong, printed = [], 0
    for at in range(60):
        with subprocess.Popen([COMMAND, "status", "--etcdctl", "sh -c 'exec sleep 1000'"], stdin=subprocess.DEVNULL, stdout=subprocess.PIPE,
                              stderr=subprocess.PIPE, text=True, env={**ENVIRONMENT, "CONFSCRIPT": built_program()}, start_new_session=True) as it:
            wait_for("Python starts", lambda: runs_python(it.pid), 0)
            time.sleep(at / 500)
            os.killpg(it.pid, signal.SIGINT)
            output, error = it.communicate()
        printed += error != ""
        if output or (it.returncode, error) not in ((1, "confscript-etcd: interrupted; nothing was changed\n"), (-signal.SIGINT, "")):
            wrong.append((at, it.returncode, output, error))
    holds(f"of 60 interrupts {len(wrong)} end otherwise, such as {wrong[:1]}", not wrong)
    holds("some come before Python can take them, and are reported", printed)


def runs_python(process):
    """Whether a process has become Python."""
    try:
        with open(f"/proc/{process}/cmdline", "rb") as file:
            return file.read().startswith(b"python3\0")
    except OSError:
        return True  # it has ended


TESTS = (command_line, etcdctl_hangs, plugin_is_late, interrupted_at_once)
