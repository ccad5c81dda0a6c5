"""Running etcdctl."""
import json
import os
import re
import shlex
import subprocess
import time

from .reasons import NotYet, Stop, Usage, last_line

# Seconds for a call of etcdctl: as many as --limit, within these bounds.
LEAST_LIMIT, MOST_LIMIT = 8, 30
HUNG = "it did not end"
# Parts of the answers of etcdctl after which a command is tried again.
PASSING = (
    HUNG,
    # The cluster is not ready yet: some voter was not reachable for five seconds, a member was added that has not
    # started, or the learner is not in sync with the leader (or was promoted, see below).
    "unhealthy cluster",
    "not enough started members",
    "can only promote a learner member",
    # An earlier attempt, or another operator, was first. Then the list of members shows it soon.
    "Peer URLs already exists",
    "member ID already exist",
    "member not found",
    "too many learner members",
    # No answer for now. The change may have been made.
    "no leader",
    "not leader",
    "leader changed",
    "bad leader transferee",
    "timed out",
    "deadline exceeded",
    "server stopped",
    "connection",
    "transport",
    "EOF",
    "code = Unavailable",
    "not supported for learner",
)
# Parts of the answers of a server that wants to know who asks.
NAMELESS = ("user name is empty", "permission denied", "invalid auth token")
# What etcdctl may take from its environment, and this command decides. An option that is given twice is refused.
DECIDED = ("ETCDCTL_ENDPOINTS", "ETCDCTL_WRITE_OUT", "ETCDCTL_HEX", "ETCDCTL_CLUSTER")
SECRET = ("--user", "--password")
# Why a certificate is refused, in etcdctl's log from 3.5 on.
TLS = re.compile(r'(?:(?:remote error: )?tls|x509): [^"\\(]*')


class Etcdctl:
    """etcdctl as the operator calls it: a command, perhaps with options, and an environment."""

    def __init__(self, command, environment, limit):
        try:
            self.words = shlex.split(command)
        except ValueError as error:
            raise Usage(f"--etcdctl: {str(error).lower()}") from None
        if not self.words:
            raise Usage("--etcdctl: expected a command")
        # etcdctl itself gives up after five seconds, unless it or what calls it hangs.
        self.limit = max(LEAST_LIMIT, min(limit, MOST_LIMIT))
        # When all has to be over, by the clock time.monotonic. None if each call has its own limit.
        self.end = None
        self.environment = {name: value for name, value in environment.items() if name not in DECIDED}
        self.environment["ETCDCTL_API"] = "3"
        user = environment.get("ETCDCTL_USER", "")
        if user and ":" not in user and not environment.get("ETCDCTL_PASSWORD") and not any(it.startswith("--password") for it in self.words):
            raise Usage(f"ETCDCTL_USER is {user}: give the password too, in ETCDCTL_PASSWORD or as ETCDCTL_USER={user}:PASSWORD")

    def seconds(self, most):
        """How long something may take that takes so long at most: half of what is left, so that something is left for what
        comes after it."""
        return most if self.end is None else max(0.2, min(most, (self.end - time.monotonic()) / 2))

    def timeout(self, seconds):
        """The variable by which etcdctl gives up by itself, and says why, before it is ended. None if it has a timeout, or has
        more time than it takes of its own accord."""
        is_set = self.option("command-timeout") is not None
        return {} if is_set or self.end is None else {"ETCDCTL_COMMAND_TIMEOUT": f"{min(5, 0.8 * seconds):.1f}s"}

    def command(self, words, endpoints):
        return [*self.words, f"--endpoints={','.join(endpoints)}", *words]

    def shown(self, words, endpoints):
        """The command as it is printed, without user and password."""
        return shlex.join([*without_user(self.words), f"--endpoints={','.join(endpoints)}", *words])

    def option(self, name):
        """The value of an option of etcdctl, of its arguments or of its environment. None if it has none."""
        for at, word in enumerate(self.words):
            if word == f"--{name}":
                return next(iter(self.words[at + 1:]), None)
            if word.startswith(f"--{name}="):
                return word.partition("=")[2]
        return self.environment.get(f"ETCDCTL_{name.upper().replace('-', '_')}") or None

    def shows_certificates(self):
        """Whether the certificates that it uses are known here. A command that calls etcdctl may have others."""
        return os.path.basename(self.words[0]) == "etcdctl" or self.option("cacert") is not None

    def has_flag(self, name):
        return f"--{name}" in self.words or self.environment.get(f"ETCDCTL_{name.upper().replace('-', '_')}") == "true"

    def run(self, words, endpoints, with_user=True, given=None, limit=None):
        """Runs etcdctl at some endpoints, with a text that it is given as input, and returns what it prints."""
        status, printed, error = self.call(words, endpoints, with_user, given, limit)
        if status:
            reason = f"{' '.join(words)}: {error}"
            if self.is_nameless(error):
                reason += " (give the user and the password: ETCDCTL_USER=root:PASSWORD)"
            raise NotYet(reason) if any(text in error for text in PASSING) else Stop(reason)
        return printed

    def call(self, words, endpoints, with_user=True, given=None, limit=None):
        """The status of a call of etcdctl, what it prints, and the error that it reports."""
        limit = self.seconds(limit or self.limit)
        command, environment = self.command(words, endpoints), {**self.environment, **self.timeout(limit)}
        if not with_user:
            command = [*without_user(self.words), *command[len(self.words):]]
            environment = {name: value for name, value in environment.items() if name not in ("ETCDCTL_USER", "ETCDCTL_PASSWORD")}
        try:
            with subprocess.Popen(command, stdin=subprocess.PIPE if given else subprocess.DEVNULL, stdout=subprocess.PIPE, stderr=subprocess.PIPE,
                                  text=True, encoding="utf-8", errors="replace", env=environment) as it:
                try:
                    printed, errors = it.communicate(given, timeout=limit)
                except subprocess.TimeoutExpired:
                    it.kill()
                    return 1, "", f"{HUNG} after {round(limit, 1):g} s"
                except BaseException:
                    it.kill()
                    raise
        except OSError as error:
            raise Stop(f"{command[0]} cannot be run: {error.strerror} (Debian has it in etcd-client; --etcdctl names another one)") from None
        return it.returncode, printed, last_error(errors)

    def is_nameless(self, error):
        """Whether an error is that of a server that wants to know who asks."""
        return any(text in error for text in NAMELESS)

    def answer(self, words, endpoints, with_user=True, given=None):
        """What etcdctl prints as JSON, as a value."""
        printed = self.run([*words, "--write-out=json"], endpoints, with_user, given)
        try:
            return json.loads(printed)
        except ValueError:
            raise Stop(f"{' '.join(words)}: expected JSON from etcdctl, and not {printed.strip()[:100]!r}") from None

    def has_user(self):
        return bool(self.environment.get("ETCDCTL_USER")) or without_user(self.words) != self.words


def without_user(words):
    """The words of a command without the options that say who asks."""
    kept, is_value = [], False
    for word in words:
        if not is_value and word.partition("=")[0] not in SECRET:
            kept.append(word)
        is_value = not is_value and word in SECRET
    return kept


def last_error(text):
    """The reason that etcdctl gives for a failure: without its log, unless that says that a certificate is refused."""
    reason, refused = last_line(text).removeprefix("Error: ") or "etcdctl failed without a reason", TLS.search(text)
    return f"{reason}: {refused[0].strip()}" if refused and "deadline exceeded" in reason else reason
