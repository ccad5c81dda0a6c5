"""The command line of confscript-etcd."""
import argparse
import os
import signal

from . import guide, output, status
from .cluster import Cluster
from .commands import COMMANDS
from .etcdctl import Etcdctl
from .onlooker import Onlooker
from .plan import run_program
from .reasons import Stop, last_line
from .running import Run
from .servers import address, server_names

DEFAULT_ENDPOINT = "http://127.0.0.1:2379"


def parser():
    top = argparse.ArgumentParser(prog="confscript-etcd", description=guide.ABOUT, epilog=guide.epilog(),
                                  formatter_class=argparse.RawDescriptionHelpFormatter, allow_abbrev=False)
    top.add_argument("-V", "--version", action="store_true", help="print the version")
    chosen = top.add_subparsers(dest="command", metavar="COMMAND")

    def command(name, help, *servers):
        it = chosen.add_parser(name, help=help, description=help[0].upper() + help[1:] + ".", epilog=guide.epilog(name),
                               formatter_class=argparse.RawDescriptionHelpFormatter, allow_abbrev=False)
        for add in servers:
            add(it)
        for_all(it, name)
        return it

    def named(it):
        it.add_argument("servers", nargs="+", metavar="SERVER", help="a member, by its name or its id (hexadecimal or decimal); several with commas between")

    def healthy(it, more=""):
        it.add_argument("--healthy", action="store_true", help=f"also members that answer{more}")

    def healthy_first(it):
        healthy(it, "; new ones join before these leave")

    def failed(it):
        it.add_argument("--failed", action="append", default=[], metavar="SERVER", help="a member of which you know that it failed and does not come back, "
                        "where the others do not report whether they hear from it; several with commas between")

    def shown(it):
        it.add_argument("--output", choices=("text", "json"), default="text", help="how to print it (default: text)")
        once = it.add_mutually_exclusive_group()
        once.add_argument("--watch", action="store_true", help="print it again every five seconds, until interrupted")
        once.add_argument("--nagios", action="store_true", help="print one line, and end with 0 to 3 as plugins of Nagios do")

    command("status", "show the members, which of them answer, whether writes are taken, and how many more may fail", shown)
    replace = command("replace", "replace members by new servers; a failed one leaves before its successor joins", named, healthy_first, failed)
    replace.add_argument("--with", dest="new", action="append", required=True, metavar="NAME=URL",
                         help="the successor: its name and its peer URL; several with commas between, in the order of the members")
    add = command("add", "add servers as voters, each a learner first")
    add.add_argument("new", nargs="+", metavar="NAME=URL", help="a new server: its name and its peer URL")
    command("remove", "remove members", named, healthy, failed)
    carry = command("carry-out", "carry out the plan that confscript plan --strategy one-at-a-time --output json printed", failed)
    carry.add_argument("plan", metavar="PLAN", help="the file with the plan, or - for standard input")
    carry.add_argument("--new", nargs=3, action="append", default=[], metavar=("ID", "NAME", "URL"),
                       help="a server that the plan adds: its number in the plan, its name and its peer URL")
    return top


def for_all(it, name):
    it.add_argument("--endpoints", default=os.environ.get("ETCDCTL_ENDPOINTS", ""), metavar="URLS",
                    help=f"client URLs of some voters, with commas between (default: ETCDCTL_ENDPOINTS, or {DEFAULT_ENDPOINT}); "
                    "a member is reached at the URL that it advertises, or at one of these")
    it.add_argument("--client-url", action="append", default=[], metavar="NAME=URL",
                    help="where the member of this name or id is reached, if not at the client URL that it advertises; "
                    "of a new server: the client URL in its settings")
    it.add_argument("--metrics-url", action="append", default=[], metavar="NAME=URL",
                    help="where the metrics of the member of this name or id are read, if not at its client URL (etcd's --listen-metrics-urls)")
    it.add_argument("--etcdctl", default="etcdctl", metavar="COMMAND", help="how etcdctl is called, with its options (default: etcdctl)")
    if name == "status":
        it.add_argument("--limit", type=seconds, metavar="SECONDS", help="how long a look may take (default: 20; with --nagios 8)")
        return
    it.add_argument("--limit", type=seconds, default=600, metavar="SECONDS", help="how long to wait for one state (default 600)")
    it.add_argument("--steady", type=seconds, default=10, metavar="SECONDS",
                    help="how long the same servers have to be up before a voter leaves and before the run is done (default 10)")
    asks = it.add_mutually_exclusive_group()
    asks.add_argument("--yes", action="store_true", help="do not ask")
    asks.add_argument("--step", action="store_true", help="take one step, then ask before the next one")
    it.add_argument("--dry-run", action="store_true", help="show the plan and the commands, and change nothing")
    saves = it.add_mutually_exclusive_group()
    saves.add_argument("--snapshot", metavar="FILE", help="save a snapshot of the keys to this new file before the first change, and check it "
                       "(default: if a voter is removed, to a new file in the current folder)")
    saves.add_argument("--no-snapshot", action="store_true", help="save no snapshot")
    it.add_argument("--peer-proxy", action="store_true", help="something listens at peer URLs even where no server runs, such as a proxy")
    if name == "remove":
        it.set_defaults(start=None, env_file=[])
    else:
        for_new(it)


def for_new(it):
    it.add_argument("--env-file", action="append", default=[], metavar="FILE", help="write the settings of the new server to this file before it is added, "
                    "for EnvironmentFile= of systemd; once for each new server, in their order")
    it.add_argument("--start", metavar="COMMAND", help="a shell command that starts the new server whose settings are in its environment "
                    "(ETCD_NAME, ETCD_INITIAL_CLUSTER, ETCD_INITIAL_CLUSTER_STATE, ETCD_INITIAL_ADVERTISE_PEER_URLS); without it you start it")


def seconds(text):
    value = float(text)
    if not 0 <= value < 1e9:
        raise ValueError
    return value


def named_urls(texts):
    """URLs of members, by name or id."""
    urls = {}
    for text in texts:
        name, _, url = text.partition("=")
        address(url)
        urls.setdefault(name, []).append(url)
    return {name: tuple(its) for name, its in urls.items()}


def endpoints(text):
    """The client URLs of --endpoints. As in etcdctl, one may lack the scheme or end in a slash, and an empty text is none."""
    parts = [it.strip().rstrip("/") for it in text.split(",")]
    urls = [it if "://" in it else f"http://{it}" for it in parts if it] or [DEFAULT_ENDPOINT]
    for url in urls:
        address(url)
    return urls


def version(program):
    run = run_program(program, "--version")
    if run.returncode:
        raise Stop(f"{program} cannot be run: {last_line(run.stderr) or f'status {run.returncode}'}")
    return f"confscript-etcd {run.stdout.split()[-1]}"


def main(program):
    output.prepare()
    top = parser()
    options = top.parse_args()
    if options.command is None and not options.version:
        top.error("expected a command")
    if options.command == "carry-out" and options.plan == "-" and not (options.yes or options.dry_run):
        top.error("the plan is read from standard input, so the answer can't be: give --yes, or the plan as a file")
    try:
        # It was blocked until all is read that the command is made of.
        signal.pthread_sigmask(signal.SIG_UNBLOCK, [signal.SIGINT])
        return run(options, program)
    except Stop as stop:
        if options.command == "status":
            return status.show_stopped(stop, form(options))
        output.complain(f"confscript-etcd: {stop}")
        return stop.status
    except OSError as error:
        reason = f"{error.filename or 'output'}: {error.strerror or error}"
    except UnicodeDecodeError:
        reason = "the plan is not UTF-8"
    except KeyboardInterrupt:
        reason = "interrupted; nothing was changed"
    output.complain(f"confscript-etcd: {reason}")
    return Stop.status


def run(options, program):
    """Runs a command. Its arguments are read before the cluster is asked."""
    if options.version:
        output.say(version(program))
        return 0
    if getattr(options, "failed", None):
        options.failed = server_names(options.failed)
    if options.command == "status":
        limit = options.limit if options.limit is not None else 8 if options.nagios else 20
        return (status.watch if options.watch else status.show)(cluster_of(Onlooker, options, limit), form(options), limit)
    command = COMMANDS[options.command](options)
    return Run(options, command, cluster_of(Cluster, options, options.limit), program).run()


def cluster_of(kind, options, limit):
    return kind(Etcdctl(options.etcdctl, os.environ, limit), endpoints(options.endpoints), named_urls(options.client_url), named_urls(options.metrics_url))


def form(options):
    """How the status is printed."""
    return "nagios" if options.nagios else options.output
