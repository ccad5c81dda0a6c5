"""The settings with which a new server joins: variables of etcd, as they are printed and as they are written to a file."""
import contextlib
import os
import shlex
import tempfile

from .reasons import Stop, Usage
from .servers import address, is_address

# The first words of a file of settings, by which this command knows its own files.
MARK = "# Settings of the new etcd server"
PLACE = "HOST:PORT"


def settings(new, members):
    """The variables with which the server of a new member joins the cluster: those that `etcdctl member add` prints."""
    others = [member for member in members if not member.shares_url(new)]
    pairs = [f"{member.label}={url}" for member in others for url in member.peers] + [f"{new.name}={url}" for url in new.peers]
    return {
        "ETCD_NAME": new.name,
        "ETCD_INITIAL_CLUSTER": ",".join(pairs),
        "ETCD_INITIAL_CLUSTER_STATE": "existing",
        "ETCD_INITIAL_ADVERTISE_PEER_URLS": ",".join(new.peers),
    }


def listening(new, members, clients=()):
    """What the server of a new member also needs: where it listens. Unless its client URLs are given, they are to be filled
    in."""
    schemes = {url.partition(":")[0] for member in members for url in member.clients}
    clients = clients or (f"{min(schemes, default='http')}://{PLACE}",)
    return {
        "ETCD_LISTEN_PEER_URLS": ",".join(map(listened, new.peers)),
        "ETCD_LISTEN_CLIENT_URLS": ",".join(map(listened, clients)),
        "ETCD_ADVERTISE_CLIENT_URLS": ",".join(clients),
    }


def listened(url):
    """Where a server listens that is reached at a URL: at an address, not at a name."""
    return url if PLACE in url or is_address(url) else f"{url.partition(':')[0]}://0.0.0.0:{address(url)[1]}"


def lines_of(variables):
    return [f'{name}="{value}"' for name, value in variables.items()]


class SettingsFiles:
    """The files of --env-file, one for each new server, in their order."""

    def __init__(self, paths, servers):
        if paths and len(paths) != len(servers):
            raise Usage(f"--env-file: expected one for each new server, in their order: {len(servers)}, and not {len(paths)}")
        if len(set(paths)) < len(paths):
            raise Usage("--env-file: expected another file for each new server")
        self.paths = {new.name: path for new, path in zip(servers, paths)}
        for path in paths:
            refuse_foreign(path)

    def of(self, new):
        """The file of a new server. None if there is none."""
        return self.paths.get(new.name)

    def write(self, new, variables):
        """Replaces the file of a new server as a whole, if it has one."""
        path = self.of(new)
        if path is None:
            return
        text = "\n".join([f"{MARK} {new.name}, by confscript-etcd. etcd reads them until it has joined.", *lines_of(variables)])
        try:
            replace_file(path, f"{text}\n")
        except OSError as error:
            raise Stop(f"--env-file {path}: {error.strerror}") from None


def refuse_foreign(path):
    """Refuses a file that is not one of settings, and one that cannot be written."""
    folder = os.path.dirname(path) or "."
    if not os.path.isdir(folder) or not os.access(folder, os.W_OK):
        raise Usage(f"--env-file {path}: no file can be written to the folder {shlex.quote(folder)}")
    if not os.path.lexists(path):
        return
    try:
        with open(path, encoding="utf-8", errors="replace") as file:
            is_own = file.readline().startswith(MARK)
    except OSError as error:
        raise Usage(f"--env-file {path}: {error.strerror}") from None
    if not is_own:
        raise Usage(f"--env-file {path}: this file has other things in it, and is not overwritten")


def replace_file(path, text):
    """Writes a file that others read, at once."""
    number, new = tempfile.mkstemp(dir=os.path.dirname(path) or ".")
    try:
        with open(number, "w", encoding="utf-8") as file:
            file.write(text)
        os.chmod(new, 0o644)
        os.replace(new, path)
    except BaseException:
        with contextlib.suppress(OSError):
            os.remove(new)
        raise
