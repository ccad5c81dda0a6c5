"""How a server is named: a new one by NAME=URL, a member by its name or its id."""
import ipaddress
import socket
import ssl
import urllib.parse
from typing import NamedTuple, Tuple

from .reasons import Stop, Usage


class NewServer(NamedTuple):
    """A server that is not a member yet: its name, and the URLs at which its peers reach it."""

    name: str
    peers: Tuple[str, ...]

    def __str__(self):
        return ",".join(f"{self.name}={url}" for url in self.peers)


class Member(NamedTuple):
    """A member as etcd lists it. One that has not started has no name and no client URLs."""

    id: int
    name: str
    peers: Tuple[str, ...]
    clients: Tuple[str, ...]
    is_learner: bool

    @property
    def label(self):
        return self.name or f"{self.id:x}"

    @property
    def has_started(self):
        return bool(self.name or self.clients)

    def shares_url(self, new):
        return bool(set(self.peers) & set(new.peers))


def address(url):
    """The host and the port of a URL with a scheme that etcd takes."""
    try:
        parts = urllib.parse.urlsplit(url)
        host, port = parts.hostname, parts.port
    except ValueError:
        host = port = None
    if not host or not port or parts.scheme not in ("http", "https") or (parts.path, parts.query, parts.fragment) != ("", "", "") \
            or parts.username is not None:
        raise Usage(f"{url!r}: expected a URL with a scheme, a host and a port, such as http://10.0.0.4:2380")
    return host, port


def is_address(url):
    """Whether the host of a URL is an address, and no name."""
    try:
        ipaddress.ip_address(address(url)[0])
    except ValueError:
        return False
    return True


def answers_at(url, seconds=3):
    """Whether a server answers a request at a URL, be it by an error. One that hangs may still accept connections."""
    try:
        with socket.create_connection(address(url), timeout=seconds) as connection:
            if url.startswith("https:"):
                return speaks_tls(connection)
            connection.sendall(b"GET /version HTTP/1.0\r\n\r\n")
            return bool(connection.recv(1))
    except (OSError, Stop, UnicodeError):
        return False


def speaks_tls(connection):
    """Whether the other end of a connection takes part in a handshake, or refuses it by an alert."""
    context = ssl.create_default_context()
    context.check_hostname, context.verify_mode = False, ssl.CERT_NONE
    try:
        with context.wrap_socket(connection):
            return True
    except (ssl.SSLEOFError, ssl.SSLZeroReturnError):
        return False
    except ssl.SSLError as error:
        return not isinstance(error, TimeoutError)


def unreachable(url, seconds=3):
    """Why nothing can be reached at a URL. None if something listens there."""
    try:
        socket.create_connection(address(url), timeout=seconds).close()
    except OSError as error:
        return (error.strerror or str(error)).lower()
    except (Stop, UnicodeError) as reason:
        return str(reason)
    return None


def new_servers(texts):
    """The servers that texts such as `n4=http://10.0.0.4:2380,n5=..` name, in their order. A name that comes again adds
    a URL, as in etcd's --initial-cluster."""
    urls = {}
    for pair in (pair for text in texts for pair in text.split(",")):
        name, equals, url = pair.partition("=")
        if not equals or not name:
            raise Usage(f"{pair!r}: expected NAME=URL, such as n4=http://10.0.0.4:2380")
        address(url)
        urls.setdefault(name, []).append(url)
    every = [url for its in urls.values() for url in its]
    for url in every:
        if every.count(url) > 1:
            raise Usage(f"{url} is given twice")
    return [NewServer(name, tuple(its)) for name, its in urls.items()]


def server_names(texts):
    """The servers that texts such as `n2,n3` name, each once."""
    names = [name for text in texts for name in text.split(",")]
    for name in names:
        if not name:
            raise Usage("a server is named by its name or its id, and servers are separated by commas: n2,n3")
        if names.count(name) > 1:
            raise Usage(f"{name} is named twice")
    return names


def is_named(member, texts):
    """Whether one of these texts names a member."""
    return any(find(text, [member]) for text in texts)


def word_for(member, members):
    """The word by which a command names a member: its name, or its id if it has none or another one has that name."""
    is_clear = member.name and [it.name for it in members].count(member.name) == 1
    return member.name if is_clear else f"{member.id:x}"


def find(text, members):
    """The member that a text names: by its name, or by its id, hexadecimal or decimal. None if there is none."""
    ids = set()
    for base in (16, 10):
        try:
            ids.add(int(text, base))
        except ValueError:
            continue
    found = [member for member in members if member.name == text or member.id in ids]
    if len(found) > 1:
        raise Stop(f"{text} may be {' or '.join(f'{member.id:x}' for member in found)}: name it by an id that is only its own")
    return found[0] if found else None
