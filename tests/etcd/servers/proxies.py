"""Connections to a server that a test can cut."""
import contextlib
import socket
import threading

from clusters import PORTS


class Proxy:
    """A proxy before the peer URL of a server, which takes its place in the list of members."""

    def __init__(self, server):
        self.target = int(server.listening.rpartition(":")[2])
        self.port, self.connections = next(PORTS), []
        server.peer = f"http://127.0.0.1:{self.port}"
        self.listen()

    def listen(self):
        self.listener = socket.create_server(("127.0.0.1", self.port))
        threading.Thread(target=self.accept, args=(self.listener,), daemon=True).start()

    def accept(self, listener):
        with contextlib.suppress(OSError):
            while True:
                client, _ = listener.accept()
                try:
                    server = socket.create_connection(("127.0.0.1", self.target))
                except OSError:
                    end(client)
                    continue
                self.connections += [client, server]
                for source, target in ((client, server), (server, client)):
                    threading.Thread(target=self.forward, args=(source, target), daemon=True).start()

    def forward(self, source, target):
        with contextlib.suppress(OSError):
            while data := source.recv(65536):
                target.sendall(data)
        end(target)

    def refuse(self):
        """Takes no new connections. Those that there are go on."""
        end(self.listener)

    def cut(self):
        """Ends all connections, and takes no new ones."""
        self.refuse()
        for connection in self.connections:
            end(connection)


def end(connection):
    with contextlib.suppress(OSError):
        connection.shutdown(socket.SHUT_RDWR)
    connection.close()
