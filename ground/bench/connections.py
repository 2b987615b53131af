"""Who may wait at the server, and for how long: connections without the secret, each address's share, one request's time."""
import io
import socket
import threading
import time
from collections import Counter

STRANGERS = 16              # connections that have not shown the secret
SHARE = 8                   # of one address
KNOWN = 24                  # connections that have shown it
FIRST = 5                   # seconds for the first request
IDLE = 20                   # seconds between requests, once the secret was shown
WHOLE = 10                  # seconds for a request from its first octet on, and for its answer


class Connections:
    """The connections that are open. A new one is never kept waiting by those without the secret: the oldest of them ends."""

    def __init__(self):
        self.turn = threading.Lock()
        self.strangers = {}     # connection to address, the oldest first
        self.known = set()

    def take(self, connection, address):
        with self.turn:
            shares = Counter(self.strangers.values())
            if shares[address] >= SHARE:
                self.end_oldest(address)
            elif len(self.strangers) >= STRANGERS:
                self.end_oldest(max(shares, key=shares.get))
            self.strangers[connection] = address

    def end_oldest(self, address):
        connection = next(each for each, its in self.strangers.items() if its == address)
        del self.strangers[connection]
        try:
            connection.shutdown(socket.SHUT_RDWR)
        except OSError:
            pass

    def know(self, connection):
        """The connection has shown the secret; False if too many have."""
        with self.turn:
            if connection not in self.known and len(self.known) >= KNOWN:
                return False
            self.strangers.pop(connection, None)
            self.known.add(connection)
            return True

    def leave(self, connection):
        with self.turn:
            self.strangers.pop(connection, None)
            self.known.discard(connection)


class Paced(io.RawIOBase):
    """The octets that come over a connection, each request within its time, however slowly its octets come."""

    def __init__(self, connection):
        self.connection = connection
        self.until, self.begun = time.monotonic() + FIRST, True

    def expect(self):
        """Another request may begin within IDLE seconds; it has to be there WHOLE seconds after it begins."""
        self.until, self.begun = time.monotonic() + IDLE, False

    def readable(self):
        return True

    def readinto(self, room):
        left = self.until - time.monotonic()
        if left <= 0:
            raise TimeoutError
        self.connection.settimeout(left)
        size = self.connection.recv_into(room)
        if not self.begun:
            self.until, self.begun = time.monotonic() + WHOLE, True
        return size
