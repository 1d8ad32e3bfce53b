"""A client of Redis over its own protocol: commands are sent in one go, their replies come in order."""
import socket


class Redis:
    """A connection to a server at HOST:PORT or at the path of a socket."""

    def __init__(self, address):
        if "/" in address:
            self.socket = socket.socket(socket.AF_UNIX)
            self.socket.connect(address)
        else:
            host, _, port = address.rpartition(":")
            self.socket = socket.create_connection((host, int(port)))
        self.file = self.socket.makefile("rb", 1 << 16)

    def all(self, commands):
        """The replies to the commands; an error is a value, as the reply of a transaction may hold one."""
        self.socket.sendall(b"".join(map(encoded, commands)))
        return [self.reply() for _ in commands]

    def __call__(self, *words):
        reply = self.all([words])[0]
        if isinstance(reply, Exception):
            raise reply
        return reply

    def reply(self):
        line = self.file.readline()
        if not line:
            raise ConnectionError("the server has gone")
        kind, value = line[:1], line[1:-2]
        if kind == b"+":
            return value
        if kind == b"-":
            return RuntimeError(value.decode())
        if kind == b":":
            return int(value)
        count = int(value)
        if count < 0:
            return None
        if kind == b"$":
            return self.file.read(count + 2)[:-2]
        return [self.reply() for _ in range(count)]


def encoded(words):
    words = [word if isinstance(word, bytes) else str(word).encode() for word in words]
    return b"*%d\r\n" % len(words) + b"".join(b"$%d\r\n%s\r\n" % (len(word), word) for word in words)
