"""Sends pieces of connections to the slots' streams of Redis; a front end that has packets does the same."""
import time

from keys import SLOTS, slot_of

AT_ONCE = 500
MOST_WAITING = 20000


class Sender:
    def __init__(self, redis, space):
        self.redis, self.space = redis, space
        self.commands, self.sent = [], 0

    def piece(self, connection, life, offset, data, kind=b"data"):
        key = "%s:in:%d" % (self.space, slot_of(connection))
        self.commands.append(("XADD", key, "*", "c", connection, "l", life, "o", offset, "k", kind, "d", data))
        if len(self.commands) >= AT_ONCE:
            self.flush()

    def end(self, connection, life, offset):
        self.piece(connection, life, offset, b"", b"end")

    def flush(self):
        """Waits where the workers are behind, so that Redis doesn't hold all of the input."""
        self.redis.all(self.commands)
        self.sent += len(self.commands)
        self.commands = []
        while sum(self.redis.all([("XLEN", "%s:in:%d" % (self.space, slot)) for slot in range(SLOTS)])) > MOST_WAITING:
            time.sleep(0.02)
