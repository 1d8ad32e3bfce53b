"""Receives reports: each is told once, by connection, life, identifier and end."""


class Receiver:
    """Keeps the reports of the lives that are under way, and for each connection the last life that has ended."""

    def __init__(self, redis, space):
        self.redis, self.space = redis, space
        self.known, self.ended = {}, {}
        self.dropped = 0
        self.at = b"0"

    def receive(self):
        """New reports as (connection, life, identifier, end)."""
        found = self.redis("XREAD", "COUNT", 5000, "BLOCK", 100, "STREAMS", self.space + ":reports", self.at)
        told = []
        for number, fields in found[0][1] if found else []:
            connection, life = fields[1], int(fields[3])
            if fields[4] == b"end":
                self.known.pop((connection, life), None)
                self.ended[connection] = max(life, self.ended.get(connection, 0))
            elif life <= self.ended.get(connection, 0):
                self.dropped += 1
            else:
                pair = (fields[5], fields[7])
                known = self.known.setdefault((connection, life), set())
                if pair in known:
                    self.dropped += 1
                else:
                    known.add(pair)
                    told.append((connection, life, *pair))
            self.at = number
        return told
