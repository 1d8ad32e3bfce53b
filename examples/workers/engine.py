"""One `hs_tool stream DB`: commands of its script in, reports and answers out."""
import os
import subprocess
import threading


class Engine:
    """Runs in a folder of its own, in which it keeps the files of saved streams for a moment."""

    def __init__(self, program, database, folder):
        self.folder, self.names = folder, 0
        self.process = subprocess.Popen([program, "stream", os.path.abspath(database)], cwd=folder,
                                        stdin=subprocess.PIPE, stdout=subprocess.PIPE)

    def name(self):
        """A name that no stream has had."""
        self.names += 1
        return b"c%d" % self.names

    def run(self, commands):
        """For each command its reports, as pairs of numbers in bytes, and its answer."""
        writer = threading.Thread(target=self.send, args=(b"".join(commands),))
        writer.start()
        answers = [self.answer() for _ in commands]
        writer.join()
        return answers

    def send(self, text):
        self.process.stdin.write(text)
        self.process.stdin.flush()

    def answer(self):
        reports = []
        while True:
            line = self.process.stdout.readline()
            words = line.split()
            if not line or words[0] == b"fault":
                raise RuntimeError("hs_tool has ended: %r" % line)
            if words[0] in (b"ok", b"no"):
                return reports, line.strip()
            reports.append((words[1], words[2]))

    def path(self, name):
        return os.path.join(self.folder, name.decode() + ".state")

    def put(self, name, state):
        with open(self.path(name), "wb") as file:
            file.write(state)

    def take(self, name):
        """The state that was saved, and no file any more."""
        with open(self.path(name), "rb") as file:
            state = file.read()
        os.unlink(self.path(name))
        return state

    def stop(self):
        self.process.stdin.close()
        self.process.wait()


def command_open(name):
    return b"open %s\n" % name


def command_write(name, data):
    return b"write %s %d\n%s\n" % (name, len(data), data)


def command_save(name):
    return b"save %s %s.state\n" % (name, name)


def command_expand(name):
    return b"expand %s %s.state\n" % (name, name)


def command_close(name):
    return b"close %s\n" % name
