"""From files of rules to a pattern file, a map and a count: the command `tools/lists`."""
import argparse
import collections
import os
import subprocess
import sys
import tempfile

from .formats import FORMATS
from .found import LeftOut
from .lines import within_lines
from .rewriting import on_one_line, rewrite, wider
from .tree import CannotRewrite

HELP = """Writes the expressions of rules as a pattern file of hs_tool on standard output, and what was left out, by
reason, on standard error. FILE may be a folder: its files of the format's ending are read, also in folders within."""


LINES_AT_ONCE = 200


def files_of(names, ending):
    for name in names:
        if not os.path.isdir(name):
            yield name
            continue
        for base, folders, files in os.walk(name):
            folders.sort()
            yield from (os.path.join(base, file) for file in sorted(files) if file.endswith(ending))


class List:
    """The lines of the pattern file and of the map, and the counts."""

    def __init__(self, single, wider_too):
        self.single, self.wider_too = single, wider_too
        self.lines, self.map = [], []
        self.left, self.kept_as_is, self.rewritten, self.widened = (collections.Counter() for _ in range(4))
        self.carrying = 0

    def take(self, one):
        if isinstance(one, LeftOut):
            self.leave(one.reason, one.where, one.rule, one.carries)
            return
        self.carrying += 1
        text, flags, note = self.expression(one)
        number = len(self.lines) + 1
        self.lines.append("%d:/%s/%s" % (number, text, flags + ("H" if self.single else "")))
        self.map.append((number, one.where, one.rule, one.part, "; ".join(one.notes + ((note,) if note else ()))))

    def expression(self, one):
        """The text and the flags that are written for it, and what was done."""
        flags, read = "".join(flag for flag in "ismx" if flag in one.flags), one.text
        try:
            read = within_lines(read, flags) if one.of_lines else read
            text, flags, kinds = rewrite(read, flags)
            kinds = ", ".join(kinds)
            self.rewritten.update([kinds] if kinds else [])
            return text, flags, "rewritten: " + kinds if kinds else ""
        except CannotRewrite as fault:
            reason = str(fault)
        if self.wider_too:
            try:
                text, flags = wider(read, flags)
                self.widened[reason] += 1
                return text, flags, "wider than the rule: " + reason
            except (CannotRewrite, ValueError, IndexError):
                pass
        self.kept_as_is[reason] += 1
        text = on_one_line(read, flags)
        return text, flags.replace("x", ""), "not rewritten: " + reason

    def leave(self, reason, where, rule, carries):
        self.left[reason] += 1
        self.carrying += carries
        self.map.append(("-", where, rule, "left out", reason))

    def keep_accepted(self, program):
        """Entries that the program refuses are left out by its reason: in short lists first, then in that of all."""
        rows = {row[0]: at for at, row in enumerate(self.map)}
        kept = []
        for start in range(0, len(self.lines), LINES_AT_ONCE):
            kept += self.accepted(program, self.lines[start:start + LINES_AT_ONCE], rows)
        self.lines = self.accepted(program, kept, rows)

    def accepted(self, program, lines, rows):
        """The program tells the first entry that it refuses: those before it stand, those behind it are tried next."""
        kept = []
        while True:
            refusal = refusal_of(program, lines)
            if refusal is None:
                return kept + lines
            number, reason = refusal
            at = next(at for at, line in enumerate(lines) if line.startswith("%d:" % number))
            kept, lines = kept + lines[:at], lines[at + 1:]
            _, where, rule, part, _ = self.map[rows[number]]
            reason = "refused by the program: " + reason
            self.left[reason] += 1
            self.map[rows[number]] = ("-", where, rule, part + ", left out", reason)

    def tell(self, file):
        print("written %d of %d expressions" % (len(self.lines), self.carrying), file=file)
        for title, counts in (("rewritten", self.rewritten), ("written wider than the rule, has", self.widened),
                              ("written as it is, has", self.kept_as_is), ("left out", self.left)):
            for reason, count in sorted(counts.items(), key=lambda pair: (-pair[1], pair[0])):
                print("%s: %s: %d" % (title, reason, count), file=file)


def refusal_of(program, lines):
    """The identifier that the program refuses of a list, and why; None where it accepts it."""
    with tempfile.NamedTemporaryFile("wb", suffix=".patterns") as file:
        file.write("".join(line + "\n" for line in lines).encode("latin-1"))
        file.flush()
        run = subprocess.run([program, "check", file.name], capture_output=True)
    if run.returncode == 0:
        return None
    words = run.stderr.decode("latin-1").split()
    if run.returncode != 2 or len(words) < 5 or not words[2].isdigit():
        raise SystemExit("lists: %s: %s" % (program, " ".join(words)))
    # refused ENTRY ID NUMBER NAME VALUES: the place or count isn't part of the reason, the word of a form is.
    return int(words[2]), " ".join(words[4:6] if words[4] == "Unsupported" else words[4:5])


def main():
    parser = argparse.ArgumentParser(prog="lists", description=HELP)
    parser.add_argument("format", choices=sorted(FORMATS))
    parser.add_argument("files", nargs="+", metavar="FILE")
    parser.add_argument("--map", metavar="FILE", help="write where each identifier comes from, and what was left out")
    parser.add_argument("--single", action="store_true", help="give each entry the flag H: it is told once a stream")
    parser.add_argument("--wider", action="store_true",
                        help="where no sure rewriting is known, write an expression that matches more")
    parser.add_argument("--only-accepted", metavar="PROGRAM", help="leave out what this hs_tool refuses")
    words = parser.parse_args()
    module, ending = FORMATS[words.format]
    made = List(words.single, words.wider)
    for one in module.entries(list(files_of(words.files, ending))):
        made.take(one)
    if words.only_accepted:
        made.keep_accepted(words.only_accepted)
    sys.stdout.buffer.write("".join(line + "\n" for line in made.lines).encode("latin-1"))
    if words.map:
        with open(words.map, "w", encoding="latin-1", newline="\n") as file:
            file.writelines("\t".join(map(str, row)) + "\n" for row in made.map)
    made.tell(sys.stderr)
    return 0
