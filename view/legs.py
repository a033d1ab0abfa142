"""What the command prints for the examples: what pages are compared with."""

import os
import subprocess

ROOT = os.path.dirname(os.path.dirname(os.path.abspath(__file__)))
EXAMPLES = os.path.join(ROOT, "examples")
PROGRAM = os.path.join(ROOT, "library", "target", "debug", "legs")

# This many places are passed at a time.
LOT = 256


def run(*words, given=""):
    """What `legs` writes, to both outputs, and its status; FILE is in examples/, or is standard input."""
    said = subprocess.run([PROGRAM, *words], input=given, capture_output=True, text=True, cwd=EXAMPLES)
    return said.stdout, said.stderr, said.returncode


def output(*words, given=""):
    text, message, status = run(*words, given=given)
    if status:
        raise RuntimeError(message)
    return text


def printed(*words, given=""):
    """The lines of a sheet."""
    return output("print", *words, given=given)[:-1].split("\n")


def marked(file, places):
    """What `legs mark` answers to places: for each the node and the place inside its block, or the number of a refusal."""
    text, message, status = run("mark", file, "--tsv", given="".join(f"{line} {column}\n" for line, column in places))
    if status not in (0, 1) or message:
        raise RuntimeError(message)
    rows = [row.split("\t") for row in text.splitlines()[1:]]
    return [int(row[6]) if row[6] else tuple(map(int, row[2:5])) for row in rows]


class Example:
    """An example's sheet, and whose each place of it is."""

    def __init__(self, file):
        self.file = file
        self.sheet = printed(file)
        self.lines, self.columns = len(self.sheet), len(self.sheet[0])
        # Those just outside, too.
        self.places = [(line, column) for line in range(self.lines + 1) for column in range(self.columns + 1)]
        self.answers = dict(zip(self.places, marked(file, self.places)))
        rows = output("sizes", file).splitlines()[1:]
        self.below = [int(row.split()[-1]) for row in rows]

    def owner(self, line, column):
        """The node of a place, none in the margin and outside."""
        answer = self.answers.get((line, column))
        return answer[0] if isinstance(answer, tuple) else None

    def area(self, node):
        """The rectangle of a branch: first line and column, lines and columns."""
        branch = range(node, node + self.below[node] + 1)
        own = [place for place in self.places if self.owner(*place) in branch]
        lines, columns = zip(*own)
        return [min(lines), min(columns), max(lines) - min(lines) + 1, max(columns) - min(columns) + 1]

    def leaves(self):
        """In the order of their numbers."""
        return sorted({self.owner(*place) for place in self.places} - {None})

    def above(self, node):
        """The leaves whose middle a side of this one meets: above its right side's upper end, beside its lower side's left end."""
        line, column, lines, columns = self.area(node)
        ends = [((line, column + columns), (line - 1, column + columns), 2), ((line + lines, column), (line + lines, column - 1), 1)]
        known = [before for at, before, _ in ends if self.owner(*at) is not None and self.owner(*before) is not None]
        return [self.owner(*before) for _, before, inside in ends if before in known and self.answers[before][inside] > 0]

    def leaf(self, node):
        """The lines of `legs leaf`: size, flags, cut."""
        lines = output("leaf", self.file, str(node)).splitlines()
        return lines[0].split(": ")[1], lines[1], lines[2]
