"""The expected cost of each crate's proof, from the table in docs/TESTING.md, which `cost.py` writes. The cost of a
crate that isn't in the table is guessed from its number of lines."""
import os
import re

from crates import TOP, lines

PAGE = os.path.join('docs', 'TESTING.md')
BEGIN, END = '<!-- cost: tools/cost.py writes this -->', '<!-- cost: its end -->'
HEAD = ['| crate | proof | tests | edits | most MB of a proof |', '|---|---|---|---|---|']
ROW = re.compile(r'\| `(\w+)` \| ([\d.]+) \| ([\d.]*) \| ([\d.]*) \| (\d+) \|')
LINES_A_MINUTE = 700
LINES_A_MB = 2


class Cost:
    """The processor minutes of a proof, and the most MB that one of its processes takes."""

    def __init__(self, proof, memory):
        self.proof, self.memory = proof, memory


def measured():
    """The costs in the table, by crate."""
    with open(os.path.join(TOP, PAGE), encoding='utf-8') as file:
        table = file.read().partition(BEGIN)[2].partition(END)[0]
    return {name: Cost(float(proof), int(memory)) for name, proof, _, _, memory in ROW.findall(table)}


def costs(names):
    table = measured()
    return {name: table.get(name) or Cost(lines(name) / LINES_A_MINUTE, 700 + lines(name) / LINES_A_MB) for name in names}
