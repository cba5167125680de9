#!/usr/bin/env python3
"""Projects of several families at the limits of their files, each with a script of edits (README.md).

    bench/project_families.py FOLDER FAMILY [SECTIONS [EDITS]]        writes the files into the folder; 500, 40

A family and a number of sections make one project, and with a number of edits one script: a longer one has the lines
of a shorter one first. The first edit leaves the strongest fan without its airflow, so that it touches every section;
no other edit changes the greatest pressure.
"""
import pathlib
import random
import sys

FILES = ["project.toml", "sizes.csv", "friction.csv", "fittings.csv", "fans.csv"]
SCRIPT = "script"

# the neighbour of section s
FAMILIES = {
    "chain": lambda s, dice: s - 1,
    "plenum": lambda s, dice: 0,
    "star": lambda s, dice: None,
    "tree": lambda s, dice: dice.randrange(max(0, s - 40), s),
    "comb": lambda s, dice: s - 1 if s % 4 == 1 else max(0, (s - 1) // 4 * 4 - 3),
    "halves": lambda s, dice: (s - 1) // 2,
}
EXTRA = 1  # l/s that the strongest fan serves beyond what the project carries


class Family:
    """A project of the family: its sections by neighbour, length, device and airflow."""

    def __init__(self, family, sections):
        self.dice = dice = random.Random(f"{family} {sections}")
        self.name = family
        self.neighbours = [None] + [FAMILIES[family](s, dice) for s in range(1, sections)]
        self.leaves = sorted(set(range(sections)) - set(self.neighbours))
        self.lengths = [dice.randint(100, 400) for _ in range(sections)]
        self.devices = [dice.randint(0, 3) for _ in range(sections)]
        self.flows = {s: dice.randint(5, 15) for s in self.leaves}

    def texts(self):
        """The texts of the files by their names."""
        texts = (self.project(), self.sizes(), self.friction(), self.fittings(), self.fans())
        return dict(zip(FILES, ("\n".join([*lines, ""]) for lines in texts)))

    def project(self):
        dice = self.dice
        lines = ["format = 2", 'name = "made"', "density = 1204", "[energy]", "hours = 2600", "tariff = 2200", "worth = 12462",
                 "[rules]", "velocity = 12000", "height = 900", "taper = true"]
        for s, neighbour in enumerate(self.neighbours):
            lines += ["[[section]]", f'name = "s{s}"', 'side = "supply"', f"length = {self.lengths[s]}", 'list = "round"',
                      f"local = {dice.randint(0, 50)}", f"device = {self.devices[s]}"]
            if neighbour is not None:
                lines += [f'neighbour = "s{neighbour}"', f'junction = "t{dice.randrange(32)}"']
            if s in self.flows:
                lines.append(f"flow = {self.flows[s]}")
        return lines

    def sizes(self):
        return ["list,size,area,height,metre,join,step",
                *(f"round,k{k},{k * k * 4000},{k * 35},{1000 + 300 * k},{100 * k},{self.dice.randint(50, 400)}" for k in range(1, 25))]

    def friction(self):
        return ["size,flow,rate", *(f"k{k},{n * 5 * k * k},{n * n * 2}" for k in range(1, 25) for n in range(1, 65))]

    def fittings(self):
        return ["table,area,flow,value", *(f"t{t},{100 * a},{50 * q},{self.dice.randint(-50, 400)}"
                                           for t in range(32) for a in range(20) for q in range(20))]

    def fans(self):
        most = sum(self.flows.values()) + EXTRA
        return ["fan,pressure,low,high,price,watts",
                *(f"f{j},{300 * (j + 1)},0,{100_000 if j < 63 else most},{100000 + 9000 * j},{400 + 100 * j}" for j in range(64))]

    def edits(self, count):
        """The words of so many lines: by turns a device and an airflow of a leaf, and a length of any section. Each value is
        near that of the project, so that what is condensed stays about as long."""
        dice = random.Random(f"{self.name} {len(self.neighbours)} edits")
        flows = dict(self.flows)
        flows[self.leaves[0]] += EXTRA + 1
        yield ["airflow", self.leaves[0], flows[self.leaves[0]]]
        for turn in range(count - 1):
            leaf, any_section = dice.choice(self.leaves), dice.randrange(len(self.neighbours))
            if turn % 3 == 0:
                yield ["device", leaf, (self.devices[leaf] + turn) % 4]
            elif turn % 3 == 1:
                yield ["length", any_section, self.lengths[any_section] + turn % 7]
            else:
                yield ["airflow", leaf, flows[leaf] + turn // 3 % 2]

    def script(self, count):
        return "".join(f"{kind} s{s} {value}\n" for kind, s, value in self.edits(count))


def written(folder, family, sections=500, edits=40):
    """The family's project, whose files and script now stand in the folder."""
    made = Family(family, sections)
    for name, text in (made.texts() | {SCRIPT: made.script(edits)}).items():
        (pathlib.Path(folder) / name).write_text(text)
    return made


if __name__ == "__main__":
    written(sys.argv[1], sys.argv[2], *map(int, sys.argv[3:]))
