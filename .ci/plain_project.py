"""The network of a project and its catalogues, from the texts of their files, by docs/RULES.md in plain Python.

Nothing here is the program's: TOML and CSV are read by Python, and losses are exact fractions (exact.py).
"""
import csv
import io
import math
import tomllib
from fractions import Fraction

import plain
from exact import Fan, Section, Size, energy, loss, parts, price


def rows(text, kind):
    """The rows of a catalogue after its header, with numbers as numbers."""
    fields = csv.reader(io.StringIO(text))
    next(fields)
    return [kind(*(int(field) if field.lstrip("-").isdigit() else field for field in row)) for row in fields]


def tables(text):
    """The fitting tables by name: their areas, their flows, and the value at both."""
    found = {}
    for name, area, flow, value in rows(text, lambda *row: row):
        found.setdefault(name, {})[area, flow] = value
    return {name: (sorted({a for a, _ in cells}), sorted({f for _, f in cells}), cells) for name, cells in found.items()}


class Project(plain.Network):
    """The network of the texts by the names of their files; `refusals` has how many pairs each rule refused."""

    def __init__(self, texts):
        self.doc = doc = tomllib.loads(texts["project.toml"])
        self.rows, self.rules = doc["section"], doc.get("rules", {})
        self.catalogue = rows(texts["sizes.csv"], Size)
        self.rates = {size.name: [] for size in self.catalogue}
        for name, flow, rate in rows(texts["friction.csv"], lambda *row: row):
            self.rates[name].append((flow, rate))
        self.tables = tables(texts["fittings.csv"])
        self.lists = [[size for size in self.catalogue if size.list == row["list"]] for row in self.rows]
        super().__init__(doc["name"], self.rows, [[size.name for size in sizes] for sizes in self.lists], [], [])
        self.flows = [self.flow(s) for s in self.sections]
        self.counts = dict.fromkeys(["preset", "velocity", "height", "taper"], 0)
        self.pairs = [self.pairs_of(s) for s in self.sections]
        self.refusals = list(self.counts.items())
        self.fans = self.offer(texts["fans.csv"], max(self.side_flow("supply"), self.side_flow("return")))
        if "return-fans.csv" in texts:
            self.return_fans = self.offer(texts["return-fans.csv"], self.side_flow("return"))

    def flow(self, s):
        """What the section carries: what is to pass it, and its leak."""
        children = [self.flow(t) for t in self.sections if self.neighbours[t] == s]
        passes = sum(children) if children else self.rows[s]["flow"]
        return math.ceil(Fraction(passes * (1_000 + self.rows[s].get("leak", 0)), 1_000))

    def side_flow(self, side):
        return sum(self.flows[s] for s in self.sections if self.neighbours[s] is None and self.sides[s] == side)

    def offer(self, text, flow):
        """The fans that serve the airflow, each with the cost of its energy."""
        terms = [self.doc["energy"][key] for key in ("hours", "tariff", "worth")]
        return [(fan.name, fan.pressure, fan.price + math.ceil(energy(fan, *terms)))
                for fan in rows(text, Fan) if fan.low <= flow <= fan.high]

    def allowed(self, s, size, beside):
        """Whether each rule allows the size, by the rule's name, in order."""
        row = self.rows[s]
        velocity = row.get("velocity", self.rules.get("velocity"))
        height = row.get("height", self.rules.get("height"))
        speed = Fraction(self.flows[s] * 1_000_000, size.area)      # mm/s
        return {
            "preset": row.get("preset", size.name) == size.name,
            "velocity": velocity is None or speed <= velocity,
            "height": height is None or size.height <= height,
            "taper": not self.rules.get("taper", False) or beside is None or size.area <= beside.area,
        }

    def pairs_of(self, s):
        """The pairs of a section; counts what each rule is the first to refuse."""
        row, neighbour, found = self.rows[s], self.neighbours[s], {}
        facts = Section(
            self.doc["density"], self.flows[s], 0 if neighbour is None else self.flows[neighbour], row["length"],
            row.get("local", 0), row.get("device", 0), row.get("junction"))
        for k, size in enumerate(self.lists[s]):
            for g, beside in enumerate([None] if neighbour is None else self.lists[neighbour]):
                lost = parts(facts, self.rates[size.name], self.tables, size, beside)
                if lost is None:
                    continue
                refused = [rule for rule, allows in self.allowed(s, size, beside).items() if not allows]
                if refused:
                    self.counts[refused[0]] += 1
                else:
                    found[k, g] = loss(lost), price(size, row["length"], beside)
        return found
