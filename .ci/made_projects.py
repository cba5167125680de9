"""Small projects that are made here, each with its catalogues: the texts of their files by the names in FILES."""
import random

FILES = ["project.toml", "sizes.csv", "friction.csv", "fittings.csv", "fans.csv"]
RETURN_FANS = "return-fans.csv"


class Made:
    """The texts of a small project that the number alone decides, with one of these counts of sections."""

    def __init__(self, number, counts=(1, 2, 3, 3, 4, 4, 5)):
        self.dice = dice = random.Random(f"project {number}")
        self.format = dice.choice([1, 2])
        # With coarse numbers, losses and prices are so small that ties are common.
        self.coarse = number % 2 == 0
        self.lists = {name: [f"{name[0].upper()}{k + 1}" for k in range(dice.randint(1, 3))]
                      for name in dice.choice([["round"], ["round", "flat"]])}
        self.tables = [] if self.coarse else dice.choice([[], ["tee"], ["tee", "run"]])
        self.neighbours, self.sides = [], []
        for s in range(dice.choice(counts)):
            near = [t for t in range(s) if dice.random() < 0.7]
            neighbour = dice.choice(near) if near and not (s == 1 and self.coarse) else None
            self.neighbours.append(neighbour)
            self.sides.append("supply" if s == 0 else dice.choice(["supply", "return", "return"]) if neighbour is None
                              else self.sides[neighbour])
        self.texts = {"project.toml": self.project(), "sizes.csv": self.sizes(), "friction.csv": self.friction(),
                      "fittings.csv": self.fittings(), "fans.csv": self.fans("f", 3)}
        if "return" in self.sides and dice.random() < 0.8:
            self.texts[RETURN_FANS] = self.fans("g", 3)

    def some(self, share, line):
        """The line, in this percentage of cases."""
        return [line] if self.dice.randrange(100) < share else []

    def project(self):
        dice = self.dice
        lines = [f"format = {self.format}", 'name = "made"', f"density = {dice.choice([1200, 1204, dice.randint(1, 2000)])}",
                 "[energy]", f"hours = {dice.randint(0, 8784)}", f"tariff = {dice.randint(0, 3000)}",
                 f"worth = {dice.randint(0, 20000)}"]
        lengths = [0, 1000, 2000, 3000] if self.coarse else [0, 1, dice.randint(1000, 30000)]
        device = 3 if self.coarse else 200
        if dice.random() < 0.8:
            lines += ["[rules]", *self.some(40, f"velocity = {dice.randint(4000, 14000)}"),
                      *self.some(20, f"height = {dice.randint(100, 500)}"),
                      *self.some(60, f"taper = {dice.choice(['true', 'true', 'false'])}")]
        for s, neighbour in enumerate(self.neighbours):
            name = dice.choice(list(self.lists))
            lines += ["[[section]]", f'name = "s{s + 1}"', f'side = "{self.sides[s]}"',
                      f"length = {dice.choice(lengths)}", f'list = "{name}"',
                      *self.some(0 if self.coarse else 40, f"local = {dice.randint(0, 1500)}"),
                      *self.some(40, f"device = {dice.randint(0, device)}"),
                      *self.some(12, f'preset = "{dice.choice(self.lists[name])}"'),
                      *self.some(10, f"velocity = {dice.randint(4000, 14000)}"),
                      *self.some(10, f"height = {dice.randint(200, 500)}")]
            if neighbour is not None:
                lines.append(f'neighbour = "s{neighbour + 1}"')
                if self.tables:
                    lines += self.some(70, f'junction = "{dice.choice(self.tables)}"')
            if s not in self.neighbours:
                lines.append(f"flow = {dice.randint(20, 200)}")
            if self.format == 2:
                lines += self.some(60, f"leak = {dice.randint(0, 200)}")
        return "\n".join([*lines, ""])

    def sizes(self):
        dice = self.dice
        lines = ["list,size,area,height,metre,join,step"]
        for name, sizes in self.lists.items():
            for size in sizes:
                area = dice.choice([20000, 30000, 50000, dice.randint(10000, 120000)])
                prices = [dice.randint(0, 1 if self.coarse else 5000) for _ in range(3)]
                lines.append(",".join(map(str, [name, size, area, dice.randint(80, 500), *prices])))
        return "\n".join([*lines, ""])

    def friction(self):
        dice, lines = self.dice, ["size,flow,rate"]
        for size in sum(self.lists.values(), []):
            flows = sorted(dice.sample(range(1, 900), dice.randint(1, 3)))
            if dice.random() < 0.85:
                flows[-1] += 900
            rates = sorted(dice.randint(0, 1500) for _ in flows)
            if self.coarse:
                flows, rates = flows[-1:], [dice.choice([0, 100, 200, 300])]
            lines += [f"{size},{flow},{rate}" for flow, rate in zip(flows, rates)]
        return "\n".join([*lines, ""])

    def fittings(self):
        dice, lines = self.dice, ["table,area,flow,value"]
        for table in self.tables:
            areas = sorted(dice.sample(range(100, 2000), dice.randint(1, 2)))
            flows = sorted(dice.sample(range(100, 1100), dice.randint(1, 2)))
            lines += [f"{table},{area},{flow},{dice.randint(-800, 1500)}" for area in areas for flow in flows]
        return "\n".join([*lines, ""])

    def fans(self, letter, most):
        dice, lines = self.dice, ["fan,pressure,low,high,price,watts"]
        for i in range(dice.choice([0, 1, 2, most, most, most, most, most])):
            low = dice.choice([0, 0, 0, dice.randint(0, 400)])
            high = low + dice.choice([2000, 2000, dice.randint(0, 400)])
            pressure = dice.randint(1, 15) if self.coarse else int(10 ** dice.uniform(1, 3.8))
            price, watts = dice.choice([(dice.randint(0, 3) * 100, 0), (pressure ** 2, 0), (0, dice.randint(0, 300))])
            if self.coarse:
                price, watts = dice.randint(0, 2), 0
            lines.append(f"{letter}{i + 1},{pressure},{low},{high},{price},{watts}")
        return "\n".join([*lines, ""])
