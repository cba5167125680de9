"""The definitions of docs/RULES.md in plain Python: designs are listed and losses added along whole paths.

Nothing here is the program's: no front, no budget, no order of work.
Losses and pressures are in dPa, money in cents; sections, sizes and fans count from 0 here.
"""
import itertools
import random
import tomllib


class Network:
    """A network: its sections by name, side and neighbour, the names of their sizes, their pairs by both sizes, and the
    fans by name, pressure and cost."""

    def __init__(self, name, sections, sizes, pairs, fans):
        self.name = name
        self.fans = fans
        self.return_fans = []
        self.refusals = []
        place = {section["name"]: s for s, section in enumerate(sections)}
        self.names = [section["name"] for section in sections]
        self.sides = [section["side"] for section in sections]
        self.neighbours = [place.get(section.get("neighbour")) for section in sections]
        self.sizes = sizes
        self.pairs = pairs
        self.sections = range(len(sections))
        self.leaves = [s for s in self.sections if s not in self.neighbours]
        self.cap = max((pressure for _, pressure, _ in self.fans), default=0)

    def way(self, s):
        """The sections from s to the fan."""
        while s is not None:
            yield s
            s = self.neighbours[s]

    def pair(self, sizes, s):
        """The loss and the price of a section in these sizes; None where they can't be joined."""
        beside = self.neighbours[s]
        return self.pairs[s].get((sizes[s], 0 if beside is None else sizes[beside]))

    def beyond(self, s):
        """The section and all whose way passes it."""
        return [x for x in self.sections if s in self.way(x)]


def network_of(text):
    """The network of a network file."""
    doc = tomllib.loads(text)
    sections = doc["section"]
    return Network(
        doc["name"], sections, [section["sizes"] for section in sections],
        [{(k - 1, max(g - 1, 0)): (loss, price) for k, g, loss, price in section["pairs"]} for section in sections],
        [(fan["name"], fan["pressure"], fan["cost"]) for fan in doc.get("fan", [])])


def worst(net, losses, side):
    """The greatest path loss of a side, 0 for a side without sections."""
    return max((sum(losses[s] for s in net.way(leaf)) for leaf in net.leaves if net.sides[leaf] == side), default=0)


def designs(net):
    """Every design that meets the rules: its cost, its fan, the turn of its return fan (0 for none, else its number from
    1), its worst supply loss and its sizes, in no order. The lesser of two comes first."""
    for sizes in itertools.product(*(range(len(names)) for names in net.sizes)):
        pairs = [net.pair(sizes, s) for s in net.sections]
        if None in pairs:
            continue
        losses = [loss for loss, _ in pairs]
        supply, back = worst(net, losses, "supply"), worst(net, losses, "return")
        price = sum(price for _, price in pairs)
        for fan, (_, pressure, cost) in enumerate(net.fans):
            if supply + back <= pressure:
                yield price + cost, fan, 0, supply, sizes
            for turn, (_, own_pressure, own_cost) in enumerate(net.return_fans, 1):
                if supply <= pressure and back <= own_pressure:
                    yield price + cost + own_cost, fan, turn, supply, sizes


def slack(net, losses, heads, s):
    """The least that is left of the side's head at a leaf beyond the section."""
    return min(heads[net.sides[s]] - sum(losses[t] for t in net.way(leaf)) for leaf in net.leaves if s in net.way(leaf))


def design_text(net, design):
    """The text of a design."""
    cost, fan, turn, supply, sizes = design
    name, pressure, fan_cost = net.fans[fan]
    pairs = [net.pair(sizes, s) for s in net.sections]
    losses = [loss for loss, _ in pairs]
    back = worst(net, losses, "return")
    heads = {"supply": pressure - back, "return": back}
    lines = [f"design {2 if turn else 1}", f"project {net.name}", f"fan {name} {pressure} {fan_cost}"]
    if turn:
        own_name, own_pressure, own_cost = net.return_fans[turn - 1]
        heads = {"supply": pressure, "return": own_pressure}
        lines.append(f"return-fan {own_name} {own_pressure} {own_cost}")
    lines += [f"supply {supply} {heads['supply']}", f"return {back} {heads['return']}"]
    for s in net.sections:
        beside = net.neighbours[s]
        damper = slack(net, losses, heads, s) - (0 if beside is None else slack(net, losses, heads, beside))
        lines.append(f"section {net.names[s]} {net.sizes[s][sizes[s]]} {pairs[s][0]} {pairs[s][1]} {damper}")
    return "\n".join([*lines, f"cost {cost}", "end", ""])


def none_text(net):
    """The text where no design meets the rules."""
    lines = ["design 1", f"project {net.name}", "none", *(f"refused {rule} {count}" for rule, count in net.refusals)]
    return "\n".join([*lines, "end", ""])


def wrong_sums(net, text):
    """What does not add up in the text of a design; None where all does."""
    rows = [line.split(" ") for line in text.split("\n")]
    return_fans = [row for row in rows if row[0] == "return-fan"]
    heading = ["design", "project", "fan", *["return-fan"] * len(return_fans), "supply", "return"]
    if [row[0] for row in rows] != [*heading, *["section"] * len(net.names), "cost", "end", ""]:
        return "the lines"
    if text.split("\n")[0] != ("design 2" if return_fans else "design 1") or len(return_fans) > 1:
        return "the first line"
    fan, (supply, back), sections, total = rows[2], rows[len(heading) - 2:len(heading)], rows[len(heading):-3], rows[-3]
    offers = [(fan, net.fans), *((row, net.return_fans) for row in return_fans)]
    if any((name, int(pressure), int(cost)) not in fans for (_, name, pressure, cost), fans in offers):
        return "a fan"
    if [row[1] for row in sections] != net.names or any(row[2] not in net.sizes[s] for s, row in enumerate(sections)):
        return "a section's name or size"
    sizes = [net.sizes[s].index(row[2]) for s, row in enumerate(sections)]
    if any(net.pair(sizes, s) != (int(row[3]), int(row[4])) for s, row in enumerate(sections)):
        return "a section's loss or price"
    losses = [int(row[3]) for row in sections]
    dampers = [int(row[5]) for row in sections]
    heads = {"supply": int(supply[2]), "return": int(back[2])}
    if [int(supply[1]), int(back[1])] != [worst(net, losses, side) for side in ("supply", "return")]:
        return "a worst loss"
    wanted = int(return_fans[0][2]) if return_fans else int(back[1])
    if heads != {"supply": int(fan[2]) - (0 if return_fans else wanted), "return": wanted}:
        return "the heads"
    if min(dampers) < 0:
        return "a damper below 0"
    for leaf in net.leaves:
        if sum(losses[s] + dampers[s] for s in net.way(leaf)) != heads[net.sides[leaf]]:
            return f"the path of {net.names[leaf]}"
    if int(total[1]) != sum(int(row[4]) for row in sections) + sum(int(row[3]) for row, _ in offers):
        return "the cost"
    return None


def choices(net, s, beside):
    """Every choice of sizes for the section and all beyond it, beside this size of the neighbour, whose pairs are
    there: the worst loss from a leaf to the section, and the price."""
    beyond = net.beyond(s)
    leaves = [leaf for leaf in net.leaves if leaf in beyond]
    for chosen in itertools.product(*(range(len(net.sizes[x])) for x in beyond)):
        sizes = dict(zip(beyond, chosen))
        if net.neighbours[s] is not None:
            sizes[net.neighbours[s]] = beside
        pairs = {x: net.pair(sizes, x) for x in beyond}
        if None not in pairs.values():
            loss = max(sum(pairs[x][0] for x in net.way(leaf) if x in beyond) for leaf in leaves)
            yield loss, sum(price for _, price in pairs.values())


def network_text(number):
    """The text of a small network that the number alone decides: 1 to 7 sections on one side or both, up to 3 sizes,
    small losses and prices so that ties are common, pairs and fans left out."""
    dice = random.Random(number)
    many = number % 2 == 0
    count = dice.randint(4, 6) if many else dice.randint(1, 7)
    most = 3 if count < 6 else 2
    missing = dice.choice([0, 0, 10, 30])
    losses, prices = dice.choice([(3, 2), (9, 3), (9, 40)])
    two_sided = count > 1 and dice.random() < 0.5
    lines = ["format = 1", f'name = "n{number}"']
    for i in range(dice.choice([1, 2, 2, 3, 3, 0])):
        pressure = dice.randint(1, max(2, losses * dice.choice([1, 2, 3, 5])))
        lines += ["[[fan]]", f'name = "f{i + 1}"', f"pressure = {pressure}", f"cost = {dice.randint(0, prices)}"]
    sides, sizes = [], []
    for s in range(count):
        sides.append("return" if two_sided and s and dice.random() < 0.4 else "supply")
        sizes.append(dice.randint(2, most) if many else dice.randint(1, most))
        near = [t for t in range(s) if sides[t] == sides[s]]
        beside = dice.choice(near) if near and dice.random() < 0.8 else None
        lines += ["[[section]]", f'name = "s{s + 1}"', f'side = "{sides[s]}"']
        if beside is not None:
            lines.append(f'neighbour = "s{beside + 1}"')
        names = ", ".join(f'"k{k + 1}"' for k in range(sizes[s]))
        columns = [0] if beside is None else range(1, sizes[beside] + 1)
        rows = [f"[{k}, {g}, {dice.randint(0, losses)}, {dice.randint(0, prices)}]"
                for k in range(1, sizes[s] + 1) for g in columns if dice.randrange(100) >= missing]
        dice.shuffle(rows)
        lines += [f"sizes = [{names}]", f"pairs = [{', '.join(rows)}]"]
    return "\n".join([*lines, ""])
