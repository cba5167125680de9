"""How a design text differs from the design that its names tell (docs/FORMATS.md, "Verdict"), in plain Python.

`answer` is the whole answer of `check` to the text, with the status, for a network of plain.py or plain_project.py.
Nothing here is the program's: the design is told by names, and each difference is looked for in the order of the table.
"""
import design_texts
import plain


class Listed:
    """The fields of a design text by their lines; `back` is None without a return fan."""

    def __init__(self, text):
        rows = [line.split(" ") for line in text.decode().split("\n")]
        lines = {row[0]: row[1:] for row in rows}
        self.project = lines["project"][0]
        self.fan, self.back = fan_of(lines["fan"]), fan_of(lines.get("return-fan"))
        self.ends = {side: tuple(map(int, lines[side])) for side in ("supply", "return")}
        self.sections = [(row[1], row[2], int(row[3]), int(row[4]), int(row[5])) for row in rows if row[0] == "section"]
        self.cost = int(lines["cost"][0])


def fan_of(fields):
    """The fan of a line: its name, its pressure and its cost."""
    return fields and (fields[0], int(fields[1]), int(fields[2]))


def verdict(net, listed):
    """The words of the first difference, or `yes`."""
    if listed.project != net.name or [name for name, *_ in listed.sections] != net.names:
        return "no name"
    sizes = [names.index(size) if size in names else None for names, (_, size, *_) in zip(net.sizes, listed.sections)]
    for s in net.sections:
        if sizes[s] is None or net.pair(sizes, s) is None:
            return f"no pair {net.names[s]}"
    pairs = [net.pair(sizes, s) for s in net.sections]
    for s, (_, _, loss, price, _) in enumerate(listed.sections):
        if (loss, price) != pairs[s]:
            return f"no loss {net.names[s]}"
    if listed.fan not in net.fans or listed.back not in [None, *net.return_fans]:
        return "no fan"
    losses = [loss for loss, _ in pairs]
    worst = {side: plain.worst(net, losses, side) for side in ("supply", "return")}
    heads = {"supply": listed.fan[1] - worst["return"], "return": worst["return"]}
    if listed.back:
        heads = {"supply": listed.fan[1], "return": listed.back[1]}
    if any(worst[side] > heads[side] or listed.ends[side] != (worst[side], heads[side]) for side in worst):
        return "no head"
    left = [plain.slack(net, losses, heads, s) for s in net.sections]
    for s, (*_, damper) in enumerate(listed.sections):
        beside = net.neighbours[s]
        if damper != left[s] - (0 if beside is None else left[beside]):
            return f"no damper {net.names[s]}"
    if listed.cost != sum(price for _, price in pairs) + listed.fan[2] + (listed.back[2] if listed.back else 0):
        return "no cost"
    return "yes"


def answer(net, text):
    """The status and the line of `check`."""
    line = design_texts.read(text)
    if line is not None:
        return 1, f"refused design line {line} form\n"
    found = verdict(net, Listed(text))
    return 0 if found == "yes" else 3, f"check {found}\n"
