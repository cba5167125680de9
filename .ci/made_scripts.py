"""Edit scripts that are made here for the projects of made_projects.py."""
import plain_refusals

# of each kind of line: how often it comes, and a value far from those of the projects
KINDS = {b"length": (3, 1_000_000), b"device": (3, 20_000), b"airflow": (5, 100_000), b"preset": (2, None), b"free": (3, None)}


class Script:
    """The lines of a script, none of which is refused, and the tables of the sections as they are after them."""

    def __init__(self, dice, sections, catalogue):
        self.dice, self.sections, self.catalogue, self.lines = dice, sections, catalogue, []
        self.greatest = {key: max([1, *(section.get(key, 0) for section in sections)]) for key in ("length", "device", "flow")}

    def value(self, kind, section):
        """The value of a line: seldom that of the section or a far one, and else one like those of the project."""
        dice, (_, key), (_, far) = self.dice, plain_refusals.EDITS[kind], KINDS[kind]
        if dice.random() < 0.05 and key in section:
            return section[key]
        if kind == b"preset":
            return dice.choice([size for size, of_list in self.catalogue.items() if of_list == section["list"].encode()]).decode()
        if dice.random() < 0.03:
            return far
        least = int(kind == b"airflow")
        return dice.randint(least, max(least, self.greatest[key] * dice.choice([1, 1, 1, 1, 3]) // dice.choice([1, 2, 10])))

    def add(self):
        """Adds a line, where the one that the dice give isn't refused."""
        section = self.dice.choice(self.sections)
        [kind] = self.dice.choices(list(KINDS), [likely for likely, _ in KINDS.values()])
        words = [kind, section["name"].encode()]
        if kind != b"free":
            words.append(str(self.value(kind, section)).encode())
        try:
            self.sections = plain_refusals.edited(self.sections, self.catalogue, len(self.lines) + 1, *words)
            self.lines.append(b" ".join(words) + b"\n")
        except plain_refusals.Refused:
            pass


def script(dice, sections, catalogue, most=20):
    """The bytes of a script of up to so many edits, none of which is refused."""
    made, many = Script(dice, sections, catalogue), dice.choice([0, 1, 2, 5, dice.randint(0, most), most, most])
    while len(made.lines) < many:
        made.add()
    return b"".join(made.lines)
