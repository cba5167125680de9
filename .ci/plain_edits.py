"""A project under the edits of a script in plain Python (docs/RULES.md, "Edits"): its texts, and what each touches.

Nothing here is the program's: an edit changes the project's document, which is written as a project file again.
"""
import json
import tomllib

import plain_refusals
from exact import Fan
from plain_project import rows


def toml(doc):
    """A project file of the document."""
    def lines(table):
        return [f"{key} = {json.dumps(value)}" for key, value in table.items() if not isinstance(value, (dict, list))]

    inner = [line for key in ("energy", "rules") if key in doc for line in (f"[{key}]", *lines(doc[key]))]
    sections = [line for section in doc["section"] for line in ("[[section]]", *lines(section))]
    return "\n".join([*lines(doc), *inner, *sections, ""])


def greatest_pressure(sections, fans):
    """That of the fans which serve what the greater side carries; 0 where none does."""
    flows = plain_refusals.carried(sections, plain_refusals.tree(sections))
    sides = [sum(flow for flow, section in zip(flows, sections) if section["side"] == side and "neighbour" not in section)
             for side in ("supply", "return")]
    return max((fan.pressure for fan in fans if fan.low <= max(sides) <= fan.high), default=0)


def way_of(sections, neighbours, name):
    """The sections from the named one to the fan."""
    s, way = next(s for s, section in enumerate(sections) if section["name"] == name), []
    while s is not None:
        way.append(s)
        s = neighbours[s]
    return way


def touched(before, after, fans, kind, name):
    """The sections that an edit of this kind touches, from the tables before and after it."""
    if greatest_pressure(before, fans) != greatest_pressure(after, fans):
        return set(range(len(after)))
    neighbours = plain_refusals.tree(after)
    way = way_of(after, neighbours, name)
    return set(way) | ({s for s, near in enumerate(neighbours) if near in way} if kind == "airflow" else set())


def steps(texts, edits):
    """Before the first edit and after each: the texts of the files, and the sections that are condensed for it."""
    doc, fans = tomllib.loads(texts["project.toml"]), rows(texts["fans.csv"], Fan)
    catalogue = plain_refusals.sizes(texts["sizes.csv"].encode())
    yield texts, set(range(len(doc["section"])))
    for place, words in enumerate(edits, 1):
        after = plain_refusals.edited(doc["section"], catalogue, place, *words)
        found = touched(doc["section"], after, fans, *map(bytes.decode, words[:2]))
        doc = doc | {"section": after}
        yield texts | {"project.toml": toml(doc)}, found


def text_of_step(number, design, found):
    """What is written of a step, with the text of its design or of none."""
    return f"edit {number}\n{design}again {len(found)}\n"
