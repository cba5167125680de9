"""The first refusal of a file in plain Python (docs/FORMATS.md), for a comparison with the program.

Each reader takes the bytes of a file and answers what the layers above need of it; a file that is refused raises Refused
with PART, PLACE and REASON. Where Python's reader of TOML knows less than the program's, or a rule isn't written here, it
raises Unknown. Nothing here is the program's.
"""
import itertools
import math
import re
import tomllib

NAME = re.compile(rb"[A-Za-z0-9_.-]{1,32}")
WHOLE = re.compile(rb"0|[1-9][0-9]*")
MARK = b"\xef\xbb\xbf"
MOST_LEVELS = 80
MOST_FLOW = 200_000
MOST_EDITS = 1_000


class Refused(Exception):
    pass


class Unknown(Exception):
    pass


# ---- CSV


def records(data):
    """The records of RFC 4180: a quote is special at the start of a field alone, and an empty line is none."""
    data = data.removeprefix(MARK)
    at, end = 0, len(data)
    while at < end:
        if data[at] in b"\r\n":
            at += 1
            continue
        fields, ended = [], False
        while not ended:
            field = bytearray()
            if data[at:at + 1] == b'"':
                at += 1
                while at < end:
                    if data[at:at + 2] == b'""':
                        field += b'"'
                        at += 2
                    elif data[at] == ord('"'):
                        at += 1
                        break
                    else:
                        field.append(data[at])
                        at += 1
            while at < end and data[at] not in b",\r\n":
                field.append(data[at])
                at += 1
            fields.append(bytes(field))
            ended = at >= end or data[at] in b"\r\n"
            at += 1
        yield fields


def name(field):
    return bool(NAME.fullmatch(field))


def number(low, high):
    def holds(field):
        digits = field[1:] if low < 0 and field.startswith(b"-") else field
        if not WHOLE.fullmatch(digits) or digits is not field and digits == b"0":
            return False
        return len(digits) < 30 and low <= int(field) <= high
    return holds


def rows(data, header, forms):
    """The place and the fields of each row behind the header, which have these forms."""
    all_rows = records(data)
    if next(all_rows, None) != header.split(b","):
        raise Refused("row", 1, "header")
    for place, fields in enumerate(all_rows, 2):
        if len(fields) != len(forms):
            raise Refused("row", place, "columns")
        if not all(form(field) for form, field in zip(forms, fields)):
            raise Refused("row", place, "field")
        yield place, fields


def sizes(data):
    """The list and the name of each size."""
    found, counts = {}, {}
    forms = [name, name, number(1_000, 10 ** 8), number(1, 10 ** 6), number(0, 10 ** 8), number(0, 10 ** 10), number(0, 10 ** 10)]
    for place, (of_list, size, *_) in rows(data, b"list,size,area,height,metre,join,step", forms):
        if size in found:
            raise Refused("row", place, "twice")
        counts[of_list] = counts.get(of_list, 0) + 1
        if len(counts) > 16 or counts[of_list] > 24:
            raise Refused("row", place, "too-many")
        found[size] = of_list
    return found


def missing(catalogue, given):
    """The first size of the catalogue without a row."""
    for place, size in enumerate(catalogue, 1):
        if size not in given:
            raise Refused("size", place, "missing")


def friction(data, catalogue):
    given = {}
    for place, (size, flow, rate) in rows(data, b"size,flow,rate", [name, number(1, 200_000), number(0, 10 ** 6)]):
        if size not in catalogue:
            raise Refused("row", place, "unknown-size")
        before = given.setdefault(size, [])
        if len(before) == 64:
            raise Refused("row", place, "too-many")
        if before and (int(flow) <= before[-1][0] or int(rate) < before[-1][1]):
            raise Refused("row", place, "order")
        before.append((int(flow), int(rate)))
    missing(catalogue, given)


def ducts(data, catalogue):
    """Nothing, or Unknown: which rates are too great isn't written here."""
    given = set()
    forms = [name, number(10, 10_000), number(0, 10_000), number(1, 200_000), number(1, 64)]
    for place, (size, _, _, flow, many) in rows(data, b"size,diameter,rough,flow,rows", forms):
        if size not in catalogue:
            raise Refused("row", place, "unknown-size")
        if size in given:
            raise Refused("row", place, "twice")
        if int(flow) * int(many) > 200_000:
            raise Refused("row", place, "field")
        given.add(size)
        raise Unknown
    missing(catalogue, given)


def fittings(data):
    """The names of the tables."""
    tables = {}
    forms = [name, number(0, 10 ** 6), number(0, 10 ** 6), number(-10 ** 6, 10 ** 6)]
    for place, (table, area, flow, _) in rows(data, b"table,area,flow,value", forms):
        cells = tables.get(table, set())
        if (area, flow) in cells:
            raise Refused("row", place, "twice")
        tables[table] = cells = cells | {(area, flow)}
        if len(tables) > 32 or len({a for a, _ in cells}) > 20 or len({f for _, f in cells}) > 20:
            raise Refused("row", place, "too-many")
    for place, cells in enumerate(tables.values(), 1):
        if len(cells) < len({a for a, _ in cells}) * len({f for _, f in cells}):
            raise Refused("table", place, "hole")
    return set(tables)


def fans(data):
    given = set()
    forms = [name, number(1, 20_000), number(0, 10 ** 8), number(0, 10 ** 8), number(0, 10 ** 10), number(0, 10 ** 6)]
    for place, (fan, _, low, high, _, _) in rows(data, b"fan,pressure,low,high,price,watts", forms):
        if int(high) < int(low):
            raise Refused("row", place, "order")
        if fan in given:
            raise Refused("row", place, "twice")
        if len(given) == 64:
            raise Refused("row", place, "too-many")
        given.add(fan)


# ---- TOML


def levels(value):
    inner = value.values() if isinstance(value, dict) else value if isinstance(value, list) else None
    return 0 if inner is None else 1 + max(map(levels, inner), default=0)


def is_document(value):
    """Whether every integer has 64 bits."""
    if isinstance(value, dict):
        return all(map(is_document, value.values()))
    if isinstance(value, list):
        return all(map(is_document, value))
    return not isinstance(value, int) or -2 ** 63 <= value < 2 ** 63


def decimal(text):
    """A float; a number that is too great for one makes the bytes no document."""
    value = float(text)
    if math.isinf(value) and "inf" not in text:
        raise Refused("file", 0, "text")
    return value


def document(data):
    try:
        doc = tomllib.loads(data.removeprefix(MARK).decode(), parse_float=decimal)
        if levels(doc) > MOST_LEVELS - 5:
            raise Unknown
    except UnicodeDecodeError:
        raise Refused("file", 0, "text") from None
    except (tomllib.TOMLDecodeError, RecursionError, ValueError, OverflowError):
        raise Unknown from None     # no document, or one of TOML 1.1
    if not is_document(doc):
        raise Refused("file", 0, "text")
    return doc


def is_whole(low, high):
    return lambda value: type(value) is int and low <= value <= high


def is_name(value):
    return isinstance(value, str) and bool(NAME.fullmatch(value.encode(errors="replace")))


def is_side(value):
    return value in ("supply", "return")


def is_tables(value):
    return isinstance(value, list) and all(isinstance(item, dict) for item in value)


def all_names(value):
    return isinstance(value, list) and all(map(is_name, value))


def all_lists(value):
    return isinstance(value, list) and all(isinstance(item, list) for item in value)


def any_whole(value):
    return type(value) is int


def look(table, keys, part, place):
    """Looks at the keys of a table, each with its form and whether it must be there; a form may raise its own refusal."""
    if not table.keys() <= {key for key, _, _ in keys}:
        raise Refused(part, place, "key")
    for key, form, must in keys:
        if key not in table and must or key in table and not form(table[key]):
            raise Refused(part, place, "field")


def inner(keys):
    """The form of a table of the top table."""
    def holds(value):
        if isinstance(value, dict):
            look(value, keys, "file", 0)
        return isinstance(value, dict)
    return holds


def format_of(*formats):
    def holds(value):
        if any_whole(value) and value not in formats:
            raise Refused("file", 0, "format")
        return any_whole(value)
    return holds


def tree(sections):
    """The neighbours, where each stands before its section; the refusals of a tree otherwise."""
    places = {section["name"]: s for s, section in enumerate(sections)}
    for s, section in enumerate(sections):
        if section.get("neighbour", section["name"]) not in places:
            raise Refused("section", s + 1, "unknown-neighbour")
    if not sections:
        raise Refused("file", 0, "empty")
    neighbours = [places.get(section.get("neighbour")) for section in sections]
    for s, near in enumerate(neighbours):
        if near is not None and near >= s:
            raise Refused("section", s + 1, "not-before")
        if near is not None and sections[near]["side"] != sections[s]["side"]:
            raise Refused("section", s + 1, "other-side")
    if all(section["side"] != "supply" for section in sections):
        raise Refused("file", 0, "no-supply")
    return neighbours


NETWORK = [("format", format_of(1), True), ("name", is_name, True), ("fan", is_tables, False), ("section", is_tables, True)]
FAN = [("name", is_name, True), ("pressure", is_whole(1, 20_000), True), ("cost", is_whole(0, 10 ** 14), True)]
SECTION = [("name", is_name, True), ("side", is_side, True), ("neighbour", is_name, False), ("sizes", all_names, True),
           ("pairs", all_lists, True)]


def each(items, keys, part, most, own=lambda item, place: None):
    """Looks at the tables of an array, which have names of their own."""
    if len(items) > most:
        raise Refused("file", 0, "too-many")
    given = set()
    for place, item in enumerate(items, 1):
        look(item, keys, part, place)
        own(item, place)
        if item["name"] in given:
            raise Refused(part, place, "twice")
        given.add(item["name"])


def network(data):
    doc = document(data)
    look(doc, NETWORK, "file", 0)
    each(doc.get("fan", []), FAN, "fan", 64)
    sections = doc["section"]
    each(sections, SECTION, "section", 500)
    for place, (section, near) in enumerate(zip(sections, tree(sections)), 1):
        sizes_of, pairs = section["sizes"], section["pairs"]
        if not sizes_of:
            raise Refused("section", place, "empty")
        if len(sizes_of) > 24:
            raise Refused("section", place, "too-many")
        if len(set(sizes_of)) < len(sizes_of):
            raise Refused("section", place, "twice")
        if len(pairs) > 576:
            raise Refused("section", place, "too-many")
        beside = (0, 0) if near is None else (1, len(sections[near]["sizes"]))
        bounds, given = [(1, len(sizes_of)), beside, (0, 10 ** 15), (0, 10 ** 12)], set()
        for pair in pairs:
            if len(pair) != 4 or not all(is_whole(*bound)(value) for value, bound in zip(pair, bounds)):
                raise Refused("section", place, "pair")
            if tuple(pair[:2]) in given:
                raise Refused("section", place, "twice")
            given.add(tuple(pair[:2]))


ENERGY = [("hours", is_whole(0, 8_784), True), ("tariff", is_whole(0, 10 ** 6), True), ("worth", is_whole(0, 10 ** 6), True)]
RULES = [("velocity", is_whole(1, 10 ** 6), False), ("height", is_whole(1, 10 ** 6), False),
         ("taper", lambda value: isinstance(value, bool), False)]
PROJECT = [("format", format_of(1, 2), True), ("name", is_name, True), ("density", is_whole(1, 2_000), True),
           ("energy", inner(ENERGY), True), ("rules", inner(RULES), False), ("section", is_tables, True)]
DUCT = [("name", is_name, True), ("side", is_side, True), ("neighbour", is_name, False), ("length", is_whole(0, 10 ** 6), True),
        ("list", is_name, True), ("local", is_whole(0, 10 ** 6), False), ("junction", is_name, False),
        ("device", is_whole(0, 20_000), False), ("flow", is_whole(1, 200_000), False), ("preset", is_name, False),
        ("velocity", is_whole(1, 10 ** 6), False), ("height", is_whole(1, 10 ** 6), False)]
LEAK = [("leak", is_whole(0, 200), False)]


def junction_at_fan(section, place):
    if "junction" in section and "neighbour" not in section:
        raise Refused("section", place, "junction-at-fan")


def carried(sections, neighbours):
    """What each section carries: what is to pass it, and its leak."""
    passing = [section.get("flow", 0) for section in sections]
    for s in reversed(range(len(sections))):
        passing[s] = -(-passing[s] * (1_000 + sections[s].get("leak", 0)) // 1_000)
        if neighbours[s] is not None:
            passing[neighbours[s]] += passing[s]
    return passing


def project(data):
    """The tables of the sections."""
    doc = document(data)
    look(doc, PROJECT, "file", 0)
    sections = doc["section"]
    each(sections, DUCT + (LEAK if doc["format"] == 2 else []), "section", 500, junction_at_fan)
    neighbours = tree(sections)
    for s, section in enumerate(sections):
        if s not in neighbours and "flow" not in section:
            raise Refused("section", s + 1, "flow-missing")
        if s in neighbours and "flow" in section:
            raise Refused("section", s + 1, "flow-given")
    for s, flow in enumerate(carried(sections, neighbours)):
        if flow > MOST_FLOW:
            raise Refused("section", s + 1, "flow-too-large")
    return sections


def joined(sections, catalogue, tables):
    """The names of the project join something."""
    for place, section in enumerate(sections, 1):
        of_list = section["list"].encode()
        if of_list not in catalogue.values():
            raise Refused("section", place, "unknown-list")
        if "junction" in section and section["junction"].encode() not in tables:
            raise Refused("section", place, "unknown-table")
        if "preset" in section and catalogue.get(section["preset"].encode()) != of_list:
            raise Refused("section", place, "unknown-preset")


# ---- design texts


def design(data, form_line):
    if (line := form_line(data)) is not None:
        raise Refused("line", line, "form")


def listed(data, form_line, sections):
    """The text lists the sections of a project by their names."""
    design(data, form_line)
    named = [line.split(b" ")[1].decode() for line in data.split(b"\n") if line.startswith(b"section ")]
    for place, (name_in_text, section) in enumerate(itertools.zip_longest(named, sections), 1):
        if section is None or name_in_text != section["name"]:
            raise Refused("section", place, "unknown-section")


# ---- edit scripts

# of each kind of line: the forms of its words, and the key of a section that it changes
EDITS = {
    b"length": ([name, number(0, 10 ** 6)], "length"), b"device": ([name, number(0, 20_000)], "device"),
    b"airflow": ([name, number(1, MOST_FLOW)], "flow"), b"preset": ([name, name], "preset"), b"free": ([name], "preset"),
}


def is_edit(kind, *words):
    forms, _ = EDITS.get(kind, ([], None))
    return kind in EDITS and len(words) == len(forms) and all(form(word) for form, word in zip(forms, words))


def script(data):
    """The words of each line."""
    *lines, rest = data.split(b"\n")
    if len(lines) > MOST_EDITS or len(lines) == MOST_EDITS and rest:
        raise Refused("line", MOST_EDITS + 1, "too-many")
    edits = [line.split(b" ") for line in lines]
    for place, words in enumerate(edits, 1):
        if not is_edit(*words):
            raise Refused("line", place, "form")
    if rest:
        raise Refused("line", len(lines) + 1, "form")
    return edits


def edited(sections, catalogue, place, kind, section, *value):
    """The tables of the sections after the edit of the line in this place."""
    names = [table["name"].encode() for table in sections]
    neighbours = tree(sections)
    if section not in names:
        raise Refused("line", place, "unknown-section")
    s = names.index(section)
    if kind == b"airflow" and s in neighbours:
        raise Refused("line", place, "flow-given")
    if kind == b"preset" and catalogue.get(value[0]) != sections[s]["list"].encode():
        raise Refused("line", place, "unknown-preset")
    _, key = EDITS[kind]
    table = {other: held for other, held in sections[s].items() if other != key}
    for word in value:
        table[key] = word.decode() if kind == b"preset" else int(word)
    after = [*sections[:s], table, *sections[s + 1:]]
    if max(carried(after, neighbours)) > MOST_FLOW:
        raise Refused("line", place, "flow-too-large")
    return after


def all_edited(sections, catalogue, edits):
    for place, words in enumerate(edits, 1):
        sections = edited(sections, catalogue, place, *words)


# ---- the files of a command


def of_files(command, files, form_line=None):
    """The refusal line of the files of a command, in the order of its words; None where none is refused. `form_line` gives
    the first bad line of a design text, or None. Of `verify` the network alone is read."""
    at = None

    def read(word, reader, *more):
        nonlocal at
        at = word
        return reader(*more)

    try:
        if command in ("pick", "certify", "verify"):
            read("network", network, files[0])
        elif command == "takeoff":
            sections = read("project", project, files[0])
            read("design", listed, files[1], form_line, sections)
        elif command == "migrate":
            read("project", project, files[0])
        elif command == "friction":
            catalogue = read("sizes", sizes, files[0])
            read("ducts", ducts, files[1], catalogue)
        else:
            sections = read("project", project, files[0])
            catalogue = read("sizes", sizes, files[1])
            read("friction", friction, files[2], catalogue)
            tables = read("fittings", fittings, files[3])
            read("fans", fans, files[4])
            if command == "edit":
                edits = read("script", script, files[5])
            elif files[5] is not None:
                read("return-fans", fans, files[5])
            if command == "check":
                read("design", design, files[6], form_line)
            read("project", joined, sections, catalogue, tables)
            if command == "edit":
                read("script", all_edited, sections, catalogue, edits)
    except Refused as refused:
        part, place, reason = refused.args
        return f"refused {at} {part} {place} {reason}\n"
    return None
