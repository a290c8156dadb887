"""A second reader of maps, written from RFC 8259, RFC 3629 and docs/FORMATS.md alone.

A text is read by the grammar from its first rule down. Names are decoded by Python's json, and what begins a character
is told by Python's UTF-8. It answers as the program does: a fault with its place, or what was read.
"""
import functools
import json
import re

MOST_BYTES, MOST_LEVELS, MOST_FEATURES, MOST_POSITIONS, MOST = 67_108_864, 100, 200_000, 4_000_000, 10**12
SPACE = b" \t\n\r"
DIGITS, HEX = b"0123456789", b"0123456789abcdefABCDEF"


# Characters of one byte that end no string, and begin no escape.
PLAIN = re.compile(rb"[ !#-\[\]-\x7f]*")


class Fault(Exception):
    """Why a text is not read."""


# ---- JSON (RFC 8259)

class Ended(Exception):
    """The bytes end where a text would go on."""


class Wrong(Exception):
    """No text has this byte here."""


class Value:
    """A value of a text: its kind, where it stands, and the values in it, of an object with their names."""

    def __init__(self, text, kind, at):
        self.text, self.kind, self.at, self.end, self.inside = text, kind, at, at, []

    @property
    def bytes(self):
        return self.text[self.at : self.end]

    def decoded(self):
        """The text that a string stands for; None where a half of a surrogate pair is in it (8.2)."""
        text = json.loads(self.bytes)
        return None if re.search("[\ud800-\udfff]", text) else text

    def whole(self):
        """The whole number that this is: its digits, and zeros behind a point; else None."""
        found = re.fullmatch(rb"(-?[0-9]+)(\.0*)?", self.bytes) if self.kind == "number" else None
        return int(found[1]) if found else None


class Grammar:
    """Reads a text from its first byte on."""

    def __init__(self, text):
        self.text, self.at = text, 0

    def peek(self):
        if self.at == len(self.text):
            raise Ended
        return self.text[self.at]

    def take(self, allowed):
        """Takes the next byte, which has to be one of these."""
        byte = self.peek()
        if byte not in allowed:
            raise Wrong
        self.at += 1
        return byte

    def take_if(self, allowed):
        is_next = self.at < len(self.text) and self.text[self.at] in allowed
        self.at += is_next
        return is_next

    def space(self):
        while self.take_if(SPACE):
            pass

    def word(self, word):
        for byte in word:
            self.take([byte])

    def digits(self):
        self.take(DIGITS)
        while self.take_if(DIGITS):
            pass

    def number(self):
        """Section 6."""
        self.take_if(b"-")
        if not self.take_if(b"0"):
            self.digits()
        if self.take_if(b"."):
            self.digits()
        if self.take_if(b"eE"):
            self.take_if(b"+-")
            self.digits()

    def character(self):
        """Section 7; of several bytes the number has to be a character's, and of no shorter form (RFC 3629, 3)."""
        if self.take_if(b"\\"):
            if self.take(b'"\\/bfnrtu') == ord("u"):
                for _ in range(4):
                    self.take(HEX)
        elif not self.take_if(range(0x20, 0x80)):
            self.wide()

    def wide(self):
        first = self.at
        self.take(FIRSTS)
        while not is_character(self.text[first : self.at]):
            self.peek()
            if not begins_character(self.text[first : self.at + 1]):
                raise Wrong
            self.at += 1

    def string(self):
        self.take(b'"')
        while not self.take_if(b'"'):
            self.character()
            self.at = PLAIN.match(self.text, self.at).end()

    def scalar(self, first):
        """The kind of a value that begins with this byte and has no value in it."""
        if first == ord('"'):
            return self.string() or "string"
        if first in b"-0123456789":
            return self.number() or "number"
        for word in (b"true", b"false", b"null"):
            if first == word[0]:
                return self.word(word) or ("null" if word == b"null" else "bool")
        raise Wrong

    def value(self, level):
        """A value with the space around it, inside so many lists and objects."""
        self.space()
        made = Value(self.text, None, self.at)
        first = self.peek()
        if first in b"[{":
            made.kind = "list" if first == ord("[") else "object"
            self.brackets(made, level + 1)
        else:
            made.kind = self.scalar(first)
        made.end = self.at
        self.space()
        return made

    def name(self):
        self.space()
        made = Value(self.text, "string", self.at)
        self.string()
        made.end = self.at
        self.space()
        self.word(b":")
        return made

    def brackets(self, made, level):
        """What stands in a list or an object (sections 4 and 5)."""
        if level > MOST_LEVELS:
            raise Fault(f"too deep at {self.at}")
        self.take(b"[{")
        close = b"]" if made.kind == "list" else b"}"
        self.space()
        if self.take_if(close):
            return
        while True:
            if made.kind == "object":
                made.inside.append((self.name(), self.value(level)))
            else:
                made.inside.append(self.value(level))
            if self.take(close + b",") == close[0]:
                return

    def whole(self):
        made = self.value(0)
        if self.at < len(self.text):
            raise Wrong
        return made


@functools.cache
def begins_character(front):
    """Whether a character of several bytes begins so."""
    return any(is_character(front + tail) for tail in tails(4 - len(front)))


def tails(most):
    """What may stand behind the front of a character: the least and the greatest bytes, up to so many."""
    return [b""] + [bytes([edge]) * count for count in range(1, most + 1) for edge in (0x80, 0xBF)]


def is_character(front):
    try:
        return len(front.decode()) == 1
    except UnicodeDecodeError:
        return False


# The first bytes of characters of several bytes.
FIRSTS = bytes(byte for byte in range(0x80, 0x100) if begins_character(bytes([byte])))


def scanned(text):
    """The value of a text. A fault stands at the first byte that no text has there, or that opens a level too many."""
    grammar = Grammar(text)
    try:
        return grammar.whole()
    except Ended:
        raise Fault(f"not json at {len(text)}") from None
    except Wrong:
        raise Fault(f"not json at {grammar.at}") from None


def coded(text):
    """Bytes with all but plain ones by their numbers."""
    return "".join(chr(byte) if 0x20 < byte < 0x7F and byte != ord("%") else f"%{byte:02x}" for byte in text)


def told_value(value):
    """A value as spans.txt has it."""
    told = f"{value.kind} {value.at}+{value.end - value.at}"
    if value.kind == "number":
        number = value.whole()
        is_held = number is not None and -(2**63) <= number < 2**63
        return f"{told} = {number}" if is_held else f"{told} {'not a whole number' if number is None else 'too large a number'}"
    if value.kind == "string":
        text = value.decoded()
        return f"{told} not a text" if text is None else f"{told} = {coded(text.encode())}"
    if value.kind == "list":
        return f"{told} [{', '.join(map(told_value, value.inside))}]"
    if value.kind == "object":
        return f"{told} {{{', '.join(f'{told_value(name)}: {told_value(inside)}' for name, inside in value.inside)}}}"
    return f"{told} {value.bytes.decode()}"


# ---- the shape (FORMATS, phase 3)

def shown(name):
    """A name as it is shown: as it stands, without quotes."""
    return name.bytes[1:-1].decode()


def named(value):
    """The members of an object by their names, which are looked at first."""
    found = {}
    for name, inside in value.inside:
        text = name.decoded()
        if text is None:
            raise Fault(f"bad member {shown(name)}")
        if text in found:
            raise Fault(f"duplicate {shown(name)}")
        found[text] = name, inside
    return found


def demand(members, word, kind, is_fit=lambda value: True):
    """The value of a member that has to be there and of this kind."""
    if word not in members:
        raise Fault(f"bad member {word}")
    name, value = members[word]
    if value.kind != kind or not is_fit(value):
        raise Fault(f"bad member {shown(name)}")
    return value


def are_lists(value, depth):
    """Whether the value is a list, of lists where the depth is two, and so on."""
    return value.kind == "list" and (depth == 1 or all(are_lists(inside, depth - 1) for inside in value.inside))


def kept(members, known):
    return "".join(f" {name.bytes.decode()}={value.bytes.decode()}" for word, (name, value) in members.items() if word not in known)


def head(members, known):
    """What is kept of a geometry: its id, its properties and the members that are not known."""
    parts = [f" {word}={members[word][1].bytes.decode()}" for word in ("id", "properties") if word in members]
    return "".join(parts) + kept(members, {"type", "id", "properties", "bbox", *known})


class Outline:
    """The layers of a topology, its features, and where its arcs stand."""

    def __init__(self, root):
        self.items, self.features = [], []
        self.members = named(root) if root.kind == "object" else {}
        kind = self.members.get("type")
        if not kind or kind[1].kind != "string" or kind[1].decoded() != "Topology":
            raise Fault("not a topology")
        self.transform = self.read_transform()
        layers = demand(self.members, "objects", "object")
        self.arcs = demand(self.members, "arcs", "list")
        for name, _ in named(layers).values():
            pass
        for word, (name, value) in named(layers).items():
            if value.kind != "object":
                raise Fault(f"bad member {shown(name)}")
            self.items.append(f"layer {name.bytes.decode()}")
            self.geometry(value)
        if len(self.features) > MOST_FEATURES:
            raise Fault("too large features")

    def read_transform(self):
        if "transform" not in self.members or self.members["transform"][1].kind == "null":
            return None
        value = demand(self.members, "transform", "object")
        inside = named(value)
        for word in ("scale", "translate"):
            are_two = lambda pair: [number.kind for number in pair.inside] == ["number", "number"]
            if word not in inside or inside[word][1].kind != "list" or not are_two(inside[word][1]):
                raise Fault(f"bad member {shown(self.members['transform'][0])}")
        return value.bytes.decode()

    def geometry(self, value):
        members = named(value)
        if "type" not in members:
            raise Fault("bad member type")
        name, kind = members["type"]
        word = kind.decoded() if kind.kind == "string" else None
        if kind.kind == "null":
            self.feature("null", value, head(members, []), value)
        elif word in ("Polygon", "MultiPolygon"):
            depth = 2 if word == "Polygon" else 3
            arcs = demand(members, "arcs", "list", lambda value: are_lists(value, depth))
            self.feature("polygon" if depth == 2 else "polygons", arcs, head(members, ["arcs"]), value)
        elif word == "GeometryCollection":
            inside = demand(members, "geometries", "list")
            self.items.append("(" + head(members, ["geometries"]))
            for item in inside.inside:
                if item.kind != "object":
                    raise Fault(f"bad member {shown(members['geometries'][0])}")
                self.geometry(item)
            self.items.append(")")
        elif word in ("Point", "MultiPoint"):
            self.items.append(value.bytes.decode())
        elif word is None:
            raise Fault(f"bad member {shown(name)}")
        else:
            raise Fault(f"unsupported {shown(kind)}")

    def feature(self, form, arcs, head, _value):
        self.features.append((form, arcs))
        self.items.append(f"{form}{head} arcs={arcs.bytes.decode()}")

    def told(self):
        """The outline as outlines.txt has it."""
        places = "".join(f" {form} {arcs.at}" for form, arcs in self.features)
        known = {"type", "transform", "objects", "arcs", "bbox"}
        items = "".join(f" | {item}" for item in self.items)
        arcs = self.arcs.bytes.decode()
        return f"transform {self.transform or 'none'}{items} | features{places} | arcs {arcs} | members{kept(self.members, known)}"


# ---- positions, indexes and rings (phases 4 to 6)

def fault_at(what, value):
    return Fault(f"{what} at {value.at}")


def number_of(value, before):
    """A coordinate; with a transform the sum of it and those before."""
    number = value.whole()
    if number is None:
        raise fault_at("not whole", value)
    if abs(number + before) > MOST:
        raise fault_at("out of range", value)
    return number + before


def arc_of(arc, has_transform):
    if arc.kind != "list" or len(arc.inside) < 2:
        raise fault_at("bad position", arc)
    positions = []
    for pair in arc.inside:
        if pair.kind != "list" or len(pair.inside) != 2:
            raise fault_at("bad position", pair)
        before = positions[-1] if has_transform and positions else (0, 0)
        positions.append(tuple(number_of(value, sum_) for value, sum_ in zip(pair.inside, before)))
    return positions


def index_of(value, arcs):
    """The arc that an index names, one that is minus one or less backwards."""
    number = value.whole()
    if number is None:
        raise fault_at("not whole", value)
    if not -len(arcs) <= number < len(arcs):
        raise fault_at("bad arc index", value)
    return arcs[number] if number >= 0 else arcs[-1 - number][::-1]


def uses_of(outline, arcs):
    """By feature and polygon the arcs of each ring."""
    features = []
    for form, value in outline.features:
        polygons = {"null": [], "polygon": [value], "polygons": value.inside}[form]
        features.append([[[index_of(index, arcs) for index in ring.inside] for ring in rings.inside] for rings in polygons])
    if sum(len(arc) for polygons in features for rings in polygons for ring in rings for arc in ring) > MOST_POSITIONS:
        raise Fault("too large positions")
    return features


def walk_of(uses, place):
    """The positions of these arcs, equal neighbours once and the last left out."""
    walk = []
    for number, arc in enumerate(uses):
        if number and uses[number - 1][-1] != arc[0]:
            raise Fault(f"arcs do not meet {place}")
        walk += arc[1:] if number else arc
    if uses and walk[0] != walk[-1]:
        raise Fault(f"arcs do not meet {place}")
    once = [p for k, p in enumerate(walk) if k == 0 or p != walk[k - 1]]
    return once[:-1]


def ring_of(uses, place):
    """A ring of at least three positions, none of them twice, begun at the least."""
    walk = walk_of(uses, place)
    if len(walk) < 3:
        raise Fault(f"ring short {place}")
    for k, p in enumerate(walk):
        if p in walk[:k]:
            raise Fault(f"ring repeats {place} at {p[0]} {p[1]}")
    least = walk.index(min(walk))
    return walk[least:] + walk[:least]


def read(text, closed=ring_of):
    """The rings of a text by feature and polygon."""
    if len(text) > MOST_BYTES:
        raise Fault("too large bytes")
    outline = Outline(scanned(text))
    arcs = [arc_of(arc, outline.transform is not None) for arc in outline.arcs.inside]
    uses = uses_of(outline, arcs)
    return [
        [[closed(ring, f"{f} {p} {r}") for r, ring in enumerate(rings)] for p, rings in enumerate(polygons)]
        for f, polygons in enumerate(uses)
    ]


def told_rings(features):
    """What was read, as topologies.txt has it."""
    told = "".join(" " + json.dumps(polygons, separators=(",", ":")) for polygons in features)
    positions = [p for polygons in features for rings in polygons for ring in rings for p in ring]
    if not positions:
        return f"opened{told}"
    xs, ys = zip(*positions)
    return f"opened{told} in {min(xs)} {min(ys)} {max(xs)} {max(ys)}"


# ---- answers

def answer(told, *given):
    """What a function tells, or the fault."""
    try:
        return told(*given)
    except Fault as fault:
        return str(fault)


def of_scan(text):
    return answer(lambda: scanned(text) and "json")


def of_spans(text):
    return answer(lambda: told_value(scanned(text)))


def of_outline(text):
    return answer(lambda: Outline(scanned(text)).told())


def of_read(text):
    return answer(lambda: told_rings(read(text)))


def of_both(text):
    return f"{of_read(text)} => {answer(lambda: told_rings(read(text, walk_of)))}"


def of_opening(text):
    return answer(lambda: f"opened {len(read(text))}")
