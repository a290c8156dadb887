"""The text in which a map is saved, as docs/FORMATS.md has it under "The saved text", from the rings of a model.

`Frame` keeps what stands around the rings in the text that was read: layers, collections, kept objects, and of each
feature its type, properties and unknown members, byte for byte. It learns of new features, and never forgets a
number, so that a feature that returns is where it was. `saved_text` writes the topology with the arcs.
"""
import json
from dataclasses import dataclass, field
from json.decoder import scanstring

SPACE = " \t\n\r"
DECODE = json.JSONDecoder().raw_decode
DROPPED = {"bbox"}
KEPT_TYPES = {"Point", "MultiPoint"}


def after_space(text, at):
    while text[at] in SPACE:
        at += 1
    return at


def members(text, at):
    """The members of the object that begins here: name as it stands, name, place of the value, text of the value."""
    at = after_space(text, at + 1)
    while text[at] != "}":
        name, end = scanstring(text, at + 1)
        value = after_space(text, after_space(text, end) + 1)
        _, stop = DECODE(text, value)
        yield text[at:end], name, value, text[value:stop]
        at = after_space(text, stop)
        at = after_space(text, at + 1) if text[at] == "," else at


def items(text, at):
    """The places of the items of the list that begins here."""
    at = after_space(text, at + 1)
    while text[at] != "]":
        yield at
        _, stop = DECODE(text, at)
        at = after_space(text, stop)
        at = after_space(text, at + 1) if text[at] == "," else at


@dataclass
class Texts:
    """What is kept of a feature or a collection beside its rings, as it stands in the text."""
    type: str
    properties: str = None
    kept: list = field(default_factory=list)


@dataclass
class Collection:
    texts: Texts
    id: str
    items: list


class Frame:
    """All of a map but its rings. `read` takes the features in the order of the text, as the model numbers them."""

    def __init__(self, text):
        self.text, self.texts, self.ids = text, {}, {}
        self.layers, self.kept, self.transform = [], [], None
        for name, plain, at, value in members(text, after_space(text, 0)):
            if plain == "objects":
                self.layers = [(layer, self.read(place)) for layer, _, place, _ in members(text, at)]
            elif plain == "transform":
                self.transform = value
            elif plain not in {"type", "arcs"} | DROPPED:
                self.kept.append((name, value))

    def read(self, at):
        """A kept text, a collection, or the number of a feature."""
        found = {plain: (place, value) for _, plain, place, value in members(self.text, at)}
        kind = json.loads(found["type"][1])
        if kind in KEPT_TYPES:
            return self.text[at : DECODE(self.text, at)[1]]
        inner = "geometries" if kind == "GeometryCollection" else "arcs"
        known = {"type", "id", "properties", inner} | DROPPED
        kept = [(name, value) for name, plain, _, value in members(self.text, at) if plain not in known]
        texts = Texts(found["type"][1], found.get("properties", (0, None))[1], kept)
        name = found.get("id", (0, None))[1]
        if kind == "GeometryCollection":
            return Collection(texts, name, [self.read(place) for place in items(self.text, found[inner][0])])
        number = len(self.texts)
        self.texts[number], self.ids[number] = texts, name
        return number

    def put_after(self, number, new):
        """A new feature stands behind the one that it was cut from, and has its properties and unknown members."""
        old = self.texts[number]
        self.texts[new] = Texts('"Polygon"', old.properties, old.kept)
        nodes = [node for _, node in self.layers if isinstance(node, Collection)]
        while nodes:
            node = nodes.pop()
            if number in node.items:
                node.items.insert(node.items.index(number) + 1, new)
            nodes += [inner for inner in node.items if isinstance(inner, Collection)]


class Arcs:
    """The arcs so far, and the number of each."""

    def __init__(self, is_junction):
        self.is_junction, self.arcs, self.numbers = is_junction, [], {}

    def pieces(self, ring):
        """A ring from its least position on, cut at its junctions."""
        cuts = [at for at, p in enumerate(ring) if self.is_junction(p)]
        if not cuts:
            return [(*ring, ring[0])]
        turned = ring[cuts[0] :] + ring[: cuts[0] + 1]
        ends = [at - cuts[0] for at in cuts] + [len(ring)]
        return [tuple(turned[a : b + 1]) for a, b in zip(ends, ends[1:])]

    def index(self, piece):
        if piece in self.numbers:
            return self.numbers[piece]
        if piece[::-1] in self.numbers:
            return ~self.numbers[piece[::-1]]
        self.numbers[piece] = len(self.arcs)
        self.arcs.append(piece)
        return self.numbers[piece]

    def ring(self, ring):
        return [self.index(piece) for piece in self.pieces(ring)]


def compact(value):
    return json.dumps(value, separators=(",", ":"))


def object_text(texts, name, inner):
    """A feature or a collection; `inner` is its member of arcs or geometries, where it has one."""
    parts = [("\"type\"", texts.type)]
    parts += [("\"id\"", name)] if name is not None else []
    parts += [("\"properties\"", texts.properties)] if texts.properties is not None else []
    return "{" + ",".join(f"{a}:{b}" for a, b in [*parts, *inner, *texts.kept]) + "}"


def differences(arc):
    return [arc[0], *((b[0] - a[0], b[1] - a[1]) for a, b in zip(arc, arc[1:]))]


def saved_text(frame, features, ids, is_junction):
    """The text of the map whose features have these polygons, by number, and these texts of ids."""
    arcs = Arcs(is_junction)

    def feature_text(number):
        texts, polygons = frame.texts[number], [[arcs.ring(ring) for ring in rings] for rings in features[number]]
        shown = {'"Polygon"': polygons[:1] and polygons[0], '"MultiPolygon"': polygons}.get(texts.type)
        inner = [] if texts.type == "null" else [('"arcs"', compact(shown))]
        return object_text(texts, ids[number], inner)

    def node_text(node):
        if isinstance(node, str):
            return node
        if isinstance(node, int):
            return feature_text(node)
        there = [inner for inner in node.items if not isinstance(inner, int) or inner in features]
        inner = [('"geometries"', "[" + ",".join(map(node_text, there)) + "]")]
        return object_text(node.texts, node.id, inner)

    def layer_text(node):
        if isinstance(node, int) and node not in features:
            return '{"type":"GeometryCollection","geometries":[]}'
        return node_text(node)

    layers = ",".join(f"{name}:{layer_text(node)}" for name, node in frame.layers)
    rows = [differences(arc) if frame.transform else arc for arc in arcs.arcs]
    parts = [('"type"', '"Topology"'), *([('"transform"', frame.transform)] if frame.transform else [])]
    parts += [('"objects"', "{" + layers + "}"), ('"arcs"', compact(rows)), *frame.kept]
    return "{" + ",".join(f"{name}:{value}" for name, value in parts) + "}"
