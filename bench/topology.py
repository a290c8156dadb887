"""Reads a topology as docs/FORMATS.md says, with walks in the place of rings, and writes it as it is saved.

What is kept stands as the text that it is: the transform, names, ids, properties, members that are not known, Points. A
walk is a list of positions, by feature, polygon and ring; one that was read begins where its first arc does.
"""
import collections
import copy
import itertools
import json
import re

# Numbers are not computed: a kept one may be of any size.
SCAN = json.JSONDecoder(parse_int=str, parse_float=str)
SPACE = re.compile(r"[ \t\n\r]*")

Topology = collections.namedtuple("Topology", "transform layers members features arcs")
# What a feature or a collection has beside its geometry, as texts: None is what is not there.
Head = collections.namedtuple("Head", "id properties members")
Collection = collections.namedtuple("Collection", "head items")


class Feature:
    """A feature: its form is the text of its `type`."""

    def __init__(self, form, head, polygons):
        self.form, self.head, self.polygons = form, head, polygons


class Unreadable(Exception):
    """Why a text is no topology of walks."""


# ---- JSON, by the texts of its values

def after_space(text, at):
    return SPACE.match(text, at).end()


def values(text, at):
    """The values from a place on, each as where it begins and ends, up to the bracket that closes them."""
    at = after_space(text, at)
    while text[at] not in "]}":
        end = SCAN.raw_decode(text, at)[1]
        yield at, end
        at = after_space(text, end)
        if text[at] in ",:":
            at = after_space(text, at + 1)


def items(text):
    """The texts of a list's values."""
    if not text.startswith("["):
        raise Unreadable("no list")
    return [text[at:end] for at, end in values(text, 1)]


def entries(text):
    """The members of an object: of each what its name stands for, the name's text, and the value's."""
    if not text.startswith("{"):
        raise Unreadable("no object")
    tokens = [text[at:end] for at, end in values(text, 1)]
    found = [(json.loads(name), name, value) for name, value in zip(tokens[::2], tokens[1::2])]
    if len({name for name, _, _ in found}) < len(found):
        raise Unreadable("two members of one name")
    return found


def head_of(members, known):
    """What stands beside the members that are known; a `bbox` is dropped."""
    values = {name: value for name, _, value in members}
    kept = [(name, value) for said, name, value in members if said not in {*known, "type", "bbox"}]
    return Head(values.get("id"), values.get("properties"), kept)


# ---- positions

def whole(text):
    """The whole number that a text with a fraction of zeros is."""
    number, _, fraction = text.partition(".")
    if fraction.strip("0"):
        raise Unreadable(f"{text} is not whole")
    return int(number)


def sums(pairs):
    """The positions that differences lead through."""
    return list(itertools.accumulate(pairs, lambda p, step: (p[0] + step[0], p[1] + step[1])))


def arcs_of(text, has_transform):
    """The arcs, as lists of positions."""
    pairs = [[(x, y) for x, y in arc] for arc in json.loads(text, parse_float=whole)]
    if any(len(arc) < 2 for arc in pairs):
        raise Unreadable("an arc of one position")
    return [sums(arc) for arc in pairs] if has_transform else pairs


def walk_of(arcs, indexes):
    """The arcs one after another, equal neighbours once, and the last position, which is the first, left out."""
    if not all(-len(arcs) <= i < len(arcs) for i in indexes):
        raise Unreadable("an arc index names no arc")
    uses = [arcs[i] if i >= 0 else arcs[~i][::-1] for i in indexes]
    if any(use[0] != before[-1] for use, before in zip(uses, uses[-1:] + uses[:-1])):
        raise Unreadable("arcs do not meet")
    return [p for p, _ in itertools.groupby(p for use in uses for p in use)][:-1]


# ---- reading

def geometry_of(text, arcs, features):
    """A feature, a collection, or the text of a Point; features are added in the order of the text."""
    members = entries(text)
    found = {name: value for name, _, value in members}
    kind = json.loads(found["type"])
    if kind in ("Point", "MultiPoint"):
        return text
    if kind == "GeometryCollection":
        inner = [geometry_of(item, arcs, features) for item in items(found["geometries"])]
        return Collection(head_of(members, {"id", "properties", "geometries"}), inner)
    if kind not in ("Polygon", "MultiPolygon", None):
        raise Unreadable(f"a geometry of type {kind}")
    known, polygons = {"id", "properties"}, []
    if kind:
        known.add("arcs")
        indexes = json.loads(found["arcs"], parse_float=whole)
        polygons = [[walk_of(arcs, ring) for ring in rings] for rings in ([indexes] if kind == "Polygon" else indexes)]
    feature = Feature(json.dumps(kind), head_of(members, known), polygons)
    features.append(feature)
    return feature


def read(text):
    """The topology that a text is."""
    try:
        members = entries(text.strip(" \t\n\r"))
        found = {name: value for name, _, value in members}
        transform = found.get("transform", "null")
        transform = None if transform == "null" else transform
        arcs, features = arcs_of(found["arcs"], transform), []
        layers = [(name, geometry_of(value, arcs, features)) for _, name, value in entries(found["objects"])]
    except (ValueError, KeyError, IndexError, TypeError) as error:
        raise Unreadable(f"no topology: {error}") from None
    kept = [(name, value) for said, name, value in members if said not in ("type", "bbox", "transform", "objects", "arcs")]
    return Topology(transform, layers, kept, features, arcs)


# ---- walks

def edges(walk):
    return list(zip(walk, walk[1:] + walk[:1])) if len(walk) > 1 else []


def segment(a, b):
    return (a, b) if a < b else (b, a)


def segments_of(walk):
    return [segment(a, b) for a, b in edges(walk)]


def from_least(ring):
    at = ring.index(min(ring))
    return ring[at:] + ring[:at]


def walks_of(topology):
    return [walk for feature in topology.features for rings in feature.polygons for walk in rings]


# ---- the saved text

def junctions(rings):
    """The positions whose neighbours differ between two of their places."""
    around = {}
    for ring in rings:
        for a, p, b in zip(ring[-1:] + ring[:-1], ring, ring[1:] + ring[:1]):
            around.setdefault(p, set()).add(segment(a, b))
    return {p for p, pairs in around.items() if len(pairs) > 1}


def pieces(ring, cuts):
    """A ring from its first junction round to it, cut at each; without junctions from its least position."""
    at = next((n for n, p in enumerate(ring) if p in cuts), 0)
    piece = [ring[at]]
    for p in ring[at + 1 :] + ring[: at + 1]:
        piece.append(p)
        if p in cuts:
            yield tuple(piece)
            piece = [p]
    if len(piece) > 1:
        yield tuple(piece)


class Arcs:
    """The arcs of a text that is written: each border becomes one, where it comes first."""

    def __init__(self, rings):
        self.cuts, self.indexes, self.list = junctions(rings), {}, []

    def index(self, piece):
        if piece not in self.indexes:
            self.indexes[piece[::-1]] = ~len(self.list)
            self.indexes[piece] = len(self.list)
            self.list.append(piece)
        return self.indexes[piece]

    def ring(self, ring):
        return [self.index(piece) for piece in pieces(from_least(ring), self.cuts)]


def object_text(members):
    return "{" + ",".join(f"{name}:{value}" for name, value in members if value is not None) + "}"


def told(lists):
    return json.dumps(lists, separators=(",", ":"))


def geometry_text(geometry, arcs):
    if isinstance(geometry, str):
        return geometry
    head = geometry.head
    before = [('"id"', head.id), ('"properties"', head.properties)]
    if isinstance(geometry, Collection):
        inner = ",".join([geometry_text(item, arcs) for item in geometry.items])
        members = [('"type"', '"GeometryCollection"'), *before, ('"geometries"', f"[{inner}]")]
        return object_text(members + head.members)
    shape = [[arcs.ring(ring) for ring in rings] for rings in geometry.polygons]
    shape = {"null": None, '"MultiPolygon"': told(shape), '"Polygon"': told(shape[0] if shape else [])}[geometry.form]
    return object_text([('"type"', geometry.form), *before, ('"arcs"', shape), *head.members])


def differences(positions):
    return [(x - u, y - v) for (x, y), (u, v) in zip(positions, ((0, 0), *positions))]


def saved_text(topology, arcs=None):
    """The text that a topology of rings is saved as, with the arcs that it is given or its own."""
    arcs = arcs or Arcs(walks_of(topology))
    layers = object_text([(name, geometry_text(geometry, arcs)) for name, geometry in topology.layers])
    written = told([differences(arc) if topology.transform else arc for arc in arcs.list])
    before = [('"type"', '"Topology"'), ('"transform"', topology.transform), ('"objects"', layers)]
    return object_text([*before, ('"arcs"', written), *topology.members])


def with_features(topology, changed):
    """A copy of a topology in which each feature has been given to a function, which may change it, with its number."""
    made = copy.deepcopy(topology._replace(arcs=None))
    for number, feature in enumerate(made.features):
        changed(number, feature)
    return made
