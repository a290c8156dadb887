"""A table of maps that are hard for an index of segments, beside bricks of about as many segments.

An index that stays local on any map opens each of them, and moves its vertices, about as fast as those of bricks, and takes
some twice as long to open where there are twice as many segments. What costs the square of the number takes four times as
long.
"""
import collections
import math

from drawing import Moves, draw
from maps import KINDS, apart, made_map
from measures import opened, rates_in_turn
from running import Failed

# Of the program or of the reference: seconds to open a map, how many times as long as bricks, how many times as long as a map
# of its kind with half the segments; moves a second, and how many times as many as in bricks.
Speed = collections.namedtuple("Speed", "open of_bricks doubling moves moves_of_bricks")
HEAD = f"{'':20} {'segments':>9} {'open s':>9} {'x bricks':>9} {'doubling':>9} {'moves /s':>11} {'of bricks':>9}"


def segments_of(both, map_):
    """How many segments a map has."""
    return int(both.program.accepted(map_.path, ["count"]).out.split()[-1])


def doubling(times, segments):
    """How many times as long a map is opened that has twice as many segments, by the times of two maps."""
    return 2 ** (math.log(times[0] / times[1]) / math.log(segments[0] / segments[1]))


def moving(options, both, map_):
    """Makes scripts of moves of a map."""
    return Moves(both.program, map_.path, apart(draw, map_.path, options.seed).vertices).script


def speeds_of(options, both, kind, size, bricks):
    """How many segments a map of a kind has, and the speeds of the program and of the reference on it, the second None
    where there is none. Bricks take turns with it, so that what else the machine does is the same for both."""
    map_, half = (made_map(kind, n, options.seed) for n in (size, size // 2))
    segments = [segments_of(both, it) for it in (map_, half)]
    if segments[0] == segments[1]:
        raise Failed("it is so small that the map of half its size has as many segments")
    times = both.least(opened(map_), opened(half), opened(bricks))
    moves = rates_in_turn(both, [map_, bricks], [moving(options, both, it) for it in (map_, bricks)], options.seconds)
    program, own = (
        Speed(each[0], each[0] / each[2], doubling(each, segments), rates[0], rates[0] / rates[1])
        if all(each) and all(rates)
        else None
        for each, rates in zip(zip(*times), zip(*((it.value, it.own) for it in moves)))
    )
    return segments[0], program, own


def row(name, segments, speed):
    """What stands in the table of one map."""
    opening = f"{speed.open:9.4f} {speed.of_bricks:9.2f} {speed.doubling:9.2f}"
    return f"{name:20} {segments:9} {opening} {speed.moves:11.1f} {speed.moves_of_bricks:9.2f}"


def measure_hard(options, both, size):
    """Prints the table of the maps of this size."""
    bricks = made_map("bricks", size, options.seed)
    print(f"maps of {size} segments, about, each beside bricks, and opened with half as many\n{HEAD}", flush=True)
    for kind in options.kinds:
        try:
            segments, speed, own = speeds_of(options, both, kind, size, bricks)
        except Failed as reason:
            print(f"{kind:20} failed: {reason}", flush=True)
            continue
        print(row(kind, segments, speed), flush=True)
        if own:
            print(row("  reference", segments, own), flush=True)
            ratio = f"{speed.open / own.open:9.2f} {'':9} {'':9} {speed.moves / own.moves:11.2f}"
            print(f"{'  ratio':20} {'':9} {ratio}", flush=True)
    if both.reference:
        print(f"{'answers':20} {both.reference.said()}", flush=True)


def kinds(text):
    """Kinds of maps by their names, with bricks before all others."""
    chosen = [word for word in text.split(",") if word]
    unknown = [word for word in chosen if word not in KINDS]
    if unknown:
        raise ValueError(f"no kind {unknown[0]}")
    return ["bricks", *(word for word in chosen if word != "bricks")]
