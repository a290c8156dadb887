#!/usr/bin/env python3
"""Times the built program border_edit on real maps and on maps that it makes itself, and beside it a reference.

The program has to stand already; this script doesn't build it. In crates/border_edit

    rt run -- --help

proves the program, has LLVM build it at level 2, which is the usual one, leaves the executable as
crates/border_edit/out/border_edit, and runs that with the words behind `--`. No command of `rt`
builds a program without running it, and `--help` is the shortest run. With no change since, it
builds nothing anew. `rt ci` leaves the executable of its own LLVM build in the same place, and
beside it one by Rattle's own compiler, which is not measured here.

The reference is bench/reference, a plain C++ program that opens maps with the same tests, answers the same lines and
saves the same text, written for speed, with nothing proved. It is built by `g++ -O2` into bench/out where the compiler is
there; else a line says that it is not, and no ratio is told. It is given each script that the program is given, each piece
right behind it and on the same processor, so that what else the machine does is the same for both; whole runs of both take
turns. The ratio is the program's number over the reference's, of seconds, of rates or of memory. Both are started as ./run starts the program, so that the C library asks
the system for large pages, unless GLIBC_TUNABLES is set already: with GLIBC_TUNABLES= before the command both have usual
pages.

For each map there is one line a measure:

    bytes     seconds to read the bytes of the file; the least of several times
    scan      seconds to go over the text as JSON and no further: the program is given the text in a list, which is no
              topology; the least of several runs
    open      seconds to open the map and no further: the script is a folder, which can't be read; the least of several
              runs
    save      seconds that a run with an empty script takes beside that; the least of several runs
    edits     accepted edits a second: vertices moved by one unit and back
    queries   `area` lines answered a second
    at        `at` lines answered a second, at positions drawn between the coordinates of the vertices
    sharing   `neighbours` lines answered a second
    splits    accepted splits and merges a second: features cut from one vertex to another, and joined again
    near      the same of 60 features that follow each other in the map, over and over, which stay in the processor's cache
    deletes   features deleted a second: all but one of the map's, in drawn order
    in turn   the same in the map's order
    memory    the most memory that opening the map and a few questions took
    moved     changes taken back a second, and made a second: 1,000 vertices moved by one unit, and then as many undos
    inserted  the same of vertices put into the middle of segments
    removed   of vertices left out
    cut       of features cut in two, which is as many as the map has features that can be cut, if they are fewer
    deleted   of features
    thinned   vertices put back a second by the undo of one thinning with the greatest bound, and left out a second
    of moves  the most memory that was taken with 1,000 moves kept, and how much more that is than before them
    of cuts   the same with 1,000 splits kept
    of thin   and with one thinning with the greatest bound kept
    work      with --instructions alone: the processor's instructions for a split or a merge, for a deletion, for a move
              and for its undo, beside opening and saving, and how often each asks memory for what its last cache has
              not; counted by valgrind, which has the same counts whatever else the machine does; the ratio is that of
              the instructions
    answers   whether the reference had the same answers in all these scripts, and in one more with lines of all kinds, many
              of them refused, and saved the same text after each

Seconds are processor seconds of the program, its own and the system's for it (`bytes` alone is on the wall clock). Lines
a second are timed inside one run, without opening and saving: the script comes through a pipe, and a piece of it is over
once the program has read all of it and waits for more. The rate is that of the best of several pieces, since other work on
the machine only takes from it; of deletions and of undos it is the middle one of several times.
A measure that fails says `failed`, and why; a map or a program that is not there has a line that says so.

At the end come maps that are hard for an index of segments, in a table for each size of --hard, each beside bricks of
about as many segments: the seconds to open it, how many times as long as bricks that is, how many times as long as a map of
the same kind with half as many segments (`doubling`), the moves a second, and how many times as many as in bricks that is.
Bricks are measured beside each of them anew, run by run and piece by piece in turn, and so is the map of half the size.

    outlier     bricks, and one triangle far from them
    clusters    rings in up to a thousand clusters with much room between them
    comb        one ring of long teeth beside each other
    comb-rings  such a ring with half the segments, and beside it small rings
    diagonal    rings one after another along a diagonal
    mixed       diamonds of sizes from 2^8 to 2^30, each within the boxes of the segments of larger ones
    long        bricks whose borders have some thousand positions each

Bricks are partitions of the plane in brick order, each border written once and met by its neighbours at junctions. All
coordinates are whole numbers. The maps are the same for the same seed, and are kept in bench/out.
"""
import argparse
import os
import pathlib
import sys
import tempfile

from hard import kinds, measure_hard
from maps import KINDS, Map, made_map
from measures import Both, measure
from reference import Reference, built
from running import Runner

TOP = pathlib.Path(__file__).resolve().parent.parent
MAPS = TOP.parent / "shared" / "maps"
PROGRAM = TOP / "crates" / "border_edit" / "out" / "border_edit"


def maps_of(options):
    """The maps to measure, real ones first; those that this script makes are made as they are met."""
    for path in options.map or sorted(options.maps.glob("*.json")) or [options.maps]:
        yield Map(path.name, path)
    for vertices in options.vertices:
        yield made_map("bricks", vertices, options.seed)
    for vertices in options.fine:
        yield made_map("fine", vertices, options.seed)


def numbers(text):
    return [int(word) for word in text.split(",") if word]


def options_given():
    parser = argparse.ArgumentParser(description=__doc__, formatter_class=argparse.RawDescriptionHelpFormatter)
    add = parser.add_argument
    add("map", nargs="*", type=pathlib.Path, help="maps to measure in place of those of --maps")
    add("--program", type=pathlib.Path, default=PROGRAM, help="the executable (%(default)s)")
    add("--maps", type=pathlib.Path, default=MAPS, help="the folder of real maps (%(default)s)")
    add("--vertices", type=numbers, default=[10**3, 10**4, 10**5, 10**6], metavar="N,N..",
        help="sizes of the maps of bricks that all is measured on (1000,10000,100000,1000000)")
    add("--fine", type=numbers, default=[], metavar="N,N..",
        help="sizes of maps of bricks whose features have some 128 positions, on which all is measured too (none)")
    add("--hard", type=numbers, default=[10**5], metavar="N,N..",
        help="how many segments the hard maps have, from some 10,000 to 1,000,000 (100000)")
    add("--kinds", type=kinds, default=list(KINDS), metavar="KIND,KIND..",
        help=f"which hard maps are measured, beside bricks ({','.join(list(KINDS)[1:])})")
    add("--seconds", type=float, default=5,
        help="about how long a run of edits or queries may take beside opening (%(default)s)")
    add("--no-reference", action="store_true", help="measure the program alone")
    add("--instructions", action="store_true",
        help="count instructions too, by valgrind, some fifty times as slow as a run")
    add("--limit", type=float, default=300, help="seconds after which a run is ended and has failed (%(default)s)")
    add("--seed", type=int, default=1, help="of the maps made and of what is drawn (%(default)s)")
    return parser.parse_args()


def main():
    options = options_given()
    if not os.access(options.program, os.X_OK):
        print(f"{options.program}: not there, nothing is measured; --help says how to build it")
        return 1
    reference = None if options.no_reference else built()
    with tempfile.TemporaryDirectory(prefix="border_edit-bench-") as folder:
        program = Runner(options.program, options.limit, folder)
        both = Both(program, Reference(reference, options.limit, folder) if reference else None)
        for map_ in maps_of(options):
            if map_.path.is_file():
                measure(options, both, map_)
            else:
                print(f"{map_.name:20} not there, skipped", flush=True)
        for size in options.hard:
            measure_hard(options, both, size)
    return 0


if __name__ == "__main__":
    sys.exit(main())
