"""What the user of ./edit asks for."""
import argparse
import os
import pathlib
import sys

from paths import shown, why_not_writable

# The status of arguments that make no sense, which is that of border_edit.
USAGE = 64
TEXT = """Edits a boundary map in the browser.

The page is served on this machine alone, and only to this browser. Each edit made in it is a line of a script, which
border_edit accepts or refuses. Save writes FILE whole; what FILE held before stays as FILE.orig."""


class Stop(Exception):
    """The page can't be served: why."""


class Parser(argparse.ArgumentParser):
    """Arguments that make no sense end with the status that the programs have for that."""

    def error(self, message):
        self.print_usage(sys.stderr)
        self.exit(USAGE, f"edit: {message}\n")


def port(word):
    """A port that a user's program may listen on; 0 lets the system choose one."""
    if word.isascii() and word.isdigit() and (word == "0" or 1024 <= int(word[:6]) <= 65535):
        return int(word)
    raise argparse.ArgumentTypeError("a port is from 1024 to 65535, or 0 for any that is free")


def options(words):
    """What the user asks for."""
    parser = Parser(prog="edit", description=TEXT, allow_abbrev=False,
                    formatter_class=argparse.RawDescriptionHelpFormatter)
    add = parser.add_argument
    add("map", metavar="MAP", type=pathlib.Path, help="a map as TopoJSON, such as examples/columbus.json, or GeoJSON")
    add("--out", metavar="FILE", type=pathlib.Path, help="the file that Save writes, as GeoJSON if its name ends in .geojson; if it is not given MAP, as what it is")
    add("--port", metavar="N", type=port, default=0, help="the port of the page; any free one if it is not given")
    add("--no-open", action="store_true", help="prints the address of the page, and opens no browser")
    return parser.parse_args(words)


def checked(given):
    """The files of MAP and of what Save writes."""
    if not given.map.exists():
        raise Stop(f"there is no file {shown(given.map)}")
    if not given.map.is_file():
        raise Stop(f"{shown(given.map)} is no file")
    if not os.access(given.map, os.R_OK):
        raise Stop(f"the file {shown(given.map)} may not be read")
    out = (given.out or given.map).resolve()
    if why := why_not_writable(out):
        raise Stop(shown(why))
    return given.map.resolve(), out
