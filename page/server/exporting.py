"""What border_export makes of an edited map: GeoJSON. Where it can't, that is said in plain words."""
import re

from mending import run

# Why a map can't be GeoJSON: what border_export says, and what it means.
REASONS = [
    ("no layer", "it has no layer"),
    ("several layers", "it has several layers, and a file of GeoJSON holds one"),
    ("nested ([0-9]+)", r"in its collection number \1 something has an id, properties, members or no geometry, for which "
                        "GeoJSON has no place"),
    ("open: bad member transform", "its transform has a scale of 0, or too many decimals"),
    ("open: bad member (.+)", r"its member “\1” would be another one in GeoJSON"),
    ("open: duplicate name", "its layer would have two names, since there is also a member “name”"),
    ("open: (?:not whole|out of range) at [0-9]+", "one of its points is not on the grid"),
    ("open: too large bytes", "as TopoJSON it has more than 64 MiB, and border_export reads no more"),
    ("out of memory", "there is too little memory"),
    ("save fault", "there is no room for it among the temporary files"),
]
# What arguments border_export is called with: rings keep their direction, so that a ring that nobody edited does not turn.
ARGUMENTS = ("--winding", "keep")


class NotExported(Exception):
    """A map can't be written as GeoJSON: why."""


def export(border_export, map_path, made_path):
    """Writes a map as GeoJSON."""
    status, _, said = run(border_export, map_path, "--out", made_path, *ARGUMENTS)
    if status:
        told = f"border_export ended with status {status}" + (f": {said}" if said else "")
        raise NotExported(reason(said) or told)


def reason(said):
    """What border_export says in plain words; nothing for what is not known here."""
    found = ((re.fullmatch(pattern, said), words) for pattern, words in REASONS)
    return next((match.expand(words) for match, words in found if match), None)
