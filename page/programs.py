"""Where the programs stand, and whether they are proved."""
import pathlib
import subprocess

TOP = pathlib.Path(__file__).resolve().parent.parent
FIND = TOP / "programs/find"


class NotFound(Exception):
    """A program is not proved, and none could be built; standard error has the reason."""


def look_for(name):
    """Begins to look for one of the five programs, such as border_edit; `found` has what comes of it. Where there is none it is
    built without proof, which takes two minutes and is said on standard error."""
    return subprocess.Popen([FIND, name], stdin=subprocess.DEVNULL, stdout=subprocess.PIPE, text=True)


def found(name, looking):
    """The path of a program that was looked for, and whether it is proved."""
    said, _ = looking.communicate()
    if looking.returncode:
        raise NotFound(f"{name} is not proved here, and can't be built without proof")
    kind, _, path = said.rstrip("\n").partition(" ")
    return path, kind == "proved"


def find(name):
    """The path of a program, and whether it is proved."""
    return found(name, look_for(name))
