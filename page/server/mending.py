"""What the other two programs do for a map that does not open: its faults, its picture, and mending it."""
import re
import subprocess

from child import environment


# The programs that run.
RUNNING = set()
# Lines of a report on a file of GeoJSON of which a map is made without any change. Where a point is rounded, there are
# more decimals than are kept.
SOUND = re.compile(r"geojson|decimals ([0-9]+) digits \1 rounded 0|counts short 0 repeats 0 on 0 cross 0")
# How the lines begin that tell what was done about a map.
DONE = ("path ", "parts ", "area ")
# The fault of a map that is GeoJSON, or no map at all.
NOT_TOPOLOGY = "not a topology"


def run(program, *arguments):
    """A program that has run to its end; its status, standard output, and what it left on standard error."""
    command = [program, *map(str, arguments)]
    pipes = {"stdin": subprocess.DEVNULL, "stdout": subprocess.PIPE, "stderr": subprocess.PIPE}
    with subprocess.Popen(command, **pipes, env=environment()) as process:
        RUNNING.add(process)
        try:
            out, said = process.communicate()
        finally:
            RUNNING.discard(process)
    return process.returncode, out, said.decode(errors="replace").strip()


def end_all():
    """Ends the programs that run."""
    for process in list(RUNNING):
        process.kill()


def lines_of(report):
    """The lines of a report of border_mend."""
    return report.decode(errors="replace").split("\n")[:-1]


def findings(border_mend, map_path):
    """All that stops a map from opening, and whether border_mend can read the map."""
    status, report, _ = run(border_mend, map_path)
    return lines_of(report), status in (0, 1)


def findings_in(report):
    """The lines of a report that tell what stops a map from opening, without those of what was done about it."""
    return [line.partition(" paths ")[0] for line in lines_of(report) if not line.startswith(DONE)]


def make(border_mend, map_path, made_path):
    """Makes a map of what is no topology: the same as `findings`, and whether it was made without any change."""
    status, report, _ = run(border_mend, map_path, "--out", made_path)
    if status == 2:  # it can't be read, or no map comes of it
        return *findings(border_mend, map_path), False
    found = findings_in(report)
    return found, status == 0, status == 0 and is_sound_geojson(found)


def is_sound_geojson(findings):
    """Whether findings are those of GeoJSON of which a map is made without any change."""
    return findings[:1] == ["geojson"] and all(map(SOUND.fullmatch, findings))


def picture(border_show, map_path, place=None):
    """A map with segments in conflict as SVG, or a square of it: the x and y of its middle and its width. Nothing where
    the map can't be drawn."""
    drawn = map_path.parent.with_name("picture.svg")
    at = ["--at", *place] if place else []
    status, _, _ = run(border_show, map_path, *at, "--out", drawn)
    return drawn.read_bytes() if status == 0 else None


def mend(border_mend, map_path, mended_path, digits):
    """Mends a map. The report, and why it can't be mended: nothing where it was."""
    arguments = [] if digits is None else ["--digits", digits]
    status, report, why = run(border_mend, map_path, "--out", mended_path, *arguments)
    return lines_of(report), None if status == 0 else without_open(why) or f"border_mend ended with status {status}"


def without_open(text):
    """The fault of a map, as the programs tell it on standard error."""
    return text.removeprefix("open: ")
