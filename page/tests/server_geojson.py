"""GeoJSON: a file of it is opened, and saved as GeoJSON; and FILE is GeoJSON if its name says so."""
import contextlib
import json
import os
import signal

from server_maps import SQUARES
from server_runs import PATHS, Served, folder, run
from server_saving import others, small_disk
from server_starting import run_edit

# Two squares with a side in common, of which one turns to the right and the other to the left. It is written as it is saved.
AREAS = """{"type":"FeatureCollection","name":"land","crs":{"n":1},"features":[
{"type":"Feature","id":"A","properties":{"n":1.50},"geometry":{"type":"Polygon","coordinates":[[[0.5,0],[0.5,1],[1.5,1],[1.5,0],[0.5,0]]]}},
{"type":"Feature","properties":null,"geometry":{"type":"Polygon","coordinates":[[[1.5,0],[2.5,0],[2.5,1],[1.5,1],[1.5,0]]]},"m":[1, 2]}
]}
"""
# The same otherwise: other places at which rings begin, other decimals, another order of members, spaces.
SPACED = """{ "features": [ {"geometry": {"coordinates": [[[1.5, 1], [1.50, 0], [0.5, 0.0], [5e-1, 1], [1.5, 1]]], "type": "Polygon"},
 "properties": {"n":1.50}, "id": "A", "type": "Feature"}, {"m":[1, 2], "type": "Feature", "geometry": {"type": "Polygon",
 "coordinates": [[[2.5, 0], [2.5, 1], [1.5, 1], [1.5, 0], [2.5, 0]]]}} ], "crs":{"n":1}, "name": "land", "type": "FeatureCollection" }"""
# Two squares that cross: what the sides are cut at, and a coordinate that has to be rounded.
CROSSING = """{"type":"GeometryCollection","geometries":[{"type":"Polygon","coordinates":[[[0,0],[10,0],[10,10],[0,10],[0,0]]]},
{"type":"Polygon","coordinates":[[[5,5],[15,5],[15,15],[5,15],[5,5]]]}]}"""
CUT = """{"type":"FeatureCollection","name":"features","features":[
{"type":"Feature","properties":null,"geometry":{"type":"GeometryCollection","geometries":[\
{"type":"Polygon","coordinates":[[[0,0],[10,0],[10,5],[10,10],[5,10],[0,10],[0,0]]]},\
{"type":"Polygon","coordinates":[[[5,5],[10,5],[15,5],[15,15],[5,15],[5,10],[5,5]]]}]}}
]}
"""
TWO_LAYERS = SQUARES.replace('"land":', '"sea":{"type":null},"land":')


def over_geojson(checks):
    """A file of GeoJSON is opened at once, edited, and saved over; what it held first stays as FILE.orig."""
    for name, text in [("areas.geojson", AREAS), ("areas.json", SPACED)]:
        with folder() as files:
            path = files / name
            path.write_text(text)
            path.chmod(0o640)
            with Served(path) as page:
                began = page.begin()
                checks.same(f"{name} opens", [began[key] for key in ("opens", "out", "format", "over", "unsaved", "counts")],
                            [True, str(path), "GeoJSON", True, False, "features 2 vertices 6 segments 7"])
                if path.suffix == ".geojson":
                    checks.same("the page is not given what it can't read", page.get("map"), (200, b""))
                checks.same("on its grid", page.questions("area 0", "rings 1"), ["200", "[[[[15,0],[25,0],[25,10],[15,10]]]]"])
                checks.same("edits", page.edit("move 15 10 16 12", 'rename 1 "B"'), (["ok", "ok"], True))
                edited = AREAS.replace("[1.5,1]", "[1.6,1.2]").replace(
                    '{"type":"Feature","properties":null', '{"type":"Feature","id":"B","properties":null')
                checks.same("saved", page.post("save"), (200, {"bytes": len(edited), "file": str(path)}))
                checks.same("what it holds", path.read_text(), edited)
                kept = path.with_name(name + ".orig")
                checks.same("beside it", (others(path), kept.read_text()), ([kept.name], text))
                checks.same("modes", [oct(each.stat().st_mode & 0o777) for each in (path, kept)], ["0o640", "0o640"])
                page.edit("undo", "undo")
                checks.same("undone and saved", (page.post("save")[0], path.read_text()), (200, AREAS))
                checks.same("the first one stays", kept.read_text(), text)
            with Served(path) as page:
                checks.same("it opens again", page.begin()["counts"], "features 2 vertices 6 segments 7")
                checks.same("what was looked at only is left as it is", (page.stop(), path.read_text(), others(path)),
                            ((0, ""), AREAS, [kept.name]))


# MAP and what it holds, FILE if it is named, and what that holds once it is saved.
FORMATS = [
    ("areas.geojson", AREAS, None, "GeoJSON"), ("areas.json", AREAS, None, "GeoJSON"),
    ("areas.geojson", AREAS, "areas.geojson", "GeoJSON"), ("areas.json", AREAS, "./areas.json", "GeoJSON"),
    ("areas.geojson", AREAS, "out.geojson", "GeoJSON"), ("areas.geojson", AREAS, "OUT.GEOJSON", "GeoJSON"),
    ("areas.geojson", AREAS, "areas.json", "TopoJSON"), ("areas.json", AREAS, "out.topojson", "TopoJSON"),
    ("areas.geojson", AREAS, "out", "TopoJSON"), ("map.json", SQUARES, "out.geojson", "GeoJSON"),
    ("map.json", SQUARES, None, "TopoJSON"), ("map.geojson", SQUARES, None, "TopoJSON"),
    ("map.geojson", SQUARES, "out.json", "TopoJSON"), ("map.json", TWO_LAYERS, "out.json", "TopoJSON"),
]
TYPES = {"GeoJSON": "FeatureCollection", "TopoJSON": "Topology"}


def formats(checks):
    """What FILE is written as: what its name says, and over MAP what MAP is."""
    for name, text, out, wanted in FORMATS:
        with folder() as files:
            (files / name).write_text(text)
            path = files / (out or name)
            with Served(files / name, *(["--out", path] if out else [])) as page:
                began = page.begin()
                checks.same(f"{name} to {out}", [began[key] for key in ("opens", "out", "format", "over")],
                            [True, str(path), wanted, path == files / name])
                # what becomes another format can be saved as it is
                is_made = text == AREAS and wanted == "TopoJSON"
                checks.same("unsaved", began["unsaved"], is_made)
                page.edit('rename 1 "x"')
                checks.same("saved", page.post("save")[0], 200)
                saved = path.read_bytes()
                checks.same("its type", json.loads(saved)["type"], TYPES[wanted])
                status, given = page.get("geojson")
                checks.same("what Download gives", (status, given == saved) if wanted == "GeoJSON" else status,
                            (200, True) if wanted == "GeoJSON" else 404)
                checks.same("nothing else stands there", set(os.listdir(files)),
                            {name, path.name} | ({f"{name}.orig"} if path == files / name else set()))
                if path != files / name:
                    checks.same("MAP is as it was", (files / name).read_text(), text)


def to_be_mended(checks):
    """GeoJSON that mending would change is mended when the user says so, and then it is unsaved."""
    with folder() as files:
        path = files / "areas.geojson"
        path.write_text(CROSSING)
        with Served(path) as page:
            began = page.begin()
            checks.same("it does not open", [began[key] for key in ("opens", "out", "format", "findings", "mendable")],
                        [False, str(path), "GeoJSON",
                         ["geojson", "cross 0 10 10 10 / 5 5 5 15", "cross 5 5 15 5 / 10 0 10 10",
                          "counts short 0 repeats 0 on 0 cross 2"], True])
            checks.same("no GeoJSON of it", page.get("geojson")[0], 409)
            checks.same("mended", (page.post("mend")[1]["opens"], page.begin()["unsaved"]), (True, True))
            checks.same("saved", (page.post("save")[0], path.read_text()), (200, CUT))
            checks.same("what it held is kept", (files / "areas.geojson.orig").read_text(), CROSSING)
    # the second point is so far away that the grid keeps one decimal alone, as it does for the borders
    for x, opens, findings in [("1.25", True, []), ("25000000000.125", False, ["geojson", "decimals 3 digits 1 rounded 0",
                                                                              "counts short 0 repeats 0 on 0 cross 0"])]:
        with folder() as files:
            path = files / "areas.geojson"
            point = '{"type":"Feature","geometry":{"type":"Point","coordinates":[%s,0]}}' % x
            path.write_text(AREAS.replace("[\n", "[\n" + point + ",\n", 1))
            with Served(path) as page:
                began = page.begin()
                checks.same(f"a point at {x}", (began["opens"], began.get("findings", [])), (opens, findings))
    with folder() as files:
        path = files / "areas.geojson"
        path.write_text(AREAS.replace("2.5,", "250000000000.5,"))
        with Served(path) as page:
            checks.same("rounded", page.begin()["findings"][1], "decimals 1 digits 0 rounded 10")
            checks.same("by as many decimals as asked for", (page.post("mend", digits=0)[0], page.questions("rings 0")),
                        (200, ["[[[[1,0],[1,1],[2,1],[2,0]]]]"]))


# border_mend, of which no map comes.
NO_MAP = """#!/bin/sh
[ "$2" = --out ] && echo 'open: too large bytes' >&2 && exit 2
exec "$REAL" "$@"
"""


def not_mended(checks):
    """No map can be made of GeoJSON of which nothing else is known: the page offers it, and says why it fails."""
    with folder() as files:
        path, program = files / "areas.geojson", files / "stand_in"
        path.write_text(AREAS)
        program.write_text(NO_MAP)
        program.chmod(0o755)
        with Served(path, BORDER_MEND=program, REAL=PATHS["border_mend"]) as page:
            began = page.begin()
            checks.same("it does not open", [began[key] for key in ("opens", "format", "mendable")], [False, "GeoJSON", True])
            checks.same("nor when it is asked for", page.post("mend"),
                        (409, {"reason": "the map can't be mended: too large bytes", "force": False}))


def script(checks):
    """The log as a script, and the lines in it that say how the file is made again."""
    with folder() as files:
        path = files / "areas.geojson"
        path.write_text(SPACED)
        with Served(path) as page:
            page.begin()
            page.edit("move 15 10 16 12")
            page.edit("move 15 10 16 12")
            page.post("save")
            (files / "edits.txt").write_bytes(page.get("script")[1])
        told = (files / "edits.txt").read_text().splitlines()
        names = {"MENDED": files / "mended", "EDITED": files / "edited", "THIS": files / "edits.txt", "FILE": files / "again",
                 path.name: f"{path}.orig"}
        for line in told[1:4]:
            program, *words = line.partition(": ")[2].split()
            checks.same(line, run(program, *(names.get(word, word) for word in words)).returncode, 0)
        checks.same("they make the same bytes", (files / "again").read_bytes(), path.read_bytes())
        checks.same("what was refused is a comment", told[4:],
                    ["move 15 10 16 12", "# refused no vertex: move 15 10 16 12"])


# What stands for border_export when the map is saved, and what the user is told.
FAULTS = [
    ("echo 'out of memory' >&2; exit 3", "the map can't be written as GeoJSON: there is too little memory"),
    ("echo half > \"$3\"; echo 'save fault' >&2; exit 3",
     "the map can't be written as GeoJSON: there is no room for it among the temporary files"),
    ("echo 'nested 7' >&2; exit 2", "the map can't be written as GeoJSON: in its collection number 7 something has an id, "
     "properties, members or no geometry, for which GeoJSON has no place"),
    ("echo 'open: bad member arcs' >&2; exit 2",
     "the map can't be written as GeoJSON: its member “arcs” would be another one in GeoJSON"),
    ("echo 'open: too large bytes' >&2; exit 2", "the map can't be written as GeoJSON: as TopoJSON it has more than 64 MiB, "
     "and border_export reads no more"),
    ("echo half > \"$3\"; echo other >&2; exit 5", "the map can't be written as GeoJSON: border_export ended with status 5: other"),
    ("echo half > \"$3\"; kill -9 $$", "the map can't be written as GeoJSON: border_export ended with status -9"),
    ("exit 0", "the map can't be written as GeoJSON: {made}: No such file or directory"),
    (None, "the map can't be written as GeoJSON: {program}: No such file or directory"),
]


def faults(checks):
    """border_export fails: FILE is as it was, the user is told why, and work goes on."""
    for text, reason in FAULTS:
        with folder() as files:
            (files / "tmp").mkdir()
            path, program = files / "areas.geojson", files / "stand_in"
            path.write_text(AREAS)
            (files / "real").symlink_to(PATHS["border_export"])
            program.symlink_to("real")
            with Served(path, BORDER_EXPORT=program, TMPDIR=files / "tmp") as page:
                page.begin()
                page.edit("move 15 10 16 12")
                put(program, text)
                scratch, = (files / "tmp").iterdir()
                told = reason.format(program=program, made=scratch / "made.geojson")
                for force in (False, True):
                    checks.same(f"{text}, {force}", page.post("save", force=force), (409, {"reason": told, "force": False}))
                checks.same("nor is it downloaded", page.get("geojson")[0], 409)
                checks.same("FILE is as it was", (path.read_text(), others(path)), (AREAS, ["real", *["stand_in"] * bool(text), "tmp"]))
                checks.same("nothing is left of it", {"made.geojson", "edited.json"} & set(os.listdir(scratch)), set())
                checks.same("edits go on", (page.edit('rename 0 "x"'), page.begin()["unsaved"]), ((["ok"], True), True))
                program.unlink(missing_ok=True)
                program.symlink_to("real")
                checks.same("then saved", (page.post("save")[0], json.loads(path.read_text())["features"][0]["id"]), (200, "x"))


def put(program, text):
    """Puts a shell script in the place of a program, or takes the program away."""
    program.unlink()
    if text is not None:
        program.write_text(f"#!/bin/sh\n{text}\n")
        program.chmod(0o755)


def no_room(checks):
    """There is no room among the temporary files."""
    with folder() as files, small_disk(files / "disk") as is_mounted:
        if not is_mounted:
            return
        path = files / "areas.geojson"
        path.write_text(AREAS)
        with Served(path, TMPDIR=files / "disk") as page:
            page.begin()
            page.edit('rename 0 "x"')
            with open(files / "disk/full", "wb", buffering=0) as full, contextlib.suppress(OSError):
                while full.write(b"x" * 4096):
                    pass
            status, said = page.post("save")
            checks.same("told", (status, said["reason"].startswith("the map can't be written as GeoJSON: "),
                                 said["reason"].endswith("No space left on device")), (409, True, True))
            checks.same("FILE is as it was", path.read_text(), AREAS)
            (files / "disk/full").unlink()
            checks.same("then saved", (page.post("save")[0], path.read_text()), (200, AREAS.replace('"A"', '"x"')))


def other_writers(checks):
    """Another program has written FILE, or border_edit has ended: as where FILE is a topology."""
    with folder() as files:
        path = files / "areas.geojson"
        path.write_text(AREAS)
        with Served(path) as page:
            page.begin()
            page.edit('rename 0 "x"')
            path.write_text("of another program")
            checks.same("changed", (page.post("save")[1]["force"], path.read_text()), (True, "of another program"))
            child, = page.children()
            os.kill(child, signal.SIGKILL)
            checks.same("with force", (page.post("save", force=True)[0], path.read_text()), (200, AREAS.replace('"A"', '"x"')))
            checks.same("what it held is kept", (files / "areas.geojson.orig").read_text(), "of another program")


def no_geojson(checks):
    """A topology that can't be GeoJSON is not opened for it."""
    with folder() as files:
        for text, line in [
            (TWO_LAYERS, "it has several layers, and a file of GeoJSON holds one"),
            (SQUARES.replace('"id":"A"', '"id":"A","features":1'), "its member “features” would be another one in GeoJSON"),
        ]:
            (files / "map.json").write_text(text)
            done = run_edit(files, "map.json", "--no-open", "--out", "out.geojson")
            checks.same(line, (done.returncode, done.stderr.decode()),
                        (3, f"edit: map.json can't be written as GeoJSON: {line}\n"))
            checks.same("nothing is written", os.listdir(files), ["map.json"])


GROUPS = [over_geojson, formats, to_be_mended, not_mended, script, faults, no_room, other_writers, no_geojson]
