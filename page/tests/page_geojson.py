"""A file of GeoJSON in the browser: it is opened, edited, and saved as GeoJSON."""
import os
import pathlib
import sys

sys.path.insert(1, str(pathlib.Path(__file__).resolve().parents[1]))

from browser import Keys
from page_checks import is_map, same, true
import programs

# Two squares with a side in common, of which one turns to the left and the other to the right. It is written as it is saved.
GEOJSON = """{"type":"FeatureCollection","name":"land","crs":{"n":1},"features":[
{"type":"Feature","id":"A","properties":{"n":1.50},"geometry":{"type":"Polygon","coordinates":[[[0.5,0],[0.5,1],[1.5,1],[1.5,0],[0.5,0]]]}},
{"type":"Feature","properties":null,"geometry":{"type":"Polygon","coordinates":[[[1.5,0],[2.5,0],[2.5,1],[1.5,1],[1.5,0]]]}}
]}
"""
# A square so large that its grid has no decimals, and a corner between two positions of that grid.
ROUNDED = """{"type":"Polygon","coordinates":[[[0,0],[9e11,0],[9e11,9e11],[0.25,9e11],[0,0]]]}"""
STAND_IN = """#!/bin/sh
# border_export, which has no memory once there is a file beside it
[ -e "$0.full" ] && echo "out of memory" >&2 && exit 3
exec "$REAL_BORDER_EXPORT" "$@"
"""


def exporting(folder):
    """Variables that name a border_export which has no memory when it is told so."""
    stand_in = folder / "stand_in"
    stand_in.write_text(STAND_IN)
    stand_in.chmod(0o755)
    return {"BORDER_EXPORT": str(stand_in), "REAL_BORDER_EXPORT": os.path.abspath(programs.find("border_export")[0])}


def saved(page):
    page.keys(Keys.CONTROL, "s")
    page.wait("!editor.isUnsaved")


def test_geojson(page, path, downloads):
    page.load()
    is_map(page, "GeoJSON")
    same("nothing is unsaved", page.text("state"), "No changes")
    same("the page says what is saved, and where", [page.is_shown("target"), page.text("target")],
         [True, "Saves GeoJSON to areas.geojson"])
    same("with the whole path", page.js("return document.getElementById('save').title"), f"Saves GeoJSON to {path} (Ctrl+S)")
    page.later("editor.edit('move 15 10 16 12')")
    is_map(page, "an edit of GeoJSON")
    full = path.with_name("stand_in.full")
    full.write_text("")
    page.button("save")
    page.wait("document.getElementById('note').className === ''")
    true("no memory: the page says that it is not saved", "Not saved" in page.text("note"), page.text("note"))
    true("and why", "there is too little memory" in page.text("note"), page.text("note"))
    same("the file is as it was", path.read_text(), GEOJSON)
    full.unlink()
    saved(page)
    edited = GEOJSON.replace("[1.5,1]", "[1.6,1.2]")
    same("the file has the edit, in both features", path.read_text(), edited)
    same("what it held is kept", path.with_name("areas.geojson.orig").read_text(), GEOJSON)
    page.button("download")
    given = downloads / path.name
    for _ in range(200):
        if given.exists():
            break
        page.later("new Promise(done => setTimeout(done, 20))")
    same("Download gives it too", given.exists() and given.read_text(), edited)


def test_geojson_mended(page, path):
    """GeoJSON whose coordinates have to be rounded: the user is asked first."""
    page.load("!document.getElementById('mending').hidden")
    same("the page says where it will be saved", page.text("mendSaves"), f"Saves GeoJSON to {path}.")
    true("what is rounded is listed", "1 vertices are rounded" in page.text("findings"), page.text("findings"))
    page.button("mend")
    page.wait("document.getElementById('ask').open")
    page.element("askYes").click()
    page.settle()
    saved(page)
    same("it is a collection of one feature", path.read_text(), """{"type":"FeatureCollection","name":"features","features":[
{"type":"Feature","properties":null,"geometry":{"type":"Polygon","coordinates":[[[0,0],[900000000000,0],[900000000000,900000000000],[0,900000000000],[0,0]]]}}
]}
""")
