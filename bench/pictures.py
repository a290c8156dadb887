#!/usr/bin/env python3
"""Makes the pictures of docs/pictures from the examples, and draws maps with hostile ids.

The pictures are made by the built programs border_edit, border_show and border_mend (`rt ci` leaves
them); others can be named. Then `--maps N` maps with drawn ids are drawn too, alone and as what an edit did. Each
picture has to be well-formed XML with whole numbers alone, in which each feature's title is its number
and what a model here makes of its id, the page that the second drawing of drawn.py makes, and the same bytes again when it
is drawn again. Of every third map a square is drawn. Maps of so many positions that a pixel has fewer parts, one of them with
islands that are dots, and an edit are compared with the second drawing too. Damaged, deep and huge maps have to end with
the fault that border_edit has for them, or, where it names a conflict, with a picture that names it. There is one line for
each that is wrong; the status is 0 where none is.

`--stored` prints the page of the stored run of border_show, as the second drawing makes it.
`MAP..` and `--change BEFORE AFTER` compare the pictures of these files alone with the second drawing, byte for byte, and
make no other: maps that open, whose ids are strings or numbers.
"""
import argparse
import json
import os
import pathlib
import random
import re
import subprocess
import sys
import tempfile
import xml.dom.minidom

import drawn
import maps

TOP = pathlib.Path(__file__).resolve().parent.parent
EXAMPLES = TOP / "examples"
PICTURES = TOP / "docs/pictures"
STORED = TOP / "crates/border_show/data"

# What is done to the map of Columbus.
COLUMBUS = r"""move 532622 382902 545000 395000
rename 5 "<five> & \"5\""
merge 30 35
delete 9
"""

# Pieces of ids: markup, what XML forbids, directions, other scripts, and halves of characters.
PIECES = ["<", "&", ">", "\"", "'", "]]>", "<![CDATA[", "&lt;", "&#0;", "<!--", "-->", "?>", "</text>", "\0",
          "\x01", "\x08", "\t", "\n", "\r", "\x0b", "\x1f", "\x7f", "\x85", "\u200f", "\u202e", "\u2066", "\u2028",
          "\ufdd0", "\ufffe", "\uffff", "\ufffd", "\u05d0\u05d1", "\u0627\u0644", "e\u0301", "\U0001f600",
          "\U0001ffff", "\U0010ffff", "\ud800", "\udfff", "\\u0041", "a", "Z", "0", " ", "\\"]

# Values that are no string: they are shown as they stand.
VALUES = ["0", "-12", "1.50", "1e9", "null", "true", "[]", "{\"<\":\"&\"}", "[1,[2,\"'\"]]"]

MOST_BYTES = 48


def run(program, *words, status=0):
    ran = subprocess.run([program, *map(str, words)], stdout=subprocess.PIPE, stderr=subprocess.PIPE, timeout=60)
    if ran.returncode != status:
        raise SystemExit(f"{program}: status {ran.returncode}, and not {status}: {ran.stderr.decode()}")


def make_tutorial(edit, show, mend, folder):
    """The map of docs/TUTORIAL.md, and what its scripts do to it."""
    maps = [folder / f"step{number}.json" for number in range(5)]
    run(mend, EXAMPLES / "somerville.json", "--digits", 4, "--out", maps[0])
    for (script, status), before, after in zip([("corner", 0), ("refused", 1), ("parts", 1), ("thin", 0)], maps, maps[1:]):
        run(edit, before, EXAMPLES / "tutorial" / f"{script}.txt", "--out", after, status=status)
    run(show, maps[0], "--ids", "--out", PICTURES / "somerville.svg")
    run(show, maps[0], maps[-1], "--ids", "--out", PICTURES / "somerville_change.svg")


def make_pictures(edit, show, mend):
    """The pictures of docs/pictures that the programs draw."""
    PICTURES.mkdir(exist_ok=True)
    with tempfile.TemporaryDirectory() as name:
        folder = pathlib.Path(name)
        before, after = EXAMPLES / "columbus.json", folder / "columbus.json"
        (folder / "script.txt").write_text(COLUMBUS)
        run(edit, before, folder / "script.txt", "--out", after)
        run(show, before, after, "--ids", "--out", PICTURES / "columbus_change.svg")
        make_tutorial(edit, show, mend, folder)
        crossed = (EXAMPLES / "squares.json").read_text().replace("[10,10]", "[-5,15]", 1)
        crossed = crossed.replace("[[10,10],[0,10]", "[[-5,15],[0,10]").replace("[20,10],[10,10]", "[20,10],[-5,15]")
        (folder / "crossed.json").write_text(crossed)
        run(show, folder / "crossed.json", "--out", PICTURES / "conflict.svg")


def drawn_id(draw):
    """The text of an id as it stands in a map."""
    if draw.random() < 0.1:
        return draw.choice(VALUES)
    text = "".join(draw.choice(PIECES) for _ in range(draw.randrange(40)))
    return json.dumps(text, ensure_ascii=draw.random() < 0.5 or bool(re.search("[\ud800-\udfff]", text)))


def shown(token):
    """What is shown of an id, as a reader of XML gives it back."""
    text = token
    if token.startswith('"'):
        text = json.loads(token)
        if re.search("[\ud800-\udfff]", text):
            text = token[1:-1]
    bytes_ = text.encode()
    if len(bytes_) > MOST_BYTES:
        text = bytes_[:MOST_BYTES].decode(errors="ignore") + "\u2026"
    return drawn.FORBIDDEN.sub("\ufffd", text)


def drawn_map(draw, ids):
    """The text of a map with a triangle for each id."""
    arcs, features = [], []
    for number, token in enumerate(ids):
        x, y, size = draw.randrange(-50, 50), number * 40, draw.randrange(1, 30)
        arcs.append([[x, y], [x + size, y], [x, y + size], [x, y]])
        features.append('{"type":"Polygon","id":%s,"arcs":[[%d]]}' % (token, number))
    body = '{"type":"GeometryCollection","geometries":[%s]}' % ",".join(features)
    return '{"type":"Topology","objects":{"a":%s},"arcs":%s}' % (body, json.dumps(arcs))


def is_whole(element):
    """Whether all numbers in the attributes of an element and of those inside are whole."""
    values = [element.getAttribute(name) for name in ("x", "y", "width", "height", "viewBox", "d", "cx", "cy", "r",
                                                      "transform", "stroke-width", "stroke-dasharray")]
    inside = [child for child in element.childNodes if child.nodeType == child.ELEMENT_NODE]
    return not any(re.search(r"[.eE]", value.replace("scale", "").replace("translate", "")) for value in values) \
        and all(map(is_whole, inside))


def fault_of(bytes_, ids):
    """What is wrong with a picture, or None."""
    try:
        root = xml.dom.minidom.parseString(bytes_).documentElement
    except Exception as error:
        return f"not well-formed: {error}"
    if not is_whole(root):
        return "a number is not whole"
    titles = ["".join(node.data for node in title.childNodes) for title in root.getElementsByTagName("title")]
    wanted = [f"#{number} {shown(token)}" for number, token in enumerate(ids)]
    return None if titles == wanted else f"titles {titles!r}, and not {wanted!r}"


def second_page(folder, maps, ids, at):
    """The page of a map, or of an edit, or of a square of it, as the second drawing makes it."""
    topologies = [drawn.read(folder / each) for each in maps]
    names = [shown(token) for token in ids]
    if len(maps) == 1:
        return drawn.map_page(maps[0], topologies[0], True, names, at).encode()
    return drawn.change_page(" \u2192 ".join(maps), *topologies, True, (names[1:], names), at).encode()


def stored_page():
    """The page of the stored run of border_show."""
    maps = ["before.json", "after.json"]
    return drawn.change_page(" \u2192 ".join(maps), *(drawn.read(STORED / each) for each in maps), True).encode()


def draw_maps(show, count, seed):
    """How many of so many drawn pictures are wrong."""
    draw, wrong = random.Random(seed), 0
    with tempfile.TemporaryDirectory() as name:
        folder = pathlib.Path(name)
        for number in range(count):
            ids = [drawn_id(draw) for _ in range(draw.randrange(1, 6))]
            (folder / "map.json").write_text(drawn_map(draw, ids), encoding="utf-8")
            (folder / "before.json").write_text(drawn_map(draw, ids[1:]), encoding="utf-8")
            maps = ["map.json"] if number % 2 else ["before.json", "map.json"]
            at = (draw.randrange(-60, 80), draw.randrange(240), draw.randrange(1, 200)) if number % 3 == 0 else None
            words = ["--at", *at] if at else []
            bytes_ = []
            for out in "one.svg", "two.svg":
                run(show, *(folder / each for each in maps), "--ids", *words, "--out", folder / out)
                bytes_.append((folder / out).read_bytes())
            fault = None if at else fault_of(bytes_[0], ids)
            fault = fault or (None if bytes_[0] == bytes_[1] else "drawn again it differs")
            fault = fault or (None if bytes_[0] == second_page(folder, maps, ids, at) else "the second drawing has another page")
            if fault:
                wrong += 1
                print(f"map {number}: {fault}")
    return wrong


def first_difference(one, other):
    """Where two pages differ first, in words."""
    lines = zip(one.decode().split("\n"), other.decode().split("\n"))
    return next((f"line {n}: {a[:200]!r}, and not {b[:200]!r}" for n, (a, b) in enumerate(lines, 1) if a != b), "its end")


def compare_files(show, drawings):
    """How many of the pictures of these files, a map or one before and one after an edit each, are another page than the second
    drawing's."""
    wrong = 0
    with tempfile.TemporaryDirectory() as name:
        for files in drawings:
            run(show, *files, "--ids", "--out", pathlib.Path(name) / "map.svg")
            page, topologies = (pathlib.Path(name) / "map.svg").read_bytes(), [drawn.read(file) for file in files]
            title = " \u2192 ".join(os.path.basename(file) for file in files)
            make = drawn.map_page if len(files) == 1 else drawn.change_page
            second = make(title, *topologies, True).encode()
            wrong += page != second
            features, paths = len(drawn.features_of(topologies[-1])), page.count(b"<title>")
            print(f"{title}: {features} features, {paths} drawn, {len(page):,} bytes: "
                  + ("the same page" if page == second else first_difference(page, second)), flush=True)
    return wrong


def compare_large(edit, show, seed):
    """How many of the pictures of maps that are drawn coarser are another page than the second drawing's."""
    with tempfile.TemporaryDirectory() as name:
        folder = pathlib.Path(name)
        for kind in "bricks", "mixed":
            maps.make_map(folder / f"{kind}.json", kind, 15_000, seed)
        (folder / "script.txt").write_text("delete 3\nmerge 100 101\n")
        run(edit, folder / "bricks.json", folder / "script.txt", "--out", folder / "after.json")
        drawings = [["bricks.json"], ["mixed.json"], ["bricks.json", "after.json"]]
        return compare_files(show, [[folder / each for each in files] for files in drawings])


def hostile_maps(draw):
    """Maps that are damaged, deep or huge, and one with a conflict."""
    whole = (EXAMPLES / "squares.json").read_bytes()
    yield b""
    yield b"[" * 200
    deep = b'{"type":"GeometryCollection","geometries":[' * 200 + b"]}" * 200
    yield b'{"type":"Topology","objects":{"a":' + deep + b'},"arcs":[]}'
    yield b" " * 67_108_865
    yield whole + b" " * (67_108_864 - len(whole))
    yield whole.replace(b"[10,10]", b"[-5,15]").replace(b"[0,10]", b"[25,5]")
    for _ in range(200):
        at = draw.randrange(len(whole))
        yield whole[:at]
        yield whole[:at] + bytes([draw.randrange(256)]) + whole[at + 1:]


def ending(program, *words):
    ran = subprocess.run([program, *map(str, words)], stdout=subprocess.PIPE, stderr=subprocess.PIPE, timeout=60)
    return ran.returncode, ran.stderr.decode()


def draw_hostile(edit, show, seed):
    """How many of the hostile maps do not end as in the editor."""
    wrong = 0
    with tempfile.TemporaryDirectory() as name:
        folder = pathlib.Path(name)
        (folder / "none.txt").write_text("")
        for number, bytes_ in enumerate(hostile_maps(random.Random(seed))):
            (folder / "map.json").write_bytes(bytes_)
            edited = ending(edit, folder / "map.json", folder / "none.txt", "--out", folder / "saved.json")
            shown_ = ending(show, folder / "map.json", "--out", folder / "map.svg")
            conflict = edited[1].startswith("open: conflict ")
            if shown_ != ((0, "") if conflict else edited):
                wrong += 1
                print(f"hostile map {number}: {shown_}, and not {edited}")
            elif conflict and edited[1][len("open: "):].strip() not in (folder / "map.svg").read_text():
                wrong += 1
                print(f"hostile map {number}: the conflict is not named")
    return wrong


def main():
    words = argparse.ArgumentParser(description=__doc__.split("\n", 1)[0])
    words.add_argument("map", nargs="*", help="a map whose picture is compared with the second drawing")
    words.add_argument("--change", nargs=2, action="append", default=[], metavar=("BEFORE", "AFTER"),
                       help="maps before and after an edit whose picture is compared")
    words.add_argument("--edit", default=str(TOP / "crates/border_edit/out/border_edit"))
    words.add_argument("--show", default=str(TOP / "crates/border_show/out/border_show"))
    words.add_argument("--mend", default=str(TOP / "crates/border_mend/out/border_mend"))
    words.add_argument("--maps", type=int, default=0, help="how many maps with hostile ids are drawn")
    words.add_argument("--seed", type=int, default=1)
    words.add_argument("--no-pictures", action="store_true", help="leaves docs/pictures as it is")
    words.add_argument("--stored", action="store_true", help="prints the stored page of border_show, and ends")
    asked = words.parse_args()
    if asked.stored:
        sys.stdout.buffer.write(stored_page())
        return 0
    edit, show = os.path.abspath(asked.edit), os.path.abspath(asked.show)
    if asked.map or asked.change:
        drawings = [[each] for each in asked.map] + asked.change
        wrong = compare_files(show, drawings)
        print(f"{len(drawings)} pictures, {wrong} faults")
        return 1 if wrong else 0
    if not asked.no_pictures:
        make_pictures(edit, show, os.path.abspath(asked.mend))
    wrong = draw_maps(show, asked.maps, asked.seed)
    if asked.maps:
        wrong += compare_large(edit, show, asked.seed) + draw_hostile(edit, show, asked.seed)
    for picture in sorted(PICTURES.glob("*.svg")) if not asked.no_pictures else []:
        root = xml.dom.minidom.parse(str(picture)).documentElement
        if not is_whole(root):
            wrong += 1
            print(f"{picture}: a number is not whole")
    print(f"{asked.maps} drawn maps, {wrong} faults")
    return 1 if wrong else 0


if __name__ == "__main__":
    sys.exit(main())
