"""Writing FILE: whole or not at all, and not over what others wrote."""
import contextlib
import json
import os
import resource
import subprocess
from unittest import mock

from server_maps import SQUARES, of_squares
from server_runs import Served, folder

import finding
import saving
import session

NEWER = "of another program"


def ids(path):
    """The ids of the features of a map."""
    return [shape["id"] for shape in json.loads(path.read_bytes())["objects"]["land"]["geometries"]]


def others(path):
    """What stands beside a file."""
    return sorted(set(os.listdir(path.parent)) - {path.name})


def over_the_map(checks):
    """MAP itself is saved over: what it held first stays as FILE.orig, and so does its mode."""
    with folder() as files:
        path = files / "map.json"
        path.write_text(SQUARES)
        path.chmod(0o640)
        with Served(path) as page:
            page.begin()
            page.edit('rename 0 "x"')
            checks.same("before", (path.read_text(), others(path)), (SQUARES, []))
            status, said = page.post("save")
            checks.same("saved", (status, said), (200, {"bytes": len(SQUARES), "file": str(path)}))
            checks.same("what it holds", path.read_text(), SQUARES.replace('"A"', '"x"'))
            checks.same("beside it", (others(path), (files / "map.json.orig").read_text()),
                        (["map.json.orig"], SQUARES))
            checks.same("modes", [oct(each.stat().st_mode & 0o777) for each in (path, files / "map.json.orig")],
                        ["0o640", "0o640"])
            page.edit('rename 0 "y"')
            checks.same("saved again", page.post("save")[0], 200)
            checks.same("the first one stays", (ids(path), (files / "map.json.orig").read_text()),
                        (["y", "B"], SQUARES))
            page.edit("undo", "undo")
            page.post("save")
            checks.same("all undone", path.read_text(), SQUARES)
        with Served(path) as page:
            page.begin()
            page.edit('rename 1 "z"')
            page.post("save")
            checks.same("of a second session too", (ids(path), (files / "map.json.orig").read_text()),
                        (["A", "z"], SQUARES))


def another_file(checks):
    """FILE is another one: a new one, one that is there, and one behind a symbolic link."""
    with folder() as files:
        (files / "map.json").write_text(SQUARES)
        (files / "out").mkdir()
        out = files / "out/new.json"
        with Served(files / "map.json", "--out", out) as page:
            page.begin()
            for identity in ("x", "y"):
                page.edit(f'rename 0 "{identity}"')
                checks.same(f"saved {identity}", (page.post("save")[0], ids(out), others(out)),
                            (200, [identity, "B"], []))
            checks.same("its mode", oct(out.stat().st_mode & 0o777), oct(0o666 & ~saving.UMASK))
            checks.same("MAP is as it was", (files / "map.json").read_text(), SQUARES)
        out.write_text("before")
        (files / "link.json").symlink_to(out)
        with Served(files / "map.json", "--out", files / "link.json") as page:
            checks.same("the file behind a link", page.begin()["out"], str(out))
            page.edit('rename 0 "x"')
            page.post("save")
            checks.same("is written", ((files / "link.json").is_symlink(), ids(out),
                                       (files / "out/new.json.orig").read_text()),
                        (True, ["x", "B"], "before"))


def changed_by_others(checks):
    """Another program has written FILE, or taken it away: the user is asked first."""
    with folder() as files:
        path = files / "map.json"
        for name, change in [("written", lambda: path.write_text(NEWER)), ("taken away", path.unlink)]:
            path.write_text(SQUARES)
            (files / "map.json.orig").unlink(missing_ok=True)
            with Served(path) as page:
                page.begin()
                page.edit('rename 0 "x"')
                change()
                status, said = page.post("save")
                checks.same(f"{name} before the first save",
                            (status, said["force"], path.exists() and path.read_text()),
                            (409, True, NEWER if name == "written" else False))
                checks.same("with force", (page.post("save", force=True)[0], ids(path)), (200, ["x", "B"]))
                checks.same("what it held is kept", others(path), ["map.json.orig"] if name == "written" else [])
                page.edit('rename 0 "y"')
                change()
                checks.same(f"{name} after it", page.post("save")[0], 409)
                for force in (False, None, 1, "true"):
                    checks.same(f"force is {force!r}", page.post("save", force=force)[0], 409)
                checks.same("with force again", (page.post("save", force=True)[0], ids(path)), (200, ["y", "B"]))
                checks.same("then without", page.post("save")[0], 200)


def too_large(checks):
    """What is saved could not be opened again: the user is asked first."""
    with folder() as files, mock.patch("session.MOST_BYTES", len(SQUARES)):
        path = files / "map.json"
        path.write_text(SQUARES)
        edited = session.Session(finding.Programs(), path, path)
        edited.open()
        edited.edit(1, ['rename 0 "x"'])
        checks.same("as large as may be", edited.save(False), len(SQUARES))
        edited.edit(2, ['rename 0 "xy"'])
        try:
            told = edited.save(False)
        except session.Refusal as refusal:
            told = (refusal.force, "can't be opened again" in str(refusal))
        checks.same("a byte more", (told, ids(path)), ((True, True), ["x", "B"]))
        checks.same("with force", (edited.save(True), ids(path)), (len(SQUARES) + 1, ["xy", "B"]))
        edited.end()


def no_folder(checks):
    """The folder of FILE is gone, or FILE is a folder: saving is refused, and work goes on."""
    with folder() as files:
        (files / "map.json").write_text(SQUARES)
        (files / "out").mkdir()
        out = files / "out/new.json"
        with Served(files / "map.json", "--out", out) as page:
            page.begin()
            page.edit('rename 0 "x"')
            page.post("save")
            page.edit('rename 0 "y"')
            (files / "out").rename(files / "gone")
            status, said = page.post("save", force=True)
            checks.same("no folder", (status, said), (409,
                                                      {"reason": f"there is no folder {out.parent}", "force": False}))
            checks.same("unsaved", page.begin()["unsaved"], True)
            (files / "gone").rename(files / "out")
            checks.same("FILE is as it was", ids(out), ["x", "B"])
            out.unlink()
            out.mkdir()
            checks.same("a folder", page.post("save", force=True),
                        (409, {"reason": f"{out} is no file", "force": False}))
            out.rmdir()
            checks.same("then saved", (page.post("save", force=True)[0], ids(out)), (200, ["y", "B"]))


@contextlib.contextmanager
def small_disk(path):
    """A disk of 64 KiB; false where the system lets us mount none."""
    path.mkdir()
    mounted = subprocess.run(["mount", "-t", "tmpfs", "-o", "size=64k", "tmpfs", path],
                             capture_output=True).returncode == 0
    try:
        yield mounted
    finally:
        if mounted:
            subprocess.run(["umount", "--lazy", path], check=True)


def full_disk(checks):
    """The disk of FILE is full: saving is refused, FILE is as it was, and work goes on."""
    big = of_squares([('"A"', '"' + "x" * 30_000 + '"')])
    with folder() as files, small_disk(files / "disk") as is_mounted:
        path, kept = files / "disk/map.json", files / "disk/map.json.orig"
        path.write_text(big)
        with Served(path) as page:
            page.begin()
            page.edit('rename 0 "y"')
            reason = fill(page, files / "disk", is_mounted)
            for name in ("FILE.orig", "FILE"):
                if name == "FILE":
                    # now there is room for the first one of two files of 30,000 bytes
                    (files / "disk/full").unlink(missing_ok=True)
                    kept.write_text(big)
                for force in (False, True):
                    status, said = page.post("save", force=force)
                    checks.same(f"no room for {name}", (status, said),
                                (409, {"reason": f"{path} can't be written: {reason}", "force": False}))
                    checks.same("FILE is as it was", path.read_text(), big)
                    checks.same("nothing is left beside it", sorted(set(others(path)) - {"full", kept.name}), [])
            checks.same("FILE.orig is there, whole", kept.read_text(), big)
            checks.same("edits go on", (page.edit('rename 0 "z"'), page.begin()["unsaved"]), ((["ok"], True), True))
            if is_mounted:
                subprocess.run(["mount", "-o", "remount,size=256k", files / "disk"], check=True)
            else:
                resource.prlimit(page.process.pid, resource.RLIMIT_FSIZE,
                                 (resource.RLIM_INFINITY, resource.RLIM_INFINITY))
            checks.same("then saved", (page.post("save")[0], ids(path), kept.read_text()), (200, ["z"], big))


def fill(page, disk, is_mounted):
    """Leaves no room for 30,000 bytes: why no more can be written."""
    if is_mounted:
        (disk / "full").write_bytes(b"x" * 20_000)
        return "No space left on device"
    resource.prlimit(page.process.pid, resource.RLIMIT_FSIZE, (20_000, resource.RLIM_INFINITY))
    return "File too large"


def in_order(checks):
    """The new file is on the disk before it takes the place of the old one, and the folder is after it."""
    with folder() as files:
        path, done = files / "out.json", []
        path.write_text("before")
        tell = lambda name: lambda handle, *_: done.append((name, path.read_text()))
        with mock.patch("os.fsync", side_effect=tell("fsync")), mock.patch("os.replace", wraps=os.replace,
                                                                           side_effect=None) as replaced:
            saving.replace(path, [b"af", b"ter"])
            done.append(("replaced", path.read_text(), replaced.call_count))
            saving.sync_folder(files)
        checks.same("order", done, [("fsync", "before"), ("replaced", "after", 1), ("fsync", "after")])

        def cut_off():
            yield b"half"
            raise OSError(5, "Input/output error")
        for name, rows in [("while it is written", cut_off()), ("at its end", [b"all"])]:
            with mock.patch("os.fsync", side_effect=OSError(5, "Input/output error")):
                with contextlib.suppress(OSError):
                    saving.replace(path, rows)
            checks.same(f"a fault {name}", (path.read_text(), others(path)), ("after", []))
        with mock.patch("os.fsync", side_effect=OSError(22, "Invalid argument")):
            checks.same("a folder that has no fsync", saving.sync_folder(files), None)
        with mock.patch("os.fsync", side_effect=OSError(5, "Input/output error")):
            try:
                told = saving.sync_folder(files)
            except OSError as fault:
                told = fault.strerror
        checks.same("a folder whose fsync fails", told, "Input/output error")


def long_names(checks):
    """A file whose name is as long as names may be is saved too."""
    with folder() as files:
        out = files / ("x" * 245 + ".json")
        (files / "map.json").write_text(SQUARES)
        with Served(files / "map.json", "--out", out) as page:
            page.begin()
            checks.same("250 letters", (page.post("save")[0], out.read_text()), (200, SQUARES))


GROUPS = [over_the_map, another_file, changed_by_others, too_large, no_folder, full_disk, in_order, long_names]
