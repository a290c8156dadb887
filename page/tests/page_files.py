"""Files and tabs: the underlay, saving, downloads, two tabs, a server that is gone; and maps that do not open."""
import pathlib
import subprocess
import sys

sys.path.insert(1, str(pathlib.Path(__file__).resolve().parents[1]))

from browser import By, Keys
from page_checks import act_of, document, is_map, put, same, true, verbs
import programs

BORDER_EDIT = programs.find("border_edit")[0]


def saved_by_program(page, map_path, folder):
    """What border_edit makes of the page's script, and what it answers."""
    script = folder / "script.txt"
    script.write_text(page.later("editor.talk.text('script')"))
    out = folder / "again.json"
    command = [BORDER_EDIT, map_path, script, "--out", out, "--undo", "1000"]
    done = subprocess.run(command, capture_output=True, text=True)
    return done, out.read_bytes() if out.exists() else None


def test_underlay(page, folder):
    """A file is drawn below the map, and taken away again."""
    line = {"type": "LineString", "coordinates": [[8, 11], [11, 14]]}
    page.element("underlayFile").send_keys(str(put(folder, "line.geojson", line)))
    page.wait("editor.view.underlay.length === 1")
    same("a file lies below the map", page.text("underlay"), "Remove underlay")
    page.button("underlay")
    same("it is taken away", [page.text("underlay"), page.js("return editor.view.underlay.length")], ["Underlay…", 0])
    page.element("underlayFile").send_keys(str(put(folder, "none.geojson", "no")))
    page.wait("!document.getElementById('note').hidden")
    same("a file that is none", [page.text("underlay"), "none.geojson" in page.text("note")], ["Underlay…", True])
    page.keys(Keys.ESCAPE)


def unload_asks(page):
    return page.js("const event = new Event('beforeunload', {cancelable: true}); "
                   "window.dispatchEvent(event); return event.defaultPrevented")


def test_saving(page, map_path, out, folder):
    true("closing the tab with unsaved changes asks", unload_asks(page))
    page.keys(Keys.CONTROL, "s")
    page.wait("!editor.isUnsaved")
    same("the page says that all is saved", page.text("state"), "All changes saved")
    done, text = saved_by_program(page, map_path, folder)
    same("the script runs without a refusal", (done.returncode, "refused" in done.stdout), (0, False))
    true("the saved file is byte for byte what border_edit makes of the script", out.read_bytes() == text)
    true("closing the tab does not ask any more", not unload_asks(page))


def test_saving_troubles(page, out):
    """Another program changes the file, and the folder is gone."""
    out.write_bytes(out.read_bytes() + b"\n")
    page.js("editor.select([3])")
    page.later("editor.edit('rename 3 \"three\"')")
    page.button("save")
    page.wait("document.getElementById('ask').open")
    said = page.text("askText")
    true("a file that another program changed is asked for", "changed by another program" in said, said)
    page.button("askNo")
    true("“Cancel” leaves it", out.read_bytes().endswith(b"\n") and page.js("return editor.isUnsaved"))
    page.button("save")
    page.wait("document.getElementById('ask').open")
    page.button("askYes")
    page.wait("!editor.isUnsaved")
    true("“Save anyway” writes it", b'"three"' in out.read_bytes())
    page.later("editor.edit('rename 3 \"drei\"')")
    away = out.parent.with_name("away")
    out.parent.rename(away)
    page.button("save")
    page.wait("document.getElementById('note').className === ''")
    true("no folder: the page says that it is not saved", "Not saved" in page.text("note"), page.text("note"))
    true("and why", "there is no folder" in page.text("note"), page.text("note"))
    true("the changes stay unsaved", page.js("return editor.isUnsaved"))
    away.rename(out.parent)
    page.button("save")
    page.wait("!editor.isUnsaved")
    true("and saves it later", b'"drei"' in out.read_bytes())


def test_loading_again(page):
    features = page.js("return editor.model.order")
    page.load()
    same("loaded again, the page has the same features", page.js("return editor.model.order"), features)
    is_map(page, "loading again")
    page.keys(Keys.CONTROL, "z")
    same("undo goes on from before", verbs(act_of(page)), ["undo"])
    is_map(page, "undo from before")
    for _ in range(3):
        page.keys(Keys.CONTROL, "z")
    is_map(page, "undo of a thinning from before")


def test_downloads(page, downloads):
    page.button("script")
    page.button("download")
    page.wait("true")
    wanted = [downloads / "edits.txt", downloads / "out.json"]
    for _ in range(200):
        if all(path.exists() for path in wanted):
            break
        page.later("new Promise(done => setTimeout(done, 20))")
    true("Script and Download give files", all(path.exists() for path in wanted))
    true("the file is the map as it is", wanted[1].exists() and wanted[1].read_text() == document(page))


def test_two_tabs(page):
    first = page.driver.current_window_handle
    page.driver.switch_to.new_window("tab")
    page.load()
    second = page.driver.current_window_handle
    page.driver.switch_to.window(first)
    length = page.js("return editor.log.length")
    page.later("editor.edit('delete 0')")
    true("the older tab says that it is closed", "another tab" in page.text("note"), page.text("note"))
    same("and its edit is not made", page.js("return editor.log.length"), length)
    true("its buttons can't be used", page.js("return document.getElementById('cut').disabled"))
    true("it closes without asking", not unload_asks(page))
    page.driver.close()
    page.driver.switch_to.window(second)
    page.later("editor.edit('rename 1 \"newer\"')")
    same("the newer tab edits", page.last(), ('rename 1 "newer"', "ok"))


def test_server_gone(page):
    page.server.kill()
    page.server.wait()
    page.later("editor.edit('rename 1 \"late\"')")
    true("a server that is gone is said in words", "cannot be reached" in page.text("note"), page.text("note"))
    true("and what is drawn stays", page.js("return editor.model.features.size > 40"))


def files_and_tabs(page, map_path, out, folder, downloads):
    test_underlay(page, folder)
    test_saving(page, map_path, out, folder)
    test_saving_troubles(page, out)
    test_loading_again(page)
    test_downloads(page, downloads)
    # saving was refused three times, which the browser writes there
    same("nothing else is written on the console", [text for text in page.errors() if "/save" not in text], [])
    test_two_tabs(page)
    test_server_gone(page)


# ---- a map that does not open

def test_mending(page, out):
    page.load("!document.getElementById('mending').hidden")
    page.wait("document.getElementById('pictureImage').complete")
    true("the fault is said in words", "cross or lie on each other" in page.text("mendFault"), page.text("mendFault"))
    lines = page.js("return [...document.querySelectorAll('#findings code')].map(c => c.textContent)")
    findings = ["on 770 1130 / 760 860 780 1400", "cross 760 860 1400 840 / 960 870 1180 830"]
    same("all findings are listed", lines, findings)
    true("in words too", "The vertex 770 1130 lies on the border" in page.text("findings"))
    true("a picture is shown", page.js("return document.getElementById('pictureImage').naturalWidth") > 0)
    same("Mend has the focus", page.js("return document.activeElement.id"), "mend")
    page.driver.find_element(By.CSS_SELECTOR, "#findings li:nth-child(2) button").click()
    page.wait("document.getElementById('pictureImage').src.startsWith('blob:')")
    page.wait("document.getElementById('pictureImage').complete && document.getElementById('pictureImage').naturalWidth")
    true("a click on a finding shows its place", page.is_shown("pictureWhole"))
    page.element("pictureWhole").click()
    page.wait("document.getElementById('pictureImage').src.endsWith('/picture')")
    true("and the whole map again", not page.is_shown("pictureWhole"))
    page.js("document.getElementById('mend').focus()")
    page.chain().send_keys(Keys.ENTER).perform()
    page.wait("document.getElementById('ask').open")
    true("the report says what mending did", "has new vertices" in page.text("askReport"), page.text("askReport"))
    page.element("askYes").click()
    page.settle()
    state = page.js("return [editor.model.features.size, editor.isUnsaved]")
    same("the map is open, with unsaved changes", state, [4, True])
    is_map(page, "mending")
    page.keys(Keys.CONTROL, "s")
    page.wait("!editor.isUnsaved")
    command = [BORDER_EDIT, out, "-", "--out", out.with_suffix(".end")]
    done = subprocess.run(command, input="count\n", capture_output=True, text=True)
    true("the saved map opens", done.stdout.startswith("features 4 "), done.stderr)


def test_not_mendable(page):
    page.load("!document.getElementById('mending').hidden")
    true("a file that is no JSON: said in words", "not JSON" in page.text("mendFault"), page.text("mendFault"))
    true("there is nothing to mend", not page.is_shown("mendForm") and page.is_shown("mendNot"))
