#!/usr/bin/env python3
"""Draws the pictures of docs/EDITING.md anew: colours and a selected feature, a refused edit, overlaps and gaps."""
import pathlib
import shutil
import sys

sys.path.insert(0, str(pathlib.Path(__file__).resolve().parent))

from browser import Page, TOP, new_folder, start_browser

PICTURES = TOP / "docs/pictures"
COLOUR = "const s = document.getElementById('colourBy'); s.value = arguments[0]; s.dispatchEvent(new Event('change'))"


def edit_page(page):
    page.js(COLOUR, "=INC")
    page.js("editor.select([20])")
    page.later("editor.edit('rename 20 \"Riverside\"')")
    page.js("document.activeElement.blur()")
    page.shot(PICTURES / "edit_page.png")
    page.js(COLOUR, "")
    page.js("editor.select([])")


def edit_refused(page):
    corner = [532622, 382902]
    page.go(*corner, 0.004)
    at = page.screen(*corner)
    page.drag(at, (at[0] + 200, at[1] + 3))
    page.js("document.activeElement.blur()")
    page.shot(PICTURES / "edit_refused.png")


def mend(page):
    """Mends a map that does not open."""
    page.load("!document.getElementById('mending').hidden")
    page.element("mend").click()
    page.wait("document.getElementById('ask').open")
    page.element("askYes").click()
    page.settle()


def edit_cover(page):
    page.keys("o")
    page.element("look").click()
    page.wait("!covering.isLooking")
    page.settle()
    as_proved(page)
    page.js("editor.view.fit([700, 740, 1460, 960]); document.activeElement.blur()")
    page.shot(PICTURES / "edit_cover.png")


def as_proved(page):
    """Pictures show what a user of proved programs sees, whatever was built here."""
    page.js("document.getElementById('unproved').hidden = true")


def with_map(driver, folder, name, *draws):
    """Draws pictures of the page of an example."""
    page = Page(driver, shutil.copy(TOP / "examples" / name, folder / name))
    try:
        for draw in draws:
            draw(page)
    finally:
        page.end()


def main():
    folder = new_folder()
    driver = start_browser(str(folder), (1280, 887))
    try:
        with_map(driver, folder, "columbus.json", Page.load, as_proved, edit_page, edit_refused)
        with_map(driver, folder, "wards.json", mend, edit_cover)
    finally:
        driver.quit()
        shutil.rmtree(folder, ignore_errors=True)


if __name__ == "__main__":
    main()
