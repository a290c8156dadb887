"""Tries inner edits of a crate together: edits of different functions in one check, as bench/edits.py --together asks.

A check with --allow-holes goes on past what is not proved, and has a line for each function. An edit is refused where
the line of its function says that it isn't proved, by its own clauses and not by those of a function that it calls. So
a check is shared by as many edits as stand in different functions. Where a function calls one that another edit has
spoilt, its own edit is told by a further check without that one. What can't be told so is left to a try of its own.
"""
import collections
import re
import subprocess

FUNCTION = re.compile(r"\bfn (\w+)")
LINE = re.compile(r"fn (\S+): (.*)")
FAULT = re.compile(r"(src/\S+?):(\d+):\d+: error")
# What a check says of a function with nothing against it, and of one whose proof stands on one that has none.
PROVED, BY_ANOTHER = ("no holes", "proved"), "it calls `"
# What it says of one that is not proved, and the proof that it names then.
NOT_PROVED, CITED = ("not proved", "no proof"), re.compile(r"it stands on `([^`]*)`")

# A change of a file, and where it stands: the module's path and the function's name.
Change = collections.namedtuple("Change", "file old new place")


def module_of(file):
    """The path of the module that a file of src/ has."""
    name = file.removeprefix("src/").removesuffix(".rt").removesuffix("/mod")
    return "" if name in ("lib", "main") else name.replace("/", "::")


def function_at(text, at):
    """The name of the function in whose body a place of the text is."""
    return next((found[1] for found in reversed(list(FUNCTION.finditer(text, 0, at)))), None)


def changes_of(edit, sources):
    """The changes that an edit makes, or None where it has another form or its text does not stand there once."""
    file, old, changes = None, None, []
    for line in edit.read_text().splitlines():
        word, _, rest = line.partition(": ")
        if word == "file":
            file = rest
        elif word == "old":
            old = rest
        elif word == "new" and file in sources and sources[file].count(old) == 1:
            place = module_of(file), function_at(sources[file], sources[file].index(old))
            changes.append(Change(file, old, rest, place))
        elif line.strip():
            return None
    return changes or None


def in_rounds(edits):
    """The edits by rounds: in one round no two stand in functions of one name and module."""
    rounds = []
    for name, changes in edits.items():
        places = {change.place for change in changes}
        found = next((names for names, taken in rounds if not taken & places), None)
        if found is None:
            rounds.append(([name], set(places)))
        else:
            found.append(name)
            next(taken for names, taken in rounds if names is found).update(places)
    return [names for names, _ in rounds]


def edited(edits, names, sources):
    """The sources with these edits, and the lines that each changed."""
    texts, lines = dict(sources), {}
    for name in names:
        for change in edits[name]:
            before = texts[change.file]
            if before.count(change.old) != 1:
                return None
            lines[change.file, before[:before.index(change.old)].count("\n") + 1] = name
            texts[change.file] = before.replace(change.old, change.new)
    return texts, lines


def said_of(output):
    """What a check says of each function, by its whole name."""
    return {found[1]: found[2] for line in output.splitlines() if (found := LINE.fullmatch(line))}


def said_at(crate, place, said):
    """What a check says of the functions of this name in a module."""
    module, function = place
    front = f"{crate}::{module}::" if module else f"{crate}::"
    return [text for name, text in said.items() if name.startswith(front) and name.endswith(f"::{function}")]


def is_own(function, text):
    """Whether the proof that is refused, where one is named, is that of the function."""
    return all(function in cited.split(".") for cited in CITED.findall(text))


def verdict_of(crate, changes, said):
    """What a check says of an edit: that it is refused, that it is not, or None where it does not tell."""
    verdicts = set()
    for change in changes:
        texts = said_at(crate, change.place, said)
        own = [text for text in texts if not text.startswith(PROVED) and BY_ANOTHER not in text]
        if any(text.startswith(NOT_PROVED) and is_own(change.place[1], text) for text in own):
            return "refused"
        verdicts.add(bool(texts) and all(text.startswith(PROVED) for text in texts))
    return "NOT REFUSED" if verdicts == {True} else None


def check(folder):
    command = ["rt", "check", "--allow-holes"]
    return subprocess.run(command, cwd=folder, stdout=subprocess.PIPE, stderr=subprocess.STDOUT, text=True).stdout


def write(folder, texts):
    for file, text in texts.items():
        path = folder / file
        if path.read_text() != text:
            path.write_text(text)


def try_round(crate, folder, edits, names, sources):
    """What comes of a round: a verdict for each edit of which the check tells one."""
    names, found = list(names), {}
    while names:
        made = edited(edits, names, sources)
        if made is None:
            return found
        texts, lines = made
        write(folder, texts)
        try:
            output = check(folder)
        finally:
            write(folder, sources)
        said = said_of(output)
        if said:
            told = {name: verdict_of(crate, edits[name], said) for name in names}
            for name in [name for name in names if not told[name]]:
                print(f"{name}: {[said_at(crate, change.place, said) for change in edits[name]]}")
            return found | {name: verdict for name, verdict in told.items() if verdict}
        faults = {lines[at] for fault in FAULT.finditer(output) if (at := (fault[1], int(fault[2]))) in lines}
        if not faults:
            return found
        found |= {name: "BAD EDIT" for name in faults}
        names = [name for name in names if name not in faults]
    return found


def told_in_passes(edits, try_names):
    """The verdicts of edits that are tried by rounds, and those that a pass did not tell in a further one, without
    what is told by then, until a pass tells nothing. `try_names` tries the edits of a round."""
    found, told = {}, True
    while told:
        left, told = {name: changes for name, changes in edits.items() if name not in found}, {}
        for names in in_rounds(left):
            told |= try_names(left, names)
            for name in names:
                print(f"{name}: {told.get(name, 'not told')}", flush=True)
        found |= told
    return found


def tried(crate, folder, names):
    """The verdicts of edits of a crate in a copy, tried together; those that are missing need a try of their own."""
    sources = {str(path.relative_to(folder)): path.read_text() for path in (folder / "src").rglob("*.rt")}
    edits = {name: changes_of(folder / "inner-edits" / f"{name}.edit", sources) for name in names}
    return told_in_passes({name: changes for name, changes in edits.items() if changes},
                          lambda left, names: try_round(crate, folder, left, names, sources))
