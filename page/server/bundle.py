"""All modules of the page in one text, which is made when it is asked for: a browser that asks for each by itself takes
longer than it needs to read them.

Each module becomes a function that is called once, and gives what the module exports. So names of one module are none of
another's, as in modules.
"""
import re

# Lines of a module: what it takes of another one, what it passes on, and what it gives itself.
IMPORT = re.compile(r'import \{ (.*) \} from "\./([a-z]+\.js)";')
PASSED_ON = re.compile(r'export \{ (.*) \} from "\./([a-z]+\.js)";')
EXPORT = re.compile(r"export ((?:async )?(?:const|class|function\*?) (\w+).*)")


class Bundle:
    """The text of a module and of all that it needs. Modules that stay apart are asked for by themselves."""

    def __init__(self, folder, apart):
        self.folder, self.apart = folder, apart
        self.rows = ["// the modules of the page, one after the other", "const given = {};"]
        # whether a module is in the text already, or on its way into it
        self.taken = {}

    def take(self, name):
        """Adds a module behind those that it needs."""
        if name in self.taken:
            if not self.taken[name]:
                raise ValueError(f"{name} needs a module that needs it")
            return
        self.taken[name] = False
        if name in self.apart:
            self.rows.insert(0, f'import * as {name[:-3]} from "./{name}";')
            self.rows.append(f'given["{name}"] = {name[:-3]};')
        else:
            self._take_function((self.folder / name).read_text(encoding="utf-8").split("\n"), name)
        self.taken[name] = True

    def _take_function(self, lines, name):
        """Adds a module as a function. Those that it needs come before it."""
        rows, gives = [f'given["{name}"] = (() => {{'], []
        for line in lines:
            if line.startswith(("import ", "export ")):
                line = self._replaced(line, gives)
            rows.append(line)
        self.rows += [*rows, f'return {{ {", ".join(gives)} }};', "})();"]

    def _replaced(self, line, gives):
        """What stands in a function for a line that takes or gives something."""
        if found := IMPORT.fullmatch(line):
            self.take(found[2])
            return f'const {{ {found[1].replace(" as ", ": ")} }} = given["{found[2]}"];'
        if found := PASSED_ON.fullmatch(line):
            self.take(found[2])
            gives += [f'{each}: given["{found[2]}"].{each}' for each in found[1].split(", ")]
            return ""
        if found := EXPORT.fullmatch(line):
            gives.append(found[2])
            return found[1]
        raise ValueError(line)


def bundled(folder, name, apart):
    """The text of a module and of all that it needs, but for those that stay apart."""
    bundle = Bundle(folder, apart)
    bundle.take(name)
    return "\n".join(bundle.rows) + "\n"
