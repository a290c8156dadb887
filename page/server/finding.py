"""The five programs. Each is found when it is needed first, since one that is not proved takes minutes to build."""
import programs


class Programs:
    """Paths of the programs, and whether they are proved."""

    def __init__(self):
        self.found, self.looked_for = {}, {}

    def look_for(self, name):
        """Begins to look for a program that is needed soon, once."""
        if name not in self.looked_for:
            self.looked_for[name] = programs.look_for(name)

    def begun(self, name):
        """The process that looks for a program, which may build it; nothing where the program is found."""
        if name in self.found:
            return None
        self.look_for(name)
        return self.looked_for[name]

    def path(self, name):
        """The path of a program."""
        if name not in self.found:
            looking = self.looked_for.pop(name, None) or programs.look_for(name)
            self.found[name] = programs.found(name, looking)
        return self.found[name][0]

    @property
    def are_proved(self):
        """Whether all that were needed so far are proved."""
        return all(is_proved for _, is_proved in self.found.values())
