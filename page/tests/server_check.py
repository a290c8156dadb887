"""Checks: a line for each, and how many passed and failed."""
import time
import traceback


class Checks:
    """A group of checks that was run. Its lines are printed together, since groups run at once."""

    def __init__(self, group):
        self.passed = self.failed = 0
        self.lines = []
        began = time.monotonic()
        try:
            group(self)
        except Exception:
            self.failed += 1
            self.lines.append(f"FAIL  {group.__name__} ended early: {traceback.format_exc()}")
        self.lines.insert(0, f"--    {group.__name__}, {time.monotonic() - began:.0f} s: {group.__doc__}")
        print("\n".join(self.lines), flush=True)

    def same(self, name, got, expected):
        """One check: what was got is what the rules say."""
        if got == expected and type(got) is type(expected):
            self.passed += 1
            self.lines.append(f"ok    {name}")
        else:
            self.failed += 1
            self.lines.append(f"FAIL  {name}: {short(got)} is not {short(expected)}")


def short(value):
    """A value as it is printed: a long one is cut off."""
    text = repr(value)
    return text if len(text) <= 400 else f"{text[:200]} .. {text[-150:]}"
