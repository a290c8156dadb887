"""Edits a boundary map in the browser."""
import gc
# until the server answers: all that is read until then stays, so looking for garbage takes time for nothing
gc.disable()
import pathlib
import signal
import sys

sys.path.append(str(pathlib.Path(__file__).resolve().parent.parent))

from asked import Stop, checked, options

# The status of a fault, which is that of border_edit.
FAULT = 3
# Signals that end the program.
SIGNALS = (signal.SIGINT, signal.SIGTERM, signal.SIGHUP)


def interrupt(*_):
    """A signal that ends the program ends it once: a second one does not stop it from keeping what is unsaved."""
    for sign in SIGNALS:
        signal.signal(sign, signal.SIG_IGN)
    raise KeyboardInterrupt


def begun(given):
    """Where the page will be, and the programs, of which border_edit is looked for."""
    from finding import Programs
    programs = Programs()
    if given.port == 0:
        # while what an address needs is read, which takes as long; a port that is given may be taken
        programs.look_for("border_edit")
    from address import Address
    try:
        address = Address(given.port)
    except OSError as fault:
        raise Stop(f"port {given.port}: {fault.strerror}") from None
    programs.look_for("border_edit")
    return address, programs


def main():
    """Serves the page of a map."""
    given = options(sys.argv[1:])
    try:
        files = checked(given)
        address, programs = begun(given)
        from serving import serve  # what it needs is read meanwhile, which takes as long
        # until here a signal may end the program at once; and while modules are read, the exception it raises can be lost
        for sign in SIGNALS:
            signal.signal(sign, interrupt)
        serve(address, programs, given, files)
    except Stop as stop:
        print(f"edit: {stop}", file=sys.stderr)
        return FAULT
    return 0


if __name__ == "__main__":
    try:
        sys.exit(main())
    except KeyboardInterrupt:
        sys.exit(128 + signal.SIGINT)
