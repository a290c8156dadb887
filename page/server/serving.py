"""From MAP to its page: what is started, and what is done at the end."""
import contextlib
import gc
import importlib
import os
import pathlib
import sys
import tempfile
import threading

from asked import Stop
from child import Ended
from paths import shown
from programs import NotFound
from session import Session
from visits import NoPage

# Seconds that a request under way has to end, when the server is stopped.
ENDING = 30


@contextlib.contextmanager
def stops(map_path):
    """What stops the program, in one line."""
    try:
        yield
    except (Ended, NotFound, RuntimeError) as fault:
        raise Stop(str(fault)) from None
    except OSError as fault:
        raise Stop(f"{shown(fault.filename or map_path)}: {fault.strerror}") from None


def leading_file(address):
    """A file that only the user may read, and that leads on to the page. The browser gets its name as an argument,
    which all users of the machine can see. Nothing if the home folder can't hold it."""
    text = ('<!doctype html><meta charset="utf-8">'
            f'<meta http-equiv="refresh" content="0;url={address}"><a href="{address}">the map</a>\n')
    try:
        # some browsers read no file in /tmp, and none whose name begins with a dot
        handle, path = tempfile.mkstemp(prefix="border_edit-", suffix=".html", dir=pathlib.Path.home())
    except (OSError, RuntimeError):
        return None
    with os.fdopen(handle, "w") as file:
        file.write(text)
    return pathlib.Path(path)


def remove(path):
    """Removes a file, if it is there."""
    with contextlib.suppress(OSError):
        path.unlink()


def open_browser(address, leave):
    """Opens the page. `leave` has what is done at the end at the latest. What is done when the page has come."""
    leading = leading_file(address)
    if leading is None:
        return lambda: None
    leave.callback(remove, leading)

    def opens():
        import webbrowser  # which takes time, and is not needed without this
        # some browsers return only when they are closed
        webbrowser.open(leading.as_uri())

    threading.Thread(target=opens, daemon=True).start()
    return lambda: remove(leading)


def server_class():
    """The class of the server. What it needs takes time to be read, which the browser and border_edit need too."""
    # by a thread, since an exception of a signal can be lost while modules are read
    reading = threading.Thread(target=importlib.import_module, args=["server"])
    reading.start()
    reading.join()
    from server import Server
    return Server


def finish(server):
    """Ends border_edit, and keeps what is not saved as a script."""
    server.server_close()
    session = server.session
    session.give_up()
    # a request may still be under way; its edits are not in the log yet
    server.lock.acquire(timeout=ENDING)
    if session.is_unsaved:
        left = session.leave_script()
        said = f"unsaved edits stand as a script in {shown(left)}" if left else "unsaved edits could not be kept"
        with contextlib.suppress(OSError):
            print(f"edit: {said}", file=sys.stderr, flush=True)


def serve(address, programs, given, files):
    """Serves the page of a map until it is closed, or the program is stopped. `files` are those of MAP and of what Save
    writes."""
    with contextlib.ExitStack() as leave, stops(given.map):
        session = Session(programs, *files)
        leave.callback(session.end)
        # the browser may begin: it waits until it is answered
        print(address, flush=True)
        with contextlib.suppress(KeyboardInterrupt, NoPage):
            on_first_page = (lambda: None) if given.no_open else open_browser(address, leave)
            server = server_class()(address, session)
            server.on_first_page = on_first_page
            leave.callback(finish, server)
            server.open()
            gc.enable()
            server.serve_forever()
