"""Names of files: how they are shown, and whether one can be written. It is read before all else, so it needs little."""
import os


def shown(name):
    """A file name that may stand in a line of text."""
    return "".join(letter if letter.isprintable() else "?" for letter in str(name))


def why_not_writable(path):
    """Why a file can't be written, in a few words; nothing where it can."""
    folder = path.parent
    if not folder.is_dir():
        return f"there is no folder {folder}"
    if not os.access(folder, os.W_OK | os.X_OK):
        return f"no file may be written in the folder {folder}"
    if path.exists() and not path.is_file():
        return f"{path} is no file"
    if path.exists() and not os.access(path, os.W_OK):
        return f"the file {path} may not be written"
    return None
