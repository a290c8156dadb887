"""Files: what tells whether another program has changed one, and writing one whole."""
import contextlib
import errno
import os
import stat
import tempfile

# Bytes that are read or written at once.
PIECE = 1 << 20
# What fsync of a folder answers where a file system does not have it.
NO_SYNC = (errno.EINVAL, errno.ENOTSUP)
# What no file that is made anew lets others do. It can only be read by setting it, which is done before there are
# threads.
UMASK = os.umask(0o077)
os.umask(UMASK)


def pieces(path, most=None):
    """The bytes of a file, piece by piece; at most the first `most` of them."""
    with open(path, "rb") as file:
        left = most
        while piece := file.read(PIECE if left is None else min(PIECE, left)):
            yield piece
            left = None if left is None else left - len(piece)


class Counted:
    """Pieces of a file that are passed on: how many bytes they have, and what tells them from others."""

    def __init__(self, rows):
        import hashlib  # which takes time, and is needed once the page has come
        self.rows, self.size, self.digest = rows, 0, hashlib.blake2b()

    def __iter__(self):
        for row in self.rows:
            self.size += len(row)
            self.digest.update(row)
            yield row

    @property
    def fingerprint(self):
        """What tells the pieces that were passed on from others."""
        return self.digest.hexdigest()


def fingerprint(path):
    """What tells whether a file was changed: nothing where there is no file."""
    if not os.path.exists(path):
        return None
    counted = Counted(pieces(path))
    try:
        for _ in counted:
            pass
    except FileNotFoundError:
        return None
    return counted.fingerprint


def copy_rights(path, handle):
    """Gives a new file the mode and, where that is allowed, the owner of the file that it will replace."""
    try:
        old = path.stat()
    except FileNotFoundError:
        os.fchmod(handle, 0o666 & ~UMASK)
        return
    for owner, group in ((-1, old.st_gid), (old.st_uid, -1)):
        with contextlib.suppress(PermissionError):
            os.fchown(handle, owner, group)
    os.fchmod(handle, stat.S_IMODE(old.st_mode))


def sync_folder(folder):
    """Sends the names in a folder to the disk, a new one among them."""
    handle = os.open(folder, os.O_RDONLY)
    try:
        os.fsync(handle)
    except OSError as fault:
        if fault.errno not in NO_SYNC:
            raise
    finally:
        os.close(handle)


def replace(path, rows, rights=None, before=lambda: None):
    """Writes a file whole: a new file beside it, sent to the disk, takes its place. After a fault it is as it was.

    `rights` is the file whose mode the new one gets, if it is another one. `before` is called before it takes its place.
    """
    handle, part = tempfile.mkstemp(prefix=".border_edit.", dir=path.parent)
    try:
        with os.fdopen(handle, "wb") as file:
            for row in rows:
                file.write(row)
            file.flush()
            copy_rights(rights or path, file.fileno())
            os.fsync(file.fileno())
        before()
        os.replace(part, path)
    except BaseException:
        with contextlib.suppress(OSError):
            os.unlink(part)
        raise


def keep_original(path):
    """Keeps a file as FILE.orig beside it, if there is no such file yet."""
    kept = path.with_name(path.name + ".orig")
    if path.exists() and not os.path.lexists(kept):
        replace(kept, pieces(path), rights=path)
