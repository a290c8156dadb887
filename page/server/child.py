"""A running border_edit: lines of a script in, answers out."""
import contextlib
import fcntl
import os
import subprocess

# Changes that border_edit keeps, so that they can be taken back.
DEPTH = 1000
# Bytes that every pipe holds while nobody reads it.
BATCH = 4096
# Bytes that are read of a pipe at once, and that it holds where the system lets it: of a long answer fewer pieces are
# waited for.
BUFFER = 1 << 20
# Bytes that the answer to `count` does not have, with the line feed before it.
MOST_COUNT = 256
# The number of fcntl's F_SETPIPE_SZ, which Python has a name for since 3.10.
SET_PIPE_SIZE = 1031


class Ended(Exception):
    """A program has ended. `status` is its status, and the text what it left on standard error."""

    def __init__(self, status, text):
        super().__init__(text)
        self.status = status


def environment():
    """The environment of the programs: large maps take less time in large pages, as in ./run."""
    tunables = "glibc.malloc.hugetlb=1:glibc.malloc.mmap_threshold=33554432"
    return {"GLIBC_TUNABLES": tunables, **os.environ}


def batches(rows):
    """Rows in lists that a pipe holds; a row that is longer stands alone."""
    batch, size = [], 0
    for row in rows:
        if batch and size + len(row) > BATCH:
            yield batch
            batch, size = [], 0
        batch.append(row)
        size += len(row)
    if batch:
        yield batch


class Child:
    """border_edit on a map. FILE of the program is never wanted: what is saved is the answer to `document`."""

    def __init__(self, program, map_path):
        unwanted = os.path.join(os.path.dirname(map_path), "unwanted")
        command = [program, map_path, "-", "--out", unwanted, "--undo", str(DEPTH)]
        # in a session of its own, so that Ctrl+C in the terminal does not reach it before the log is kept
        pipes = {name: subprocess.PIPE for name in ("stdin", "stdout", "stderr")}
        self.process = subprocess.Popen(command, **pipes, bufsize=BUFFER, env=environment(), start_new_session=True)
        with contextlib.suppress(OSError):
            fcntl.fcntl(self.process.stdout, SET_PIPE_SIZE, BUFFER)
        # status and text of its end, once it has ended by itself
        self.ended = None

    def ask(self, lines):
        """The answers to lines that have an answer of one line each.

        border_edit sends its answers on before it reads more of the script. While it waits until its answers are
        read, it reads no lines; so no more lines are sent than the pipe holds until theirs are read.
        """
        answers = []
        for batch in batches(line.encode() + b"\n" for line in lines):
            self._send(b"".join(batch))
            answers += [self._line().decode() for _ in batch]
        return answers

    def document(self):
        """The text of the map, piece by piece. It is read to its end also where nobody takes all pieces."""
        self._send(b"document\ncount\n")
        pieces = self._pieces()
        try:
            for piece in pieces:
                yield piece
        except GeneratorExit:
            with contextlib.suppress(Ended):
                for _ in pieces:
                    pass
            raise

    def _pieces(self):
        """What comes up to the answer to `count`.

        The text may have line feeds, which stand between tokens of JSON. No token begins with `features`, so the first
        line that does is the answer to the question behind it.
        """
        end, begin = b"", 0
        while not (begin and end.endswith(b"\n") and end.startswith(b"features ", begin)):
            yield end[:-MOST_COUNT]
            end = end[-MOST_COUNT:] + self._piece()
            begin = end.rfind(b"\n", 0, -1) + 1
        yield end[:begin - 1]

    def end(self):
        """Ends the program. It is not let read the end of the script, at which it would write FILE."""
        self.process.kill()
        self.process.wait()
        for pipe in (self.process.stdin, self.process.stdout, self.process.stderr):
            with contextlib.suppress(OSError):
                pipe.close()

    def _send(self, text):
        """Gives the program lines of its script."""
        if self.ended:
            raise Ended(*self.ended)
        try:
            self.process.stdin.write(text)
            self.process.stdin.flush()
        except BrokenPipeError:
            raise self._end_told() from None

    def _line(self):
        """The next line of its answers, without its line feed."""
        row = self.process.stdout.readline()
        if not row.endswith(b"\n"):
            raise self._end_told()
        return row[:-1]

    def _piece(self):
        """What there is of its answers; it waits for some."""
        piece = self.process.stdout.read1(BUFFER)
        if not piece:
            raise self._end_told()
        return piece

    def _end_told(self):
        """What the program, which has ended by itself, says of that."""
        text = self.process.stderr.read().decode(errors="replace").strip()
        status = self.process.wait()
        self.end()
        self.ended = (status, text or f"border_edit ended with status {status}")
        return Ended(*self.ended)
