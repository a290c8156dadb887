"""The measures of one map, each of the program and, where there is one, of the reference."""
import collections
import contextlib
import random
import re
import shutil
import time

from drawing import KEPT, Moves, Splits, accepted_of, changes_of, draw, mixed_lines, of_features, of_positions
from maps import apart
from running import Count, Counter, Failed, why

# How many pieces of a script are timed, of which the best one counts, and how long each takes at least, in seconds.
PIECES_TIMED = 15
LEAST_PIECE = 0.02
# How many times changes are made and taken back, and maps deleted at least, of which the middle one counts.
TIMES = 5
MOST_LINES = 2_000_000
# Where the least counts: how many seconds of runs are enough, how many are spent at most on as many runs as are wanted, how
# many these are, and how many there are at most; and what is no time.
ENOUGH, PATIENCE, WANTED_RUNS, MOST_RUNS, NEVER = 2, 40, 15, 40, float("inf")
# The seconds that maps are deleted for, and the most of them.
DELETING, MOST_DELETED = 8, 100
# How many splits and merges have their instructions counted.
COUNTED = 800
# What takes less than this, in seconds, is too short for the clock.
SHORTEST = 1e-5
# A thinning that leaves out what it can, and the words for a run that keeps as many changes as can be kept.
WHOLE_THIN = "thin 8000000000000000000000000"
KEEPING = ("--undo", str(KEPT))

# What was measured of the program, in which unit, the same of the reference or None, and what else there is to say.
Measured = collections.namedtuple("Measured", "value unit own note")


def said(measured):
    """A measure as it is printed."""
    digits = 4 if measured.unit == "s" else 1
    number = f"{measured.value:11.{digits}f} {measured.unit:2}"
    if measured.own is None:
        return f"{number} {'':36}   {measured.note}"
    return f"{number}  reference {measured.own:11.{digits}f}  ratio {measured.value / measured.own:6.2f}   {measured.note}"


class Both:
    """The program, and the reference where it was built."""

    def __init__(self, program, reference):
        self.program, self.reference = program, reference

    @contextlib.contextmanager
    def session(self, map_, *more):
        """A session of the program, of which the reference is given the pieces too, each in turn."""
        with self.program.session(map_.path, *more) as session:
            with self.reference.beside(map_.path, session, *more) if self.reference else contextlib.nullcontext():
                yield session
        if self.reference:
            self.reference.compare_ended(session)

    def each(self, take):
        """What `take` gives of the program and of the reference."""
        return take(self.program), take(self.reference) if self.reference else None

    def least(self, *takes):
        """Of each of these, which are given the one or the other to run, the least of several times of the program, and of
        the reference or None; all in turn, so that what else the machine does is the same for all."""
        runs = [lambda take=take: take(self.program) for take in takes]
        if self.reference:
            runs += [lambda take=take: self.reference.tried(take) for take in takes]
        best = least(runs)
        own = [seconds if seconds < NEVER else None for seconds in best[len(takes) :]] or [None] * len(takes)
        return list(zip(best, own))


def middle(rates):
    """Of rates, or of seconds, the one in the middle."""
    return sorted(rates)[len(rates) // 2]


def least(runs):
    """The least of the seconds that each of these gives: what is slow is done a few times, what is short many times."""
    best, start = [NEVER] * len(runs), time.perf_counter()
    for n in range(MOST_RUNS):
        best = [min(seconds, run()) for seconds, run in zip(best, runs)]
        if time.perf_counter() - start > (ENOUGH if n + 1 >= WANTED_RUNS else PATIENCE):
            break
    return best


def of_both(session, value):
    """A value of the program's session, and of the reference's."""
    return value(session), value(session.own) if session.own else None


# ---- from the start to the end of a run

def measure_bytes(map_):
    def take():
        start = time.perf_counter()
        map_.path.read_bytes()
        return time.perf_counter() - start

    return Measured(least([take])[0], "s", None, "on the wall clock")


def measure_scan(both, map_):
    listed = both.program.folder / "listed.json"
    listed.write_bytes(b"[" + map_.path.read_bytes() + b"]")

    def take(runner):
        done = runner.run(listed, [])
        if done.status != 2 or done.err.strip() != "open: not a topology":
            raise Failed(why(done))
        return done.seconds

    [(seconds, own)] = both.least(take)
    size = listed.stat().st_size / 1e6
    listed.unlink()
    return Measured(seconds, "s", own, f"{size / seconds:.1f} MB/s")


def measure_open(map_, opening):
    size = map_.path.stat().st_size / 1e6
    return Measured(opening[0], "s", opening[1], f"{size:.2f} MB, {size / opening[0]:.1f} MB/s")


def measure_save(both, opening, whole):
    size = both.program.saved.stat().st_size / 1e6
    seconds = whole[0] - opening[0]
    if seconds <= 0:
        raise Failed("saving takes no time beside opening")
    own, note = None, f"{size:.2f} MB, {size / seconds:.1f} MB/s"
    if whole[1] and opening[1] and whole[1] > opening[1]:
        own = whole[1] - opening[1]
    elif both.reference:
        note += "; that of the reference takes no time beside opening"
    return Measured(seconds, "s", own, note)


# ---- lines a second

def paced(session, lines_of, seconds):
    """How many lines of a script that `lines_of` makes are a piece, of which some take so long, once a first question may
    have made what the others use."""
    session.seconds(lines_of(2))
    wanted, lines = max(seconds / PIECES_TIMED, LEAST_PIECE), lines_of(2)
    spent = session.seconds(lines)
    while spent < LEAST_PIECE and len(lines) < MOST_LINES:
        lines = lines_of(4 * len(lines))
        spent = session.seconds(lines)
    return min(MOST_LINES, max(2, int(len(lines) * wanted / spent)))


def best(session):
    """Lines a second, of the pieces that were timed at the end of a session: the best of them, with those of the reference,
    the least, and how many lines a piece had."""

    def rates(some):
        return [len(lines) / spent for lines, spent in zip(some.pieces[-PIECES_TIMED:], some.spent[-PIECES_TIMED:])]

    value, own = of_both(session, lambda some: max(rates(some)))
    each = rates(session)
    note = f"{PIECES_TIMED} times {len(session.pieces[-1])} lines, {min(each):.1f} to {max(each):.1f} /s"
    return Measured(value, "/s", own, note)


def rate(both, map_, lines_of, seconds, answer=".*"):
    """Lines a second, all of them accepted and answered by a text of this form, of scripts that `lines_of` makes about
    so long."""
    with both.session(map_) as session:
        count = paced(session, lines_of, seconds)
        for _ in range(PIECES_TIMED):
            session.seconds(lines_of(count))
    if not all(re.fullmatch(answer, text) for text in session.answers):
        raise Failed("an answer has another form")
    return best(session)


def rates_in_turn(both, maps, scripts, seconds):
    """The same of several maps, whose pieces take turns."""
    with contextlib.ExitStack() as at_end:
        sessions = [at_end.enter_context(both.session(map_)) for map_ in maps]
        counts = [paced(session, script, seconds) for session, script in zip(sessions, scripts)]
        for _ in range(PIECES_TIMED):
            for session, script, count in zip(sessions, scripts, counts):
                session.seconds(script(count))
    return [best(session) for session in sessions]


def measure_moves(both, map_, vertices, seconds):
    return rate(both, map_, Moves(both.program, map_.path, vertices).script, seconds)


def measure_questions(both, map_, seconds, ask, answer):
    """Lines a second that `ask` gives, each answered by a text of this form."""
    return rate(both, map_, lambda count: [ask() for _ in range(count)], seconds, answer)


def measure_deletes(both, map_, numbers):
    """These features are deleted, in this order, in each of several runs."""
    if not numbers:
        raise Failed("the map has no feature to delete")
    lines, sessions, start = [f"delete {n}" for n in numbers], [], time.perf_counter()
    while len(sessions) < TIMES or time.perf_counter() - start < DELETING and len(sessions) < MOST_DELETED:
        with both.session(map_) as session:
            session.seconds(lines)
        sessions.append(session)
    each = [len(lines) / it.spent[0] for it in sessions]
    own = middle([len(lines) / it.own.spent[0] for it in sessions]) if all(it.own for it in sessions) else None
    note = f"{len(sessions)} times {len(lines)} features, {min(each):.1f} to {max(each):.1f} /s"
    return Measured(middle(each), "/s", own, note)


# ---- memory and undos

def measure_memory(both, map_, drawn):
    lines = [f"at {x} {y}" for x, y in drawn.vertices[:8]]

    def peak(runner):
        with runner.session(map_.path) as session:
            session.seconds(lines)
            return session.peak() / 1e6

    value, own = both.each(peak)
    return Measured(value, "MB", own, f"{1e6 * value / map_.path.stat().st_size:.1f} bytes a byte of the map")


def measure_kept(both, map_, lines):
    """The most memory with these changes kept."""
    def peaks(runner):
        with runner.session(map_.path, *KEEPING) as session:
            before = session.peak()
            session.seconds(lines)
            return before, session.peak()

    (before, peak), own = both.each(peaks)
    note = f"{(peak - before) / 1e6:.1f} MB more than before, {len(lines)} changes"
    return Measured(peak / 1e6, "MB", own[1] / 1e6 if own else None, note)


def made_and_undone(both, map_, lines):
    """A session in which these changes are made, and then all of them taken back, several times."""
    with both.session(map_, *KEEPING) as session:
        for _ in range(TIMES):
            session.seconds(lines)
            session.seconds(["undo"] * len(lines))
    if min(map(middle, (session.spent[::2], session.spent[1::2]))) < SHORTEST:
        raise Failed("it is too short to be timed")
    return session


def undone(session, count, what):
    """Undos a second, of so many things, and how many were made a second."""
    made, own_made = of_both(session, lambda some: count / middle(some.spent[::2]))
    back, own = of_both(session, lambda some: count / middle(some.spent[1::2]))
    beside = f" (reference {own_made:.1f}, ratio {made / own_made:.2f})" if own else ""
    return Measured(back, "/s", own, f"{made:.1f} /s made{beside}, {TIMES} times {count} {what}")


def measure_undos(both, map_, lines):
    good = accepted_of(both.program, map_, lines)
    return undone(made_and_undone(both, map_, good), len(good), "changes")


def measure_thinned(both, map_):
    session = made_and_undone(both, map_, [WHOLE_THIN])
    return undone(session, int(session.answers[0].removeprefix("ok ")), "vertices")


# ---- instructions

def counted(counter, path, lines, before):
    """The instructions and the misses of each of these lines, beside those of a run without them."""
    counter.accepted(path, lines, *KEEPING)
    after = counter.last()
    return after, Count(*((one - other) / len(lines) for one, other in zip(after, before)))


def counts_of(counter, path, scripts):
    """The counts of an edit of each kind."""
    counter.opened(path)
    opening = counter.last()
    counter.accepted(path, [])
    whole = counter.last()
    moves = scripts["moves"]
    _, of_edit = counted(counter, path, scripts["splits"], whole)
    _, of_deletion = counted(counter, path, scripts["deletions"], opening)
    moved, of_move = counted(counter, path, moves, whole)
    counter.accepted(path, moves + ["undo"] * len(moves), *KEEPING)
    of_undo = Count(*((after - before) / len(moves) for after, before in zip(counter.last(), moved)))
    return {"a split or merge": of_edit, "a deletion": of_deletion, "a move": of_move, "its undo": of_undo}


def count_text(what, count, own):
    """The counts of one kind of edit, beside those of the reference."""
    beside = f" (reference {own.instructions:.0f}, ratio {count.instructions / own.instructions:.2f})" if own else ""
    return f"{count.instructions:9.0f} {what}{beside}, {count.misses:.0f} misses"


def measure_work(both, map_, drawn, changes):
    if not shutil.which("valgrind"):
        raise Failed("valgrind is not there")
    scripts = {
        "splits": Splits(both.program, map_.path, drawn.features, drawn.cuts).script(COUNTED),
        "moves": accepted_of(both.program, map_, changes["moved"]),
        "deletions": changes["deleted"],
    }
    counts, own = both.each(lambda runner: counts_of(Counter(*runner.words, runner.limit, runner.folder), map_.path, scripts))
    return "; ".join(count_text(what, count, own and own[what]) for what, count in counts.items())


# ---- all of a map

class Table:
    """Prints a line for each measure of a map."""

    def __init__(self, map_):
        self.map = map_

    def line(self, name, take):
        try:
            told = take()
            told = said(told) if isinstance(told, Measured) else told
        except Failed as reason:
            told = f"   failed: {reason}"
        print(f"{self.map.name:20} {name:8} {told}", flush=True)


def compare_all_kinds(both, map_, drawn, rand):
    """Gives the program and the reference lines of all kinds, refused ones too, and says whether all scripts of this map
    had the same answers, and all maps saved after them the same text."""
    if not both.reference:
        raise Failed("there is no reference to compare with")
    lines = mixed_lines(drawn, rand)
    done = both.program.run(map_.path, lines)
    if done.status not in (0, 1):
        raise Failed(why(done))
    both.reference.run_too(map_.path, lines, done, both.program.saved)
    return both.reference.said()


def opened(map_):
    """Takes the seconds to open a map."""
    return lambda runner: runner.opened(map_.path).seconds


def opened_and_saved(both, map_):
    """The seconds to open a map, and those to open and save it, each of the program and of the reference."""
    return both.least(opened(map_), lambda runner: runner.accepted(map_.path, []).seconds)


def measure_edits(table, options, both, drawn):
    """The measures of edits and of questions."""
    map_, rand = table.map, random.Random(options.seed)

    def questions(ask, answer):
        return measure_questions(both, map_, options.seconds, ask, answer)

    table.line("edits", lambda: measure_moves(both, map_, drawn.vertices, options.seconds))
    table.line("queries", lambda: questions(of_features("area", drawn, rand), "-?[0-9]+"))
    table.line("at", lambda: questions(of_positions(drawn, rand), "inside:( [0-9]+)* border:( [0-9]+)*"))
    table.line("sharing", lambda: questions(of_features("neighbours", drawn, rand), "neighbours:( [0-9]+)*"))
    for name, cuts in (("splits", drawn.cuts), ("near", drawn.near)):
        script = Splits(both.program, map_.path, drawn.features, cuts).script
        table.line(name, lambda: rate(both, map_, script, options.seconds))
    numbers = range(drawn.features - 1)
    table.line("deletes", lambda: measure_deletes(both, map_, rand.sample(numbers, len(numbers))))
    table.line("in turn", lambda: measure_deletes(both, map_, numbers))


def measure_undoing(table, both, changes):
    """The measures of undos, and of the memory that they take."""
    map_ = table.map
    for name, lines in changes.items():
        table.line(name, lambda: measure_undos(both, map_, lines))
    table.line("thinned", lambda: measure_thinned(both, map_))
    for name, kind in (("of moves", "moved"), ("of cuts", "cut")):
        table.line(name, lambda: measure_kept(both, map_, accepted_of(both.program, map_, changes[kind])))
    table.line("of thin", lambda: measure_kept(both, map_, [WHOLE_THIN]))


def measure(options, both, map_):
    """Prints a line for each measure of a map."""
    table = Table(map_)
    table.line("bytes", lambda: measure_bytes(map_))
    table.line("scan", lambda: measure_scan(both, map_))
    try:
        opening, whole = opened_and_saved(both, map_)
    except Failed as reason:
        print(f"{map_.name:20} open        failed: {reason}", flush=True)
        return
    drawn = apart(draw, map_.path, options.seed)
    table.line("open", lambda: measure_open(map_, opening))
    table.line("save", lambda: measure_save(both, opening, whole))
    measure_edits(table, options, both, drawn)
    table.line("memory", lambda: measure_memory(both, map_, drawn))
    changes = changes_of(drawn, random.Random(options.seed))
    measure_undoing(table, both, changes)
    if options.instructions:
        table.line("work", lambda: measure_work(both, map_, drawn, changes))
    if both.reference:
        table.line("answers", lambda: compare_all_kinds(both, map_, drawn, random.Random(options.seed)))
