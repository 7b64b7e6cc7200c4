"""Recorded calls in the format of ../shared/vectors/FORMAT.md: the runs of a trace, and a choice of them.

A run is a list of lines, each split into words: its creation with the answer and the state, then call, answer and state of each call.
Lines that not every trace has are the end of the line before them here: `+`, and `$` with the takings, behind a state (host/README.md),
and `@` with the offset behind an answer (../shared/vectors/orders/FORMAT.md)."""
KINDS = range(1, 12)
REQUEST, PREPARE, NEW_STATE, START_VIEW_CHANGE = 1, 2, 6, 7
ENTRIES_AT = {1: 7, 2: 19, 6: 23, 8: 24, 9: 19, 11: 29}  # where the entries of a frame begin, by its kind
SMALL_ROOM = 8                             # the greatest L of the Rust's own record
VIEW_CHANGE, RECOVERING = "2", "3"         # statuses of a state line
PAST_FRAME = ("0", "7", "9", "10")         # answers to a StartViewChange that isn't refused for its frame alone
BEHIND = {"+": 2, "@": 1, "$": 1}          # how many words stand behind the mark


def runs_of(lines):
    """The runs of a trace, in its order."""
    runs = []
    for line in lines:
        words = line.split()
        if not words or line.startswith("#"):
            continue
        if words[0] in ("N", "R", "C"):
            runs.append([])
        if words[0] in BEHIND:
            runs[-1][-1] += words
        else:
            runs[-1].append(words)
    return runs


def behind(line, mark):
    """The words behind a mark of a line; none where it hasn't that mark."""
    place = line.index(mark) + 1 if mark in line else len(line)
    return line[place:place + BEHIND[mark]]


def is_client(run):
    """Whether it is a client's run, not a replica's."""
    return run[0][0] == "C"


def refused_creation(run):
    """Whether there is no state behind the creation."""
    return run[1][1] != "0"


def calls_of(run):
    """The calls of a run: call, answer and state of each."""
    return [run[start:start + 3] for start in range(3, len(run), 3)]


def front(run, length):
    """The run with its first calls only."""
    return run[:3 + 3 * length]


def size(digits):
    """How many bytes a byte run has."""
    return 0 if digits == "-" else len(digits) // 2


def frame_of(call):
    """The byte run of the frame that a replica's call is given; none of a tick."""
    return call[3] if call[0] == "M" else "-"


def frames_of(digits):
    """The frames that a written byte run is made of, by their length fields; none of `-`."""
    frames = []
    while digits.strip("-"):
        end = 2 * (4 + int(digits[:8], 16))
        frames.append(digits[:end])
        digits = digits[end:]
    return frames


def kind_of(call):
    """0 of a tick, else the frame's kind, and -1 where it has none of 1 to 11."""
    if call[0] == "T":
        return 0
    kind = int(call[3][10:12] or "0", 16) if call[3] != "-" else 0
    return kind if kind in KINDS else -1


def fnv(data):
    """The digest of bytes, as a state line has it."""
    digest = 0xCBF29CE484222325
    for byte in data:
        digest = (digest ^ byte) * 0x100000001B3 % 2**64
    return f"{digest:016x}"


def counts_own(own, state, call, answer):
    """Whether a call to a replica with this id, in the state of this line, is a StartViewChange that names the replica itself as its
    sender, in a view for which senders are counted: a replica's own id never joins that set. Where document 01 refuses such a call by 7,
    9 or 10, it may be for what goes out because the own id counts."""
    if kind_of(call) != START_VIEW_CHANGE or answer[1] not in PAST_FRAME:
        return False
    view, sender = int(call[3][14:22], 16), int(call[3][22:24], 16)
    status, ours = state[1], int(state[2])
    counts = view > ours or (view == ours and status == VIEW_CHANGE)
    return sender == own and status != RECOVERING and counts


def made_logs(log, commit, call):
    """The logs that a call can make of a log, or store for later, each a tuple of entries in hex digits."""
    kind = kind_of(call)
    if kind not in ENTRIES_AT:
        return []
    digits = call[3][2 * ENTRIES_AT[kind]:]
    carried = tuple(digits[at:at + 64] for at in range(0, len(digits), 64))
    if kind in (REQUEST, PREPARE):
        return [log + carried]
    if kind == NEW_STATE:
        start = int(call[3][22:30], 16)
        return [log + carried[max(len(log) - start, 0):], log[:commit] + carried]
    return [carried]


def forgets(before, commit, log):
    """Whether an install of this log in place of that before it, so many of its entries committed, forgets a reply by document 01: a
    client has a committed entry, a later one is dropped, and the new log has no later one."""
    committed, dropped, later = ({entry[:16] for entry in part} for part in (before[:commit], before[commit:], log[commit:]))
    return bool(committed & (dropped - later))


def before_exception(run):
    """A replica's run up to its first call that meets one of the exceptions to document 01; all of it where none does. The log after a call
    is that with the digest of its state line among those that the frames so far can have made."""
    calls, log = calls_of(run), ()
    known = {fnv(b""): log}
    for place, (call, answer, after) in enumerate(calls):
        state = calls[place - 1][2] if place else run[2]
        if counts_own(int(run[0][2]), state, call, answer):
            return front(run, place)
        if answer[1] != "0":
            continue
        commit = int(state[5])
        known.update((fnv(bytes.fromhex("".join(made))), made) for made in made_logs(log, commit, call))
        if forgets(log, commit, known[after[15]]):
            return front(run, place)
        log = known[after[15]]
    return run


def causes(creation):
    """Which sizes of a replica's creation are wrong; of n, id and T also where the low byte, or the low two, would be inside."""
    n, own, timeout, room, members = (int(word) for word in creation[1:6])
    wrong = {"n low": n < 3, "n high": 7 < n < 256, "n wide": n > 255, "id": n <= own < 256, "id wide": max(n, 256) <= own, "no T": timeout == 0,
             "T wide": timeout > 65535, "no L": room == 0, "L high": room > 4096, "no M": members == 0, "M high": members > 4096}
    return tuple(name for name, it_is in wrong.items() if it_is)


def shown_by_creation(run):
    """What a creation shows: a refusal by its cause, if there is only one; done, which sizes are the greatest there are."""
    kind, code, wrong = run[0][0], run[1][1], causes(run[0])
    if refused_creation(run):
        return {("created", kind, code, wrong if len(wrong) < 2 else "several")}
    most = zip("nTLM", run[0][1:2] + run[0][3:6], ("7", "65535", "4096", "4096"))
    return {("created", kind, code, name) for name, word, greatest in most if word == greatest}


def one_short(calls, place):
    """Whether a call is refused for an area that is one byte short: given again as it was, it is done by one byte more."""
    call, answer, _ = calls[place]
    area = 1 if answer[1] == "9" else 2
    for again, then, _ in calls[place + 1:]:
        if then[1] == "0":
            return [again[0], *again[3:]] == [call[0], *call[3:]] and size(then[1 + area]) == int(call[area]) + 1
    return False


def shown_by_call(calls, place, status):
    """What a replica's call shows, made in this status: refusals, areas one byte short or just long enough, outcomes."""
    call, answer, _ = calls[place]
    kind, code = kind_of(call), answer[1]
    if code != "0":
        short = {("one short", code, status, kind)} if code in ("9", "10") and one_short(calls, place) else set()
        return short | {("refused", code, status, kind)}
    just = {("just", area, status, kind) for area in (1, 2) if 0 < size(answer[1 + area]) == int(call[area])}
    return just | {("outcome", reply[54:56]) for reply in frames_of(answer[3])}


def shown_by_replica(run):
    """What each call of a replica's run shows, and with it what there is beyond the Rust's record: a long log."""
    calls, status, shown = calls_of(run), run[2][1] if len(run) > 2 else None, []
    for place, (_, answer, state) in enumerate(calls):
        long_log = {("op number", status, answer[1] == "0")} if int(state[4]) > SMALL_ROOM else set()
        shown.append(shown_by_call(calls, place, status) | long_log)
        status = state[1]
    return shown


def shown_by_client(run):
    """What each call of a client's run shows: its answer by what it met, and areas one byte short or just long enough."""
    n, state, shown = run[0][1], run[2], []
    for call, answer, then in calls_of(run):
        waits = state[3] != "-"
        raised = (int(then[1]) > int(state[1])) - (call[0] == "P" and int(call[2]) < int(state[1]))
        things = {("client", n, call[0], answer[1], waits, raised)}
        if call[0] in "QI":
            least = 39 if call[0] == "Q" else 39 * int(n) * waits
            things.add(("area", call[0], answer[1], waits, max(-2, min(2, int(call[-1]) - least))))
        if call[0] == "Q":
            things.add(("operation", call[1] if call[1] in "123" else "other", answer[1], call[3] == "0", int(call[3]) > 1_000_000))
        if call[0] == "P" and waits:
            things.add(("number", answer[1], (int(call[1]) > int(state[3])) - (int(call[1]) < int(state[3]))))
        shown.append(things)
        state = then
    return shown


def shown_by(run):
    """What a run shows: the set of its creation, then of each call."""
    if is_client(run):
        return [{("client", run[0][1])}, *shown_by_client(run)]
    return [shown_by_creation(run), *shown_by_replica(run)]


def best_front(shown, known, taken):
    """The front of a run, longer than what is taken of it, that shows the most that isn't known for its length: how many calls, how much."""
    new, best = set(), (taken, 0)
    for length, things in enumerate(shown):
        new |= things - known
        if len(new) * (best[0] - taken + 2) > best[1] * (length - taken + 2):
            best = (length, len(new))
    return best


def picked(runs, most):
    """Every creation of a replica that is refused, which costs no call, and fronts of runs that show the most in at most so many calls
    together, in the trace's order, and whether others show something that these don't. The same runs give the same choice."""
    shown = {place: shown_by(run) for place, run in enumerate(runs)}
    lengths = {place: 0 for place, run in enumerate(runs) if not is_client(run) and refused_creation(run)}
    known, left = set().union(*(shown[place][0] for place in lengths)), most
    while True:
        shown = {place: things for place, things in shown.items() if set().union(*things) - known}
        best = (0, 0, 0)
        for place, things in shown.items():
            taken = lengths.get(place, 0)
            length, gain = best_front(things, known, taken)
            if length - taken <= left and gain / (length - taken + 2) > best[0]:
                best = (gain / (length - taken + 2), place, length)
        worth, place, length = best
        if worth == 0:
            return [front(runs[place], lengths[place]) for place in sorted(lengths)], bool(shown)
        left -= length - lengths.get(place, 0)
        lengths[place] = length
        known.update(*shown[place][:length + 1])
