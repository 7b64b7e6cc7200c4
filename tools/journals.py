"""A journal as document 02 has it, written and examined, and the runs and files of ../shared/vectors/orders/FORMAT.md. It shares no text with the
definitions of crates/journal, which tools/recorded-journal holds against it; who wrote it had read them."""

FRAME = 50
MOST = 4096                                # op numbers
LIMIT = 1_000_000_000                      # of a total


def parts_of_run(text):
    """A list of entries: each part's digits, and how many times over, None where it stands once."""
    for part in text.split(",") if text != "-" else []:
        digits, _, count = part.partition("*")
        yield digits, int(count) if count else None


def run(text):
    return b"".join(bytes.fromhex(digits) * (1 if count is None else count) for digits, count in parts_of_run(text))


def parts_of_file(text):
    """A file: its parts, each M and a list to write or None and digits, and the place and the digits that are put over it, None where nothing is."""
    text, _, patch = text.partition("@")
    place, _, digits = patch.partition("=")
    parts = []
    for part in text.split("+") if text != "-" else []:
        members, _, listed = part[1:].partition(":")
        parts.append((int(members), listed) if part.startswith("J") else (None, part))
    return parts, int(place) if patch else None, digits


def file(text):
    parts, place, digits = parts_of_file(text)
    made = b"".join(bytes.fromhex(part) if members is None else journal(members, run(part)) for members, part in parts)
    if place is None:
        return made
    over = bytes.fromhex(digits)
    return made[:place] + over + made[place + len(over):]


def number(some):
    return int.from_bytes(some, "big")


def applied(totals, entry):
    """Outcome and total that the fee rules give for an entry, which is put into the totals."""
    operation, member, cents = entry[16], number(entry[20:24]), number(entry[24:32])
    if member >= len(totals):
        return 4, 0
    total = totals[member]
    if operation == 1:
        outcome, total = (5, total) if total + cents > LIMIT else (1, total + cents)
    elif operation == 2:
        outcome, total = (6, total) if cents > total else (2, total - cents)
    else:
        outcome = 3
    totals[member] = total
    return outcome, total


def journal(members, entries):
    """The journal of a run of entries."""
    totals, frames = [0] * members, []
    for op, place in enumerate(range(0, len(entries), 32), 1):
        entry = entries[place:place + 32]
        outcome, total = applied(totals, entry)
        frames.append(bytes([0, 0, 0, 46, 1]) + op.to_bytes(4, "big") + entry + bytes([outcome]) + total.to_bytes(8, "big"))
    return b"".join(frames)


def entry_ok(entry):
    operation, cents = entry[16], number(entry[24:32])
    in_rules = {1: 1 <= cents <= 1_000_000, 2: 1 <= cents <= 1_000_000, 3: cents == 0}
    return entry[17:20] == bytes(3) and in_rules.get(operation, False)


def fault(op, totals, frame):
    """What is wrong with a frame: 1 cut short, 2 length, 3 version, 4 op number, 5 entry, 6 outcome, 7 total, 8 past op number 4,096. 0: nothing."""
    entry = frame[9:41]
    if op > MOST:
        return 8
    if len(frame) < FRAME:
        return 1
    for wrong, place, right in ((2, slice(0, 4), 46), (3, slice(4, 5), 1), (4, slice(5, 9), op)):
        if number(frame[place]) != right:
            return wrong
    if not entry_ok(entry):
        return 5
    outcome, total = applied(totals, entry)
    if frame[41] != outcome:
        return 6
    return 0 if number(frame[42:]) == total else 7


def examined(members, content):
    """How many good frames a file begins with, and what is wrong with what follows."""
    totals = [0] * members
    for place in range(0, len(content), FRAME):
        wrong = fault(place // FRAME + 1, totals, content[place:place + FRAME])
        if wrong:
            return place // FRAME, wrong
    return len(content) // FRAME, 0


def outcomes(members, content):
    """The outcomes of the good frames that a file begins with."""
    return content[41:FRAME * examined(members, content)[0]:FRAME]
