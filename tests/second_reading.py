"""A second reading of the frame rules of document 01, as a check on the program frame_vectors.

The rules here (the table of frames, the entry rules, and refusals 2 to 6 as far as the frame alone decides them) were
written from document 01, "Frames" and "Refusal numbers", by somebody who had also read the code: a second writing, not a
blind one. The choice of frames to try and the wording of the lines are the program's. What is compared is refusal
numbers, not the values read out of a frame.

    python3 tests/second_reading.py
        prints the lines that frame_vectors must write
    python3 tests/second_reading.py --check crates/frame_vectors/stdout
        compares them with a stored output; names the first line that differs and ends with exit status 1
"""
import argparse
import itertools
import sys
from struct import pack

# The replica that is asked, and the room of its log.
N, OWN_ID, L = 3, 1, 3

# ---- Document 01: the table of frames and the refusal numbers. A place is its first byte and its width. ----

LENGTH, VERSION, KIND, ADDRESSEE, FIELDS_START = (0, 4), (4, 1), (5, 1), (6, 1), 7
CLIENT, REQUEST, OPERATION, ZEROS, CENTS, ENTRY_BYTES = (0, 8), (8, 8), (16, 1), (17, 3), (24, 8), 32
FEE, REFUND, ASK, MOST_CENTS = 1, 2, 3, 1_000_000
WIDTHS = {"view": 4, "last normal view": 4, "o": 4, "start": 4, "end": 4, "c": 4, "sender": 1, "mark": 1, "nonce": 8}

# kind: name, fields before the entries, length without the entries. The mark is RecoveryResponse's 0 or 1.
KINDS = {
    1: ("Request", [], 35 - ENTRY_BYTES),
    2: ("Prepare", ["view", "o", "c"], 47 - ENTRY_BYTES),
    3: ("PrepareOk", ["view", "o", "sender"], 12),
    4: ("Commit", ["view", "c"], 11),
    5: ("GetState", ["sender", "view", "o"], 12),
    6: ("NewState", ["view", "start", "end", "c"], 19),
    7: ("StartViewChange", ["view", "sender"], 8),
    8: ("DoViewChange", ["view", "sender", "last normal view", "o", "c"], 20),
    9: ("StartView", ["view", "o", "c"], 15),
    10: ("Recovery", ["sender", "nonce", "view"], 16),
    11: ("RecoveryResponse", ["view", "nonce", "sender", "mark", "o", "c"], 25),
}
UNMARKED_RESPONSE = ("RecoveryResponse", ["view", "nonce", "sender", "mark"], 17)
ONE_ENTRY_KINDS, WHOLE_LOG_KINDS, CARRIED_O_KINDS = (1, 2), (8, 9, 11), (2, 3, 5, 8, 9, 11)
COMMIT, NEW_STATE, START_VIEW, RECOVERY_RESPONSE, REPLY = 4, 6, 9, 11, 12


def number_at(run, place):
    """The big-endian number at a place."""
    return int.from_bytes(run[place[0]:place[0] + place[1]], "big")


def field_place(kind, field):
    """The place of a field in a frame of this kind."""
    fields = KINDS[kind][1]
    before = fields[:fields.index(field)]
    return FIELDS_START + sum(WIDTHS[name] for name in before), WIDTHS[field]


def entry_place(kind, index, part):
    """The place of a part of the entry with this index (from 0) in a frame of this kind."""
    return LENGTH[1] + KINDS[kind][2] + ENTRY_BYTES * index + part[0], part[1]


def table_row(frame):
    """The frame's row of the table; RecoveryResponse has two, told apart by the mark."""
    kind = number_at(frame, KIND)
    if kind == RECOVERY_RESPONSE and number_at(frame, field_place(kind, "mark")) == 0:
        return UNMARKED_RESPONSE
    return KINDS[kind]


def entry_allowed(entry):
    """Whether an entry follows the entry rules."""
    operation, cents = number_at(entry, OPERATION), number_at(entry, CENTS)
    right_cents = (operation in (FEE, REFUND) and 1 <= cents <= MOST_CENTS) or (operation == ASK and cents == 0)
    return right_cents and number_at(entry, ZEROS) == 0


def entry_count(kind, message):
    """How many entries a message must carry; below 0 where end < start."""
    if kind == NEW_STATE:
        return message["end"] - message["start"]
    if kind in WHOLE_LOG_KINDS:
        return message.get("o", 0)
    return 1 if kind in ONE_ENTRY_KINDS else 0


def read(frame):
    """The message in a frame, by the names of its parts; None where the frame is malformed."""
    if len(frame) < FIELDS_START or number_at(frame, LENGTH) != len(frame) - LENGTH[1]:
        return None
    kind = number_at(frame, KIND)
    if number_at(frame, VERSION) != 1 or kind not in KINDS:
        return None
    _, fields, length = table_row(frame)
    if number_at(frame, LENGTH) < length:
        return None
    message = {field: number_at(frame, field_place(kind, field)) for field in fields}
    count = entry_count(kind, message)
    if message.get("mark", 0) > 1 or count < 0 or number_at(frame, LENGTH) != length + ENTRY_BYTES * count:
        return None
    first = LENGTH[1] + length
    entries = [frame[start:start + ENTRY_BYTES] for start in range(first, len(frame), ENTRY_BYTES)]
    if not all(entry_allowed(entry) for entry in entries):
        return None
    return {**message, "kind": kind, "addressee": number_at(frame, ADDRESSEE), "entries": entries}


def rising(log):
    """Whether for each client the request numbers strictly rise along the log."""
    for earlier, later in itertools.combinations(log, 2):
        same_client = number_at(earlier, CLIENT) == number_at(later, CLIENT)
        if same_client and number_at(later, REQUEST) <= number_at(earlier, REQUEST):
            return False
    return True


def refusal(frame):
    """The refusal number of a frame, on the frame alone; 0 where there is none."""
    message = read(frame)
    if message is None:
        return 2
    kind, o, c, end = message["kind"], message.get("o", 0), message.get("c", 0), message.get("end", 0)
    if message["addressee"] != OWN_ID or message.get("sender", 0) >= N:
        return 3
    if (kind in CARRIED_O_KINDS and o > L) or (kind == NEW_STATE and end > L):
        return 4
    if (kind in WHOLE_LOG_KINDS and c > o) or (kind == NEW_STATE and c > end):
        return 5
    if kind in WHOLE_LOG_KINDS and not rising(message["entries"]):
        return 6
    return 0


# ---- The frames to try: view 7, sender 2, to replica 1; written by hand, so that they also try the table above ----

NONCE = 0x0102030405060708
FEE_OF_MEMBER_3 = pack(">BBBBIQ", 1, 0, 0, 0, 3, 4500)
LOG = [pack(">QQ", client, request) + FEE_OF_MEMBER_3 for client, request in ((7, 5), (7, 6), (9, 5), (9, 6))]
SHORT_BODIES = {
    1: LOG[0],
    2: pack(">III", 7, 1, 0) + LOG[0],
    3: pack(">IIB", 7, 1, 2),
    4: pack(">II", 7, 1),
    5: pack(">BII", 2, 7, 1),
    7: pack(">IB", 7, 2),
    10: pack(">BQI", 2, NONCE, 7),
    11: pack(">IQBB", 7, NONCE, 2, 0),
}
REPLY_BODY = pack(">IQQBQ", 7, 7, 5, 1, 4500)
LOG_KINDS = (6, 8, 9, 11)


def frame_of(kind, addressee, body):
    """A frame with a right length field, version 1 and this body."""
    return pack(">IBBB", 3 + len(body), 1, kind, addressee) + body


def log_frame(kind, count):
    """The sample of a kind with a log of `count` entries, all of them committed."""
    bodies = {
        6: pack(">IIII", 7, 0, count, count),
        8: pack(">IBIII", 7, 2, 6, count, count),
        9: pack(">III", 7, count, count),
        11: pack(">IQBBII", 7, NONCE, 2, 1, count, count),
    }
    return frame_of(kind, 1, bodies[kind] + b"".join(LOG[:count]))


def put(frame, place, value):
    """The frame with another number at a place."""
    start, width = place
    return frame[:start] + value.to_bytes(width, "big") + frame[start + width:]


def resized(frame, size):
    """The frame cut or filled with zeros to a size, its length field put right where it has room for one."""
    run = frame[:size] + bytes(max(0, size - len(frame)))
    return put(run, LENGTH, size - LENGTH[1]) if size >= LENGTH[1] else run


# ---- The lines ----

MAX, WRAP = 2**32 - 1, 2**27  # WRAP entries have 2^32 bytes
COUNTS = [0, 1, 2, 3, WRAP, WRAP + 1, WRAP + 2, MAX]
TRIED = {"view": [0, MAX], "last normal view": [0, MAX], "sender": [0, 1, 2, 3, 255], "mark": [0, 1, 2, 255],
         "o": [0, 1, 3, 4, MAX], "c": [0, 1, 2, 3, 4, MAX]}
TRIED_WITH_LOG = {**TRIED, "o": COUNTS, "start": COUNTS, "end": COUNTS}


def answers(label, frame, place, values):
    """The label, then value:number for each value put at a place."""
    return " ".join([label] + [f"{value}:{refusal(put(frame, place, value))}" for value in values])


def head_lines(title, frame):
    """Three lines on what every frame has: its size, kind byte, version, length field and addressee."""
    size = len(frame)
    cut = [refusal(frame[:shorter]) for shorter in range(size)].count(2)
    cut_right = [refusal(resized(frame, shorter)) for shorter in range(size)].count(2)
    yield (f"{title}: {size} bytes, number {refusal(frame)}, message of kind {read(frame)['kind']}; "
           f"cut at 0 to {size - 1}: {cut} of {size} refused by 2, length field put right: {cut_right}; "
           f"a byte more: {refusal(frame + bytes(1))}, length field put right: {refusal(resized(frame, size + 1))}")
    kinds = [kind for kind in range(256) if refusal(put(frame, KIND, kind)) != 2]
    yield answers("  kind bytes not refused by 2:", frame, KIND, kinds)
    less, more, far = [refusal(put(frame, LENGTH, size - LENGTH[1] + change)) for change in (-1, 1, 2**24)]
    yield (answers("  version", frame, VERSION, [0, 1, 2, 255])
           + f"; length field one less {less}, one more {more}, 16777216 more {far}; "
           + answers("addressee", frame, ADDRESSEE, [0, 1, 2, 3, 255]))


def field_lines(kind, frame, tried):
    """One line on the frame's own fields, with a leading sender moved to the end; none for a Request."""
    fields = [field for field in table_row(frame)[1] if field in tried]
    if fields and fields[0] == "sender":
        fields = fields[1:] + ["sender"]
    if fields:
        yield "  " + "; ".join(answers(field, frame, field_place(kind, field), tried[field]) for field in fields)


def entry_lines(kind, frame):
    """Two lines on the frame's last entry, if it has one: operation with cents, and the three zero bytes."""
    last = len(read(frame)["entries"]) - 1
    if last < 0:
        return
    groups = []
    for operation in (0, 1, 2, 3, 4, 255):
        changed = put(frame, entry_place(kind, last, OPERATION), operation)
        groups.append(answers(f"{operation}:", changed, entry_place(kind, last, CENTS), [0, 1, 10**6, 10**6 + 1]))
    yield "  cents of operation " + "; ".join(groups)
    zeros = [refusal(put(frame, entry_place(kind, last, ZEROS), byte)) for byte in (0x010000, 0x000100, 0x000001)]
    high, higher = [refusal(put(frame, entry_place(kind, last, CENTS), 4500 + more)) for more in (2**32, 2**56)]
    yield "  zero bytes set to 1: {} {} {}; cents 4500 + 2^32: {}, + 2^56: {}".format(*zeros, high, higher)


def room_line(kind):
    """The line on logs of L and L+1 entries; a malformed entry is refused before the room is looked at."""
    frame = log_frame(kind, L + 1)
    first, last = [refusal(put(frame, entry_place(kind, index, OPERATION), 0)) for index in (0, L)]
    return (f"{KINDS[kind][0]} of L entries: {refusal(log_frame(kind, L))}; of L+1 entries: {refusal(frame)}, "
            f"read as kind {read(frame)['kind']}, its last one of operation 0: {last}, its first one: {first}")


def rising_line(kind):
    """The line on which logs of three entries rise."""
    frame = log_frame(kind, 3)
    second_of_8 = put(frame, entry_place(kind, 1, CLIENT), 8)
    third_of_7 = put(frame, entry_place(kind, 2, CLIENT), 7)
    both = put(second_of_8, entry_place(kind, 2, CLIENT), 7)
    tried = [("second request", frame, 1), ("of client 8", second_of_8, 1), ("third request", frame, 2),
             ("of client 7", third_of_7, 2), ("after client 8", both, 2)]
    groups = [answers(label, log, entry_place(kind, at, REQUEST), [4, 5, 6, 255]) for label, log, at in tried]
    return f"{KINDS[kind][0]} of 7/5 7/6 9/5: " + "; ".join(groups)


def span_lines():
    """Three lines on NewState: its end beside its start, without entries and with two, and its c beside its end."""
    start, end, c = [field_place(NEW_STATE, field) for field in ("start", "end", "c")]
    none, two = log_frame(NEW_STATE, 0), log_frame(NEW_STATE, 2)
    yield "NewState without entries, " + "; ".join([
        answers("start 2: end", put(none, start, 2), end, [0, 1, 2, 3]),
        answers("start 3: end", put(none, start, 3), end, [2, 3, 4]),
        answers("start 4: end", put(none, start, 4), end, [3, 4, 5]),
        answers(f"start {MAX}: end", put(none, start, MAX), end, [0, MAX - 1, MAX])])
    yield "NewState of 2 entries, " + "; ".join([
        answers("start 1: end", put(two, start, 1), end, [0, 1, 2, 3, 4]),
        answers("start 2: end", put(two, start, 2), end, [3, 4, 5]),
        answers(f"start {MAX}: end", put(two, start, MAX), end, [1, MAX])])
    yield "NewState of 2 entries, " + "; ".join([
        answers("1 to 3: c", put(put(two, start, 1), end, 3), c, [0, 3, 4, 5, MAX]),
        answers("2 to 4: c", put(put(two, start, 2), end, 4), c, [0, 3, 4, 5, MAX])])


def order_line():
    """The line on the order 2, 3, 4, 5, 6: a StartView with every fault, which then loses one after the other."""
    request, c = entry_place(START_VIEW, 1, REQUEST), field_place(START_VIEW, "c")
    sound = log_frame(START_VIEW, L)
    fault_6 = put(sound, request, 5)
    faults_5_6 = put(fault_6, c, 9)
    faults_4_to_6 = put(put(log_frame(START_VIEW, L + 1), request, 5), c, 9)
    faults_3_to_6 = put(faults_4_to_6, ADDRESSEE, 0)
    every_fault = put(faults_3_to_6, entry_place(START_VIEW, 0, OPERATION), 0)
    return (f"StartView with every fault: {refusal(every_fault)}; without 2's: {refusal(faults_3_to_6)}; "
            f"without 3's: {refusal(faults_4_to_6)}; without 4's: {refusal(faults_5_6)}; "
            f"without 5's: {refusal(fault_6)}; without 6's: {refusal(sound)}")


def odd_line():
    """The line on frames that are no message at all."""
    return (f"The empty frame: {refusal(b'')}; a Reply, kind 12: {refusal(frame_of(REPLY, 0, REPLY_BODY))}; "
            f"a Reply to addressee 1: {refusal(frame_of(REPLY, 1, REPLY_BODY))}; length 0, and no more: "
            f"{refusal(bytes(4))}; a Commit and 15 bytes behind it: "
            f"{refusal(frame_of(COMMIT, 1, SHORT_BODIES[COMMIT]) + bytes(15))}")


def all_lines():
    """Every line, in the program's order."""
    yield (f"Replica {OWN_ID} of {N}, L = {L}. value:number stands for a frame with that value in the named place, "
           "and for its refusal number; 0: none.")
    samples = [(kind, "", frame_of(kind, 1, body), TRIED) for kind, body in SHORT_BODIES.items()]
    for kind, count in itertools.product(LOG_KINDS, (0, 1, 2)):
        samples.append((kind, f", log of {count}", log_frame(kind, count), TRIED_WITH_LOG))
    for kind, suffix, frame, tried in samples:
        yield from head_lines(f"kind {kind} {KINDS[kind][0]}{suffix}", frame)
        yield from field_lines(kind, frame, tried)
        yield from entry_lines(kind, frame)
    yield from (room_line(kind) for kind in LOG_KINDS)
    yield "Logs of three entries, client/request; NewState's is not judged on the frame alone."
    yield from (rising_line(kind) for kind in LOG_KINDS)
    yield from span_lines()
    yield order_line()
    yield odd_line()


def check(path):
    """Compare with a stored output, line ends included; the exit status."""
    with open(path, encoding="utf-8", errors="replace", newline="") as file:
        stored = file.read().split("\n")
    expected = list(all_lines()) + [""]  # a line end behind the last line, and no more
    for number, (wanted, found) in enumerate(itertools.zip_longest(expected, stored), start=1):
        if wanted != found:
            print(f"{path}: line {number} differs\n  document 01: {wanted!r}\n  stored:      {found!r}")
            return 1
    print(f"{path}: {len(expected) - 1} lines, as document 01 has them")
    return 0


def main():
    """Print the lines, or compare them."""
    parser = argparse.ArgumentParser(description="A second reading of the frame rules of document 01.")
    parser.add_argument("--check", metavar="FILE", help="compare with this stored output of frame_vectors")
    path = parser.parse_args().check
    if path is None:
        print("\n".join(all_lines()))
        return 0
    return check(path)


if __name__ == "__main__":
    sys.exit(main())
