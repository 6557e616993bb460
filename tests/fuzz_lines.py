"""The output of each command of dali_bench, by docs/PROGRAM.md: the form of every line, and what the lines add up to.

Each judge takes the status, standard output and standard error of a run, and raises AssertionError with what is wrong.
"""

import re

from driven import FIELDS
from read_plan import check_passive

ITEM_FAULTS = {1: "Unit", 2: "Kind", 3: "Range", 4: "Gtin", 5: "Text", 7: "Voltage", 8: "Empty", 9: "Shape", 10: "Key"}
FILE_FAULTS = {11: "Json", 12: "Document", 13: "TooBig", 14: "Hex"}
UNIT_FAULTS = {1: "Address", 2: "Size", 3: "Fixed"}
CODES = ("Done", "Short", "Format", "Silent", "Doubt", "DoubtOpen")
CODE = "|".join(f"{number} {name}" for number, name in enumerate(CODES))
NUMBER = "(?:0|[1-9][0-9]*)"
ADDRESS = "(?:[0-9]|[1-5][0-9]|6[0-3])"
REPLY = re.compile(f"reply ({NUMBER}) (?:taken|reused|busy|full|blocked {NUMBER}|kept (?:{CODE}))")
RECORD = re.compile(f"B order ({NUMBER}) unit ({NUMBER}) at ({NUMBER}) bytes ({NUMBER})|O unit ({NUMBER})|E ({CODE})|"
                    f"C unit ({NUMBER})")
HEADER_LENGTH = 4
OTHERS = [(0x00, "last"), (0x01, "indicator"), (0x02, "lock"), (0x11, "format")]
BANK_WORDS = [word for _, word in sorted([*OTHERS, *((it["first"], it["key"]) for it in FIELDS)])]
BANK_TEXT = re.compile("absent|unknown|[0-9]+|[0-9A-F]{2,16}|text [ -~]{1,60}|raw [0-9A-F]{2,120}")
FRAME = re.compile("[0-9A-F]{4} (?:(?:DTR[012]|WRITE MEMORY LOCATION(?: - NO REPLY)?) [0-9A-F]{2}|"
                   "(?:ENABLE WRITE MEMORY|QUERY CONTENT DTR[012]|READ MEMORY LOCATION) "
                   "unit (?:[0-9]|[1-5][0-9]|6[0-3])|OTHER)")
UNIT = re.compile("unit [0-9]+ dtr(?: [0-9A-F]{2}){3} enabled (?:yes|no)|bank [0-9]+ [0-9A-F]0 (?:[0-9A-F]{2}){1,16}")
JOURNAL_FAULT = re.compile(f"journal fault (?:(?:3 Record|4 Sequence|5 Repeated|6 Full) at {NUMBER}|7 Header)")
NOTHING = "error: nothing was done: ORDERS has no orders"
ORDER_LINE = re.compile(f"order {NUMBER} unit {ADDRESS} "
                        "(?:same|other ([0-9A-F]{2}) [0-9A-F]{2}|short|format|silent)")
TOTALS = re.compile(f"(?:new journal, )?not done {NUMBER}(?::(?: {NUMBER}){{1,8}}(?: [.][.])?)?"
                    f"(?:, not reached {NUMBER})?, "
                    f"written now {NUMBER}, known before {NUMBER}, frames ({NUMBER}), misses {NUMBER}, time [0-9:]+\n")
IDENTITY = " gtin (?:unknown|[0-9]{14}|raw [0-9A-F]{12}) identification (?:unknown|[0-9A-F]{16})"
LAST_LINE = re.compile(f"unit ({ADDRESS}) last (?:[0-9A-F]{{2}}|[1-9A-F][0-9A-F]{IDENTITY})")
DRIVE_FAULTS = {"1 Journal": 2, "2 Link": 2, "3 Line": 1, "4 End": 1, "6 TooLong": 1}


def lines_of(text):
    """Split what was printed into its lines, each of which has its line feed."""
    told = text.decode("ascii")
    assert told == "" or told.endswith("\n"), f"the last line is cut: {told[-60:]!r}"
    return told.split("\n")[:-1]


def is_file_fault(line):
    """Whether the line is a fault of a whole file."""
    return line in [f"fault {number} {name}" for number, name in FILE_FAULTS.items()]


def is_item_fault(line, kind, number):
    """Whether the line is that of a refused item."""
    return line in [f"{kind} {number} fault {fault} {name}" for fault, name in ITEM_FAULTS.items()]


# Faults of a whole input or argument that have more lines for a person, and of a scenario.
NOTED = ("fault 11 Json", "fault 12 Document", "fault 13 TooBig", "fault 14 Hex", "gear fault 5 SameAddress",
         "run fault 1 Limit")

# The last line if `show` or `journal` refuses standard input.
REFUSED = "error: the input is refused: standard input"

# The line after those for a person, if there are more.
LEFT_OUT = "more is left out: these are the first 1000 lines"


def judge_notes(lines, stderr):
    """Judge the lines for a person beside an answer: nothing raw, at least one for each fault that has one, else none.
    The first thousand are printed.
    """
    notes = lines_of(stderr)
    assert all(re.fullmatch("[ -~]+", it) for it in notes), notes
    found = [re.match("((?:item|event|unit) [0-9]+ )fault ", it) for it in lines]
    refused = {it[1] for it in found if it}
    is_cut = LEFT_OUT in notes
    if is_cut:
        assert notes.index(LEFT_OUT) == len(notes) - 1 == 1000, notes
        notes.pop()
    for head in [] if is_cut else refused:
        assert any(it.startswith(head) or it.startswith(f"{head[:-1]}:") for it in notes), (head, notes)
    for note in notes:
        head = re.match("(?:item|event) [0-9]+ |", note.replace(":", " ", 1))[0]
        assert not head or head in refused or ": the number of item " in note, note
    whole = lines[0] if len(lines) == 1 else ""
    if whole in NOTED or JOURNAL_FAULT.fullmatch(whole):
        assert notes, whole
    elif not refused:
        assert all(": the number of item " in it for it in notes), notes


def judge_check(status, stdout, stderr):
    """Judge what `check` printed."""
    lines = lines_of(stdout)
    judge_notes(lines, stderr)
    if len(lines) == 1 and is_file_fault(lines[0]):
        return check_status(status, 1)
    item, at, refused = 0, 0, 0
    while at < len(lines) - 1:
        item += 1
        head = re.fullmatch(f"item {item} order {NUMBER} unit (?:{NUMBER}) bytes ({NUMBER})", lines[at])
        if head:
            judge_updates(lines[at + 1:at + 1 + int(head[1])], int(head[1]))
            at += int(head[1])
        else:
            assert is_item_fault(lines[at], "item", item), lines[at]
            refused += 1
        at += 1
    assert lines[-1:] == [f"accepted {item - refused} refused {refused}"], lines[-1:]
    check_status(status, 1 if refused else 0)


def judge_updates(lines, count):
    """Judge the lines of an order's updates: locations that rise, in the places that may be written."""
    assert 1 <= count <= 115 and len(lines) == count, (count, len(lines))
    assert all(re.fullmatch("[0-9A-F]{2} [0-9A-F]{2}", line) for line in lines), lines
    places = [int(line[:2], 16) for line in lines]
    assert places == sorted(set(places)) and all(3 <= at <= 0x10 or 0x13 <= at <= 0x77 for at in places), places


def check_status(status, wanted):
    """Raise unless the status is the wanted one."""
    assert status == wanted, f"it ended with status {status}, and not {wanted}"


def judge_refusal(lines, stderr):
    """Judge the lines about an input that `show` or `journal` refuses."""
    judge_notes(lines, stderr)
    notes = lines_of(stderr)
    assert len(notes) == 2 and notes[1] == REFUSED, notes


def judge_show(status, stdout, stderr):
    """Judge what `show` printed."""
    lines = lines_of(stdout)
    if len(lines) == 1 and is_file_fault(lines[0]):
        judge_refusal(lines, stderr)
        return check_status(status, 1)
    assert stderr == b"", stderr
    assert [line.split(" ", 1)[0] for line in lines] == BANK_WORDS, lines
    assert all(BANK_TEXT.fullmatch(line.split(" ", 1)[1]) for line in lines), lines
    check_status(status, 0)


def judge_frame(status, stdout, stderr):
    """Judge what `frame` printed."""
    lines = lines_of(stdout)
    judge_notes(lines, stderr)
    assert len(lines) == 1, lines
    assert lines[0] == "fault 14 Hex" or FRAME.fullmatch(lines[0]), lines
    check_status(status, 1 if lines[0] == "fault 14 Hex" else 0)


def record_length(found, version=2):
    """Give how many bytes a record of this line has in a version."""
    return (19 if version == 2 else 11) + 2 * int(found[4]) if found[4] else 2


def standing_after(found):
    """Give where a journal stands after a record of this line, where it tells that alone."""
    if found[6]:
        return "left" if found[6].startswith("5") else "idle"
    return "began" if found[1] else "opened" if found[5] else "idle"


def judge_journal(status, stdout, stderr):
    """Judge what `journal` printed."""
    lines = lines_of(stdout)
    assert lines
    if len(lines) == 1 and (lines[0] == "fault 13 TooBig" or JOURNAL_FAULT.fullmatch(lines[0])):
        judge_refusal(lines, stderr)
        return check_status(status, 1)
    assert stderr == b"", stderr
    assert lines[0] in ("version 1", "version 2"), lines[0]
    version, found = int(lines[0][-1]), [RECORD.fullmatch(line) for line in lines[1:-1]]
    assert all(found), lines
    orders, standing = sum(bool(it[1]) for it in found), standing_after(found[-1]) if found else "idle"
    last = re.fullmatch(f"counts ({NUMBER}) of ({NUMBER}) orders {orders} standing {standing}(?: {NUMBER})?", lines[-1])
    assert last, lines[-1]
    length, total = sum(record_length(it, version) for it in found), int(last[2])
    if version == 2 and total > 0:
        length += HEADER_LENGTH
    assert int(last[1]) == length <= total, lines[-1]
    assert version == 2 or total > 0 and all(it[3] in (None, "0") for it in found), lines
    check_status(status, 0)


def without_updates(stdout):
    """Judge the updates of each order that `journal --updates` printed, and give the rest, as `journal` prints it."""
    lines, told, at = lines_of(stdout), [], 0
    while at < len(lines):
        found = RECORD.fullmatch(lines[at])
        count = int(found[4]) if found and found[4] else 0
        if count:
            judge_updates(lines[at + 1:at + 1 + count], count)
        told.append(lines[at])
        at += 1 + count
    return "".join(line + "\n" for line in told).encode()


def is_setup_fault(line):
    """Whether the line is a fault of a scenario, its units or its orders."""
    kinds = re.fullmatch(f"(unit|event) ({NUMBER}) fault .*", line)
    if kinds and kinds[1] == "event":
        return is_item_fault(line, "event", kinds[2])
    if kinds:
        return line in [f"unit {kinds[2]} fault {fault} {name}" for fault, name in UNIT_FAULTS.items()]
    return line in ("gear fault 5 SameAddress", "run fault 1 Limit") or is_file_fault(line)


def judge_run(status, stdout, stderr):
    """Judge what `run` printed, with a line for each frame or not."""
    lines = lines_of(stdout)
    assert lines
    judge_notes(lines, stderr)
    if len(lines) == 1 and is_setup_fault(lines[0]):
        return check_status(status, 1)
    frames, journal, at = 0, HEADER_LENGTH, 0
    while not lines[at].startswith("total "):
        line = lines[at]
        run, record = re.fullmatch("frames ([1-9][0-9]*)", line), RECORD.fullmatch(line.removeprefix("keep "))
        if run:
            assert not lines[at + 1].startswith("frames"), lines[at:at + 2]
            frames += int(run[1])
        elif re.fullmatch("send [0-9A-F]{4} (?:--|[0-9A-F]{2})", line):
            frames += 1
        elif line.startswith("keep ") and record:
            journal += record_length(record)
        else:
            assert REPLY.fullmatch(line) or re.fullmatch(f"ask {NUMBER}|stop|power (?:{NUMBER})", line), line
        at += 1
    assert lines[at:at + 2] == [f"total {frames}", f"journal {journal}"], (lines[at:at + 2], frames, journal)
    assert all(UNIT.fullmatch(line) for line in lines[at + 2:]), lines[at + 2:]
    check_status(status, 0)


def runs_of(stdout):
    """Give what `run --frames` printed as `run` prints it."""
    lines, count = [], 0
    for line in [*lines_of(stdout), None]:
        if line is not None and line.startswith("send "):
            count += 1
            continue
        if count:
            lines.append(f"frames {count}")
        count = 0
        lines.append(line)
    return "".join(line + "\n" for line in lines[:-1]).encode()


def judge_drive_head(told, sent):
    """Judge the lines of refused items and of a file's fault, if the output is of these; tell whether it is."""
    refused = [re.fullmatch(f"item ({NUMBER}) fault .*", line) for line in told]
    if any(refused):
        assert not sent and all(found and is_item_fault(found[0], "item", found[1]) for found in refused), told
        return True
    if told and (JOURNAL_FAULT.fullmatch(told[-1]) or is_file_fault(told[-1])):
        assert len(told) == 1 and not sent, (told, sent)
        return True
    return False


def judge_drive(status, stdout, stderr):
    """Judge what `drive` printed: frames to standard output, and all else to standard error."""
    sent, told = lines_of(stdout), lines_of(stderr)
    assert all(re.fullmatch("[0-9A-F]{4}", line) for line in sent), sent
    if judge_drive_head(told, sent):
        return check_status(status, 1)
    fault = re.fullmatch("drive fault (.*)", told[-1]) if told else None
    assert all(REPLY.fullmatch(line) for line in (without_fault(told, fault[1]) if fault else told)), told
    check_status(status, DRIVE_FAULTS[fault[1]] if fault else 0)


def without_totals(ended):
    """Give what a drive told that shows its progress, without its totals, which tell each frame that was sent."""
    lines = ended.told.splitlines(keepends=True)
    found = TOTALS.fullmatch(lines[-1]) if lines else None
    assert found and int(found[1]) == ended.sent.count(b"\n"), (lines[-1:], len(ended.sent))
    return "".join(lines[:-1])


def without_fault(told, fault):
    """Give the lines before that of a fault, and before that of its cause."""
    if fault in ("1 Journal", "2 Link"):
        assert told[-2:-1] and told[-2].startswith("error: "), told
        return told[:-2]
    return told[:-1]


def judge_link(status, stdout, stderr):
    """Judge what a command sent that only reads, and its fault; give its other lines, and the status, or None there."""
    sent, told = lines_of(stdout), lines_of(stderr)
    check_passive(stdout)
    fault = re.fullmatch("drive fault (.*)", told[-1]) if told else None
    if fault:
        check_status(status, DRIVE_FAULTS[fault[1]])
        assert fault[1] != "1 Journal" and sent, told
    return (without_fault(told, fault[1]), None) if fault else (told, status)


def judge_read(status, stdout, stderr):
    """Judge what `read` printed."""
    told, ended = judge_link(status, stdout, stderr)
    if ended is None:
        assert told == [], told
        return None
    found = re.fullmatch(f"unit {ADDRESS} (?:silent|bytes ([0-9]+))", told[0])
    assert len(told) == 1 and found and (found[1] is None or 1 <= int(found[1]) <= 255), told
    return check_status(ended, 1 if found[1] is None else 0)


def judge_verify(status, stdout, stderr):
    """Judge what `verify` printed."""
    if judge_drive_head(lines_of(stderr), lines_of(stdout)):
        return check_status(status, 1)
    told, ended = judge_link(status, stdout, stderr)
    if told == [NOTHING]:
        assert stdout == b"", stdout
        return check_status(ended, 1)
    found = [ORDER_LINE.fullmatch(line) for line in told]
    assert all(found), told
    assert all(it[1] is None or 0x03 <= int(it[1], 16) <= 0x77 for it in found), told
    if ended is None:
        return None
    return check_status(ended, 0 if all(line.endswith(" same") for line in told) else 1)


def judge_scan(status, stdout, stderr):
    """Judge what `scan` printed."""
    told, ended = judge_link(status, stdout, stderr)
    if ended is not None:
        assert told and told.pop() == f"units {len(told)}", told
        check_status(ended, 0)
    found = [LAST_LINE.fullmatch(line) for line in told]
    assert all(found), told
    addresses = [int(it[1]) for it in found]
    assert len(addresses) == len(set(addresses)), addresses


JUDGES = {"read": judge_read, "verify": judge_verify, "scan": judge_scan}
