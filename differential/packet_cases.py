#!/usr/bin/env python3
"""Makes crates/packet_cases/stdin and stdout from the Rust's answers and from cases by hand; src/main.rt says what a
question means.

Usage: (for part in packets merge late; do differential/run --sample $part; done) | differential/packet_cases.py
"""
import pathlib
import sys

folder = pathlib.Path(__file__).resolve().parent.parent / "crates" / "packet_cases"
CAPTURE, PIPELINE, WRITE, MERGE, PROPOSE = 1, 2, 2, 5, 6  # a packet to be written is of kind family + WRITE
TOP, OVER = str(2**64 - 1), str(2**64)


def ce(term="1", phase='"Prepare"', data="[116,120,49]", flags="[true,false]"):
    """A capture text, or what is left of it if a field is no such field."""
    return f'{{"term":{term},"phase":{phase},"proposal_data":{data},"flags_bitmap":{flags}}}'


def pipe(tx="0", state='"Prepare"', flags="[]", abort="false", nack="0", data="[]", sender="0", piggyback='"piggyback_tx":null,', after="null"):
    """The same of a pipeline text."""
    return (
        f'{{"transaction_id":{tx},"state":{state},"flags_bitmap":{flags},"abort_flag":{abort},"nack_tx_id":{nack},'
        f'"transaction_data":{data},"sender":{sender},{piggyback}"piggyback_state":{after}}}'
    )


def listed(count, what):
    return "[" + ",".join([what] * count) + "]"


def piggyback(tx):
    return f'"piggyback_tx":{tx},'


# ---- By hand: texts at the limits and off the grammar, by RULES 5.3 to 5.5. Name, text, refusal (0 for none).
CAPTURE_TEXTS = [
    ("bitmap of 64", ce(flags=listed(64, "true")), 0),
    ("bitmap of 65", ce(flags=listed(65, "true")), 9),
    ("bitmap empty", ce(flags="[]"), 0),
    ("data of 32", ce(data=listed(32, "255")), 0),
    ("data of 33", ce(data=listed(33, "0")), 9),
    ("data empty", ce(data="[]"), 0),
    ("byte 255", ce(data="[255]"), 0),
    ("byte 256", ce(data="[256]"), 9),
    ("term 0", ce(term="0"), 0),
    ("greatest term", ce(term=TOP), 0),
    ("term one more", ce(term=OVER), 9),
    ("term of 21 digits", ce(term="1" + "0" * 20), 9),
    ("committed", ce(phase='"Committed"'), 0),
    ("aborted", ce(phase='"Aborted"'), 0),
    ("longest", ce(term=TOP, phase='"Committed"', data=listed(32, "255"), flags=listed(64, "false")), 0),
    ("leading zero", ce(term="01"), 9),
    ("two zeros", ce(term="00"), 9),
    ("minus zero", ce(term="-0"), 9),
    ("negative", ce(term="-1"), 9),
    ("plus", ce(term="+1"), 9),
    ("fraction", ce(term="1.0"), 9),
    ("exponent", ce(term="1e0"), 9),
    ("no digits", ce(term=""), 9),
    ("string for a number", ce(term='"1"'), 9),
    ("leading zero in data", ce(data="[01]"), 9),
    ("negative byte", ce(data="[-1]"), 9),
    ("hexadecimal", ce(term="0x1"), 9),
    ("empty text", "", 9),
    ("blank in front", " " + ce(), 9),
    ("blank behind", ce() + " ", 9),
    ("line end behind", ce() + "\n", 9),
    ("blank behind a colon", ce(term=" 1"), 9),
    ("blank in an array", ce(data="[1, 2]"), 9),
    ("byte behind", ce() + "0", 9),
    ("text twice", ce() + ce(), 9),
    ("no brace", ce()[:-1], 9),
    ("only a brace", "{", 9),
    ("null behind", ce() + "\0", 9),
    ("byte order mark", "\ufeff" + ce(), 9),
    ("comma behind the last", ce(flags="[true,]"), 9),
    ("comma first", ce(flags="[,true]"), 9),
    ("comma alone", ce(flags="[,]"), 9),
    ("array not closed", ce(flags="[true"), 9),
    ("no comma", '{"term":1"phase":"Prepare","proposal_data":[],"flags_bitmap":[]}', 9),
    ("reordered", '{"phase":"Prepare","term":1,"proposal_data":[],"flags_bitmap":[]}', 9),
    ("field missing", '{"term":1,"phase":"Prepare","proposal_data":[]}', 9),
    ("unknown field", ce(flags='[true,false],"x":0'), 9),
    ("field twice", ce(term='1,"term":1', data="[]", flags="[]"), 9),
    ("name in capitals", ce().replace("term", "Term"), 9),
    ("escaped name", ce().replace("term", "\\u0074erm"), 9),
    ("unknown phase", ce(phase='"Pending"'), 9),
    ("phase in small letters", ce(phase='"prepare"'), 9),
    ("escaped phase", ce(phase='"\\u0050repare"'), 9),
    ("phase as object", ce(phase='{"Prepare":null}'), 9),
    ("array for the object", '[1,"Prepare",[116,120,49],[true,false]]', 9),
    ("marks as numbers", ce(flags="[1,0]"), 9),
    ("mark in capitals", ce(flags="[True]"), 9),
    ("mark cut short", ce(flags="[tru]"), 9),
    ("null for data", ce(data="null"), 9),
]
PIPELINE_TEXTS = [
    ("all absent", pipe(after='"Committed"'), 0),
    ("both absent", pipe(), 0),
    ("both present", pipe(piggyback=piggyback("3"), after='"Aborted"'), 0),
    ("piggyback of 0", pipe(piggyback=piggyback("0")), 0),
    ("piggyback prepare", pipe(after='"Prepare"'), 0),
    ("pipeline bitmap of 64", pipe(flags=listed(64, "false")), 0),
    ("pipeline bitmap of 65", pipe(flags=listed(65, "false")), 9),
    ("pipeline data of 32", pipe(data=listed(32, "7")), 0),
    ("pipeline data of 33", pipe(data=listed(33, "7")), 9),
    ("greatest numbers", pipe(tx=TOP, abort="true", nack=TOP, sender=TOP, piggyback=piggyback(TOP)), 0),
    ("sender one more", pipe(sender=OVER), 9),
    ("piggyback one more", pipe(piggyback=piggyback(OVER)), 9),
    ("piggyback with a leading zero", pipe(piggyback=piggyback("00")), 9),
    ("flag as a number", pipe(abort="1"), 9),
    ("null cut short", pipe(piggyback=piggyback("nul")), 9),
    ("null for a number", pipe(nack="null"), 9),
    ("piggyback missing", pipe(piggyback=""), 9),
    ("capture text", ce(), 9),
    (
        "longest",
        pipe(TOP, '"Committed"', listed(64, "false"), "false", TOP, listed(32, "255"), TOP, piggyback(TOP), '"Committed"'),
        0,
    ),
]
# A stated length: the bytes behind it are not read, and one over the buffer is 10, also for a bad text. Family, text, length, answer.
STATED = [
    ("stated length", CAPTURE, ce() + "rest", 85, f"86 .{ce()}."),
    ("stated length short", CAPTURE, ce(), 84, "refusal 9"),
    ("stated length over the buffer", CAPTURE, ce(), 86, "refusal 10"),
    ("bad text and length over the buffer", CAPTURE, "x", 2, "refusal 10"),
    ("length 0 of nothing", CAPTURE, "", 0, "refusal 9"),
    ("greatest stated length", PIPELINE, "x", TOP, "refusal 10"),
]
# A buffer that the text fills, one that is a byte short, and places at and behind the end; data behind its length, which is not written; then
# numbers that no packet has: outside the limits, stray marks, numbers beside a piggyback that is absent. Family, data, size, place, numbers, answer.
SMALL = "1 0 3 2 1"  # the numbers of ce()
WRITTEN = [
    ("buffer just full", CAPTURE, b"tx1", 85, 0, SMALL, f"85 {ce()}"),
    ("buffer one short", CAPTURE, b"tx1", 84, 0, SMALL, "refusal 10 " + "." * 84),
    ("with room around", CAPTURE, b"tx1", 90, 2, SMALL, f"87 ..{ce()}..."),
    ("one place too late", CAPTURE, b"tx1", 90, 6, SMALL, "refusal 10 " + "." * 90),
    ("behind the end", CAPTURE, b"tx1", 90, 91, SMALL, "refusal 10 " + "." * 90),
    ("greatest place", CAPTURE, b"tx1", 90, TOP, SMALL, "refusal 10 " + "." * 90),
    ("bitmap of 65", CAPTURE, b"tx1", 8, 0, "1 0 3 65 1", "refusal 9 " + "." * 8),
    ("data of 33", CAPTURE, b"tx1" + bytes(30), 8, 0, "1 0 33 1 6", "refusal 9 " + "." * 8),
    ("data behind its length", CAPTURE, b"tx1", 75, 1, "1 0 1 1 0", f'74 .{ce(data="[116]", flags="[false]")}.'),
    ("all 64 marks", CAPTURE, b"", 384, 0, f"1 0 0 64 {TOP}", f'{len(ce(data="[]", flags=listed(64, "true")))} {ce(data="[]", flags=listed(64, "true"))}'),
    ("stray mark", CAPTURE, b"tx1", 75, 1, "1 0 1 1 2", "refusal 9 " + "." * 75),
    ("stray mark of no entries", CAPTURE, b"", 75, 1, "0 0 0 0 1", "refusal 9 " + "." * 75),
    ("highest stray mark", CAPTURE, b"", 75, 1, f"1 0 0 63 {2**63}", "refusal 9 " + "." * 75),
    ("stray mark and too little data", CAPTURE, b"tx", 75, 1, "1 0 3 1 2", "refusal 10 " + "." * 75),
    ("pipeline packet", PIPELINE, b"", 175, 1, "0 0 0 0 0 0 0 0 0 0 1 1", f"""174 .{pipe(after='"Committed"')}."""),
    ("pipeline stray mark", PIPELINE, b"", 175, 1, "0 0 3 8 0 0 0 0 0 0 0 0", "refusal 9 " + "." * 175),
    ("number of no piggyback", PIPELINE, b"", 175, 1, "0 0 0 0 0 0 0 0 0 7 0 0", "refusal 9 " + "." * 175),
    ("phase of no piggyback", PIPELINE, b"", 175, 1, "0 0 0 0 0 0 0 0 0 0 0 1", "refusal 9 " + "." * 175),
]
# Proposals: buffers that the text fills, and one byte fewer; the last term but one, and the last; then 8 and 2. Name, size, term, n, position, answer.
PROPOSED = [
    ("proposal, buffer just full", 85, 0, 2, 0, f"85 {ce()}"),
    ("proposal, buffer one short", 84, 0, 2, 0, "refusal 10 " + "." * 84),
    ("proposal of the last term", 1, int(TOP) - 1, 2, 0, "refusal 10 ."),
    ("no term follows", 85, int(TOP), 2, 0, "refusal 13 " + "." * 85),
    ("no such position", 3, int(TOP), 2, 2, "refusal 8 ..."),
    ("no positions", 3, 0, 0, 0, "refusal 2 ..."),
    ("65 positions", 3, 0, 65, 65, "refusal 2 ..."),
]


def told(data):
    """Bytes as a word of a question."""
    return data.hex().upper() or "-"


def shown(text):
    """The answer for a text that is written at place 1 of a buffer with a byte more behind it."""
    return f"{len(text) + 1} .{text}."


def by_hand():
    for family, texts in ((CAPTURE, CAPTURE_TEXTS), (PIPELINE, PIPELINE_TEXTS)):
        for name, text, refusal in texts:
            yield f"{family} {told(text.encode())} {len(text.encode())} {name}", f"refusal {refusal}" if refusal else shown(text)
    for name, family, text, length, answer in STATED:
        yield f"{family} {told(text.encode())} {length} {name}", answer
    for name, family, data, size, place, numbers, answer in WRITTEN:
        yield f"{family + WRITE} {told(data)} {size} {place} {numbers} {name}", answer
    for name, size, term, n, position, answer in PROPOSED:
        yield f"{PROPOSE} {size} {term} {n} 0 0 {position} {name}", answer


def of_text(columns):
    """A text is read and written again if it has the form of RULES 5.3, and is then also written from the numbers that the Rust says; else it is refused,
    also where the Rust reads it."""
    head, digits, numbers, data, kind = columns
    family, _, ours = head.split()
    text = bytes.fromhex(digits)
    asked = f"{family} {told(text)} {len(text)} {kind}"
    if ours != "1":
        return [(asked, "refusal 9")]
    answer = shown(text.decode())
    data = bytes(int(b) for b in data.split())
    return [(asked, answer), (f"{int(family) + WRITE} {told(data)} {len(text) + 2} 1 {numbers} {kind}", answer)]


def of_merge(columns):
    head, local, received, news, after, way = columns
    asked = f"{MERGE} {local or '-'} {received or '-'} {head} {way}"
    return [(asked, f"{news} {bytes.fromhex(after).decode()}")]


def of_proposal(columns):
    """Written into a buffer with one byte more than the text."""
    head, after, note = columns
    text = bytes.fromhex(after).decode()
    return [(f"{PROPOSE} {len(text) + 1} {head} {note}", f"{len(text)} {text}.")]


def from_sample(line):
    """A line of a sample as questions and answers: proposals have three columns, texts five, merges six."""
    columns = [part.strip() for part in line.split("|")]
    return {3: of_proposal, 5: of_text, 6: of_merge}[len(columns)](columns)


sample = [line for line in sys.stdin if line.strip() and not line.startswith("#")]
cases = [case for line in sample for case in from_sample(line)] + list(by_hand())
(folder / "stdin").write_text("".join(asked + "\n" for asked, _ in cases))
(folder / "stdout").write_text("".join(answer + "\n" for _, answer in cases))
print(len(sample), "lines of the samples,", len(cases), "cases")
