"""The recorded calls: each is made on several kinds of buffers, and answer and memory must be those of the reference, an implementation that
shares nothing with the library. `cargo run --example record` in rust/ writes the file."""

import array
import collections
import itertools
import json
import unittest
from pathlib import Path

import xrs

LINES = [json.loads(line) for line in Path(__file__).with_name("calls.jsonl").read_text(encoding="ascii").splitlines()]

# What a line has of the answer.
ANSWERS = ("value", "values", "totals", "after", "after_left")

# The kinds of buffers that are read.
KINDS = {
    "bytes": bytes,
    "bytearray": bytearray,
    "view": lambda content: memoryview(b"rim" + content + b"rim")[3 : 3 + len(content)],
    "array": lambda content: array.array("B", content),
}


class Room:
    """A buffer to be written, inside a larger one whose rims must stay."""

    RIM = bytes([0xA7]) * 24

    def __init__(self, content):
        self.before = bytes(content)
        self.bytes = bytearray(self.RIM + self.before + self.RIM)
        self.view = memoryview(self.bytes)[len(self.RIM) : len(self.RIM) + len(content)]

    def holds(self, content):
        return self.bytes == self.RIM + bytes(content) + self.RIM


class Call:
    """A recorded call, on buffers of this kind."""

    def __init__(self, line, kind):
        self.line, self.kind = line, kind
        self.room = None
        self.reach = line.get("reach")

    def __getitem__(self, key):
        return self.line[key]

    def read(self, key):
        return self.kind(bytes.fromhex(self.line[key]))

    def write(self, key):
        self.room = Room(bytes.fromhex(self.line[key]))
        return self.room.view

    def output(self):
        self.room = Room(b"\x5a" * self.line["length"])
        return self.room.view


def restore_word(method):
    return lambda call: {"value": method(call["width"], call.write("word"), call.read("marks"), reach=call.reach)}


def bay_restore(call):
    *own, common = call["left"]
    left = xrs.Counts(own, common)
    try:
        value = left.restore(call["bay"], call.write("record"), reach=call.reach)
    except xrs.Refusal:
        assert left == xrs.Counts(own, common), "a refused call changed the counts"
        raise
    return {"value": value, "after_left": [*left.own, left.common]}


def walk_step(call):
    walk = xrs.Walk(call.write("card"), next=call["next"], length=call["length"])
    try:
        treated = walk.step()
    except xrs.Refusal:
        assert (walk.length, walk.next) == (call["length"], call["next"]), "a refused step changed the walk"
        raise
    assert treated == range(call["next"], walk.next)
    return {"value": walk.next}


def compare_sheets(call):
    controller, cupboard = call.read("controller"), call.read("cupboard")
    found = xrs.compare_sheets(controller, call["controller_number"], cupboard, call["cupboard_number"])
    card, number = (controller, call["controller_number"]) if found.chosen is xrs.Side.CONTROLLER else (cupboard, call["cupboard_number"])
    assert found.part == memoryview(card)[(number - 1) * 139 : number * 139]
    totals = [found.equal, found.controller_higher, found.cupboard_higher]
    return {"value": found.chosen.value, "totals": totals, "after": found.signs.hex()}


def compare_part(call):
    part = xrs.compare_part(call.read("controller"), call["controller_number"], call.read("cupboard"), call["cupboard_number"])
    return {"after": part.hex()}


def window(call, made=xrs.window):
    report = made(xrs.Card(call.read("card")), call["first"], call["end"])
    numbers = []
    for pump in report.pumps:
        date = [pump.date.year - 2000, pump.date.month, pump.date.day] if pump.date else [0, 0, 0]
        numbers += [pump.sheets, pump.sum, pump.full, pump.highest, *date, pump.quotient, pump.remainder]
    numbers += [report.refused, report.blank, int(report.further)]
    return {"values": [part for place, number in enumerate(numbers) if number for part in (place, number)]}


def sheets(call, made=xrs.Card.sheets):
    found = made(xrs.Card(call.read("card")))
    return {"after": b"".join(bytes([sheet.number]) + sheet.symbols() for sheet in found).hex()}


# What each call answers; what it leaves stands in the call's room.
CALLS = {
    "sum": lambda call: {"value": xrs.sum(call["width"], call["a"], call["b"])},
    "product": lambda call: {"value": xrs.product(call["width"], call["a"], call["b"])},
    "power": lambda call: {"value": xrs.power(call["width"], call["a"], call["e"])},
    "inverse": lambda call: {"value": xrs.inverse(call["width"], call["a"])},
    "encode": lambda call: xrs.encode_into(call["width"], call.read("data"), call.output()),
    "is_codeword": lambda call: {"value": int(xrs.is_codeword(call["width"], call.read("word")))},
    "read_data": lambda call: xrs.read_data_into(call["width"], call.read("word"), call.output()),
    "syndromes": lambda call: {"values": list(xrs.syndromes(call["width"], call.read("word"), call.read("marks")))},
    "restore_word": restore_word(xrs.restore_word),
    "restore_record": lambda call: {"value": xrs.restore_record(call.write("record"), reach=call.reach)},
    "check_card": lambda call: {"value": xrs.check_card(call.read("card")) or 0},
    "card_to_new": lambda call: xrs.card_to_new_into(call.read("card"), call.output()),
    "card_to_old": lambda call: xrs.card_to_old_into(call.read("card"), call.output()),
    "look": lambda call: xrs.look_into(call.read("card"), call["number"], call.output()),
    "walk_step": walk_step,
    "bay_restore": bay_restore,
    "write_sheet": lambda call: xrs.write_sheet_into(call["width"], call.read("symbols"), call.output()),
    "read_sheet": lambda call: xrs.read_sheet_into(call["width"], call.read("word"), call.output()),
    "compare_sheets": compare_sheets,
    "compare_part": compare_part,
    "window": window,
    "sheets": sheets,
}

# The same by another way.
SISTERS = {
    "restore_word": restore_word(xrs.restore_word_by_trials),
    "check_card": lambda call: {"value": xrs.Card(call.read("card")).check() or 0},
    "window": lambda call: window(call, xrs.Card.window),
    "sheets": lambda call: sheets(call, xrs.sheets),
}

# The calls that make what those above write into a buffer, which then has the right length.
MAKERS = {
    "encode": lambda call: xrs.encode(call["width"], call.read("data")),
    "read_data": lambda call: xrs.read_data(call["width"], call.read("word")),
    "card_to_new": lambda call: xrs.card_to_new(call.read("card")),
    "card_to_old": lambda call: xrs.card_to_old(call.read("card")),
    "look": lambda call: xrs.look(call.read("card"), call["number"]),
    "write_sheet": lambda call: xrs.write_sheet(call["width"], call.read("symbols")),
    "read_sheet": lambda call: xrs.read_sheet(call["width"], call.read("word")),
}


def answered(call, calls):
    """What a call answers and leaves, as its line has it."""
    try:
        answer = calls[call["call"]](call) or {}
    except xrs.Refusal as refusal:
        assert call.room is None or call.room.holds(call.room.before), "a refused call wrote"
        return {"refusal": refusal.number}
    if call.room is not None:
        after = bytes(call.room.view)
        assert call.room.holds(after), "a byte beside the buffer changed"
        answer["after"] = after.hex()
    return {"refusal": 0, **answer}


class Recorded(unittest.TestCase):
    """Each line in turn."""

    def test_every_call_and_refusal_is_recorded(self):
        calls = collections.Counter(line["call"] for line in LINES)
        self.assertEqual(set(calls), set(CALLS))
        self.assertGreater(min(calls.values()), 10)
        self.assertEqual({line["refusal"] for line in LINES}, set(range(22)))
        for name in calls:
            self.assertIn(0, {line["refusal"] for line in LINES if line["call"] == name})

    def test_calls_answer_what_the_reference_answers(self):
        for (kind, make), (number, line) in itertools.product(KINDS.items(), enumerate(LINES, 1)):
            wanted = {key: line[key] for key in ("refusal", *ANSWERS) if key in line}
            for calls in [ways for ways in (CALLS, SISTERS) if line["call"] in ways]:
                with self.subTest(kind=kind, line=number, call=line["call"]):
                    self.assertEqual(answered(Call(line, make), calls), wanted)

    def test_what_is_made_is_what_is_written(self):
        made = collections.Counter()
        for line in LINES:
            if line["call"] in MAKERS and line["refusal"] == 0:
                made[line["call"]] += 1
                self.assertEqual(MAKERS[line["call"]](Call(line, bytes)).hex(), line["after"])
        self.assertEqual(set(made), set(MAKERS))


if __name__ == "__main__":
    unittest.main()
