"""What the calls do in Python's manner: numbers of any size, refusals, cards, walks and day sheets."""

import copy
import datetime
import inspect
import itertools
import pickle
import typing
import unittest
from pathlib import Path

import xrs

ROOT = Path(__file__).resolve().parents[2]
WORD = bytes([2, 7, 5, 6, 1, 3, 0, 1, 0, 0, 0, 0])
LEAP_DAY = xrs.Sheet(datetime.date(2024, 2, 29), 5, bytes(96))


class Case(unittest.TestCase):
    def refused(self, number, call, *arguments, **named):
        with self.assertRaises(xrs.Refusal) as caught:
            call(*arguments, **named)
        self.assertEqual(caught.exception.number, number)


class Numbers(Case):
    """A number that fits no byte is refused like another wrong one, and in the same order."""

    def test_numbers_that_fit_no_byte(self):
        for wrong in (-1, 256, 259, 1 << 40, -(1 << 70)):
            self.refused(1, xrs.sum, wrong, 1, 1)
            self.refused(6, xrs.sum, 3, wrong, 1)
            self.refused(6, xrs.product, 3, 1, wrong)
            self.refused(1, xrs.inverse, wrong, wrong)
            self.refused(1, xrs.encode, wrong, bytes(7))
            self.refused(4, xrs.restore_word, 3, bytearray(WORD), [wrong])
            self.refused(4, xrs.restore_word, 3, bytearray(WORD), [wrong, wrong])
            self.refused(16, xrs.restore_word, 3, bytearray(WORD), reach=wrong)
            self.refused(18, xrs.Counts().restore, wrong, bytearray(1))
            self.refused(21, xrs.window, b"", wrong, 96)
            self.refused(21, xrs.window, b"", 0, wrong)

    def test_numbers_of_records(self):
        card = LEAP_DAY.record()
        for wrong in (0, -1, 2, 1 << 64, (1 << 64) + 1, -(1 << 64) + 1):
            self.refused(17, xrs.look, card, wrong)
            self.refused(17, xrs.compare_sheets, card, wrong, card, 1)
            self.refused(17, xrs.compare_sheets, card, 1, card, wrong)
            self.refused(17, xrs.compare_part, card, wrong, card, 1)
            self.refused(17, xrs.compare_part, card, 1, card, wrong)
        for wrong in (0, -1, 3, 1 << 64, (1 << 64) + 1):
            self.refused(17, xrs.Walk(card, next=wrong).step)
        for wrong in (0, 138, -1, 1 << 64, (1 << 64) + 139):
            self.refused(2, xrs.Walk(card, length=wrong).step)

    def test_exponents(self):
        self.assertEqual(xrs.power(7, 2, 65_535), 8)
        for wrong in (-1, 65_536):
            with self.assertRaisesRegex(ValueError, "exponent"):
                xrs.power(7, 2, wrong)

    def test_counts_of_a_dock(self):
        for wrong in (xrs.Counts([1, 2, 3]), xrs.Counts([1] * 5), xrs.Counts([65_536] * 4), xrs.Counts([0] * 4, -1)):
            with self.assertRaisesRegex(ValueError, "counts"):
                wrong.restore(0, LEAP_DAY.record())

    def test_what_is_no_number(self):
        for wrong in ("3", 3.0, None):
            with self.assertRaises(TypeError):
                xrs.sum(wrong, 1, 1)
            with self.assertRaises(TypeError):
                xrs.restore_word(3, bytearray(WORD), [wrong])


class Refusals(Case):
    def test_each_refusal_has_number_words_and_question(self):
        self.assertEqual([question.value for question in xrs.Question], list(range(1, 22)))
        for question in xrs.Question:
            refusal = xrs.Refusal(question)
            self.assertEqual((refusal.number, refusal.question, str(refusal)), (question.value, question, refusal.words))

    def test_an_unknown_number(self):
        refusal = xrs.Refusal(77)
        self.assertEqual((refusal.number, refusal.question), (77, None))
        self.assertEqual(str(refusal), "refused with the number 77, which is not known here")

    def test_a_refusal_is_a_value_error_that_can_be_copied(self):
        refusal = xrs.Refusal(7)
        self.assertIsInstance(refusal, ValueError)
        for other in (copy.copy(refusal), pickle.loads(pickle.dumps(refusal))):
            self.assertEqual((other.number, other.words), (7, "no codeword is near"))


class Cards(Case):
    """The cards in examples/, for which the programs' pages say what is on them."""

    @classmethod
    def setUpClass(cls):
        cls.worn = (ROOT / "examples/worn.card").read_bytes()
        cls.days = (ROOT / "examples/days.card").read_bytes()

    def test_slots(self):
        card = xrs.Card(self.worn)
        slots = list(card.slots())
        self.assertEqual((len(card), len(slots)), (72, 72))
        self.assertEqual(b"".join(slot.bytes for slot in slots), self.worn)
        self.assertEqual([slot.number for slot in slots if slot.is_blank], [38])
        accepted, changed = 0, 0
        for slot in slots:
            try:
                changed += slot.restored()[1]
                accepted += 1
            except xrs.Refusal:
                pass
        self.assertEqual((accepted, 72 - 1 - accepted, changed), (38, 33, 25))  # the total line of cardlist

    def test_a_walk_restores_what_each_record_alone_gives(self):
        card = bytearray(self.worn)
        walk = xrs.Card(card).walk()
        self.assertEqual([list(step) for step in walk][-1], list(range(65, 73)))
        self.assertTrue(walk.is_done)
        self.assertEqual(walk.step(), range(73, 73))
        for before, after in zip(xrs.Card(self.worn).slots(), xrs.Card(card).slots()):
            try:
                self.assertEqual(after.bytes, before.restored()[0])
            except xrs.Refusal:
                self.assertEqual(after.bytes, before.bytes)

    def test_a_walk_goes_on_where_another_stopped(self):
        card, whole = bytearray(self.worn), bytearray(self.worn)
        list(xrs.Walk(whole))
        first = xrs.Walk(card)
        next(first)
        self.assertEqual([step.start for step in xrs.Walk(card, next=first.next, length=first.length)], [17, 33, 49, 65])
        self.assertEqual(card, whole)

    def test_a_walk_stops_where_the_card_has_another_length(self):
        card = bytearray(self.worn)
        walk = xrs.Walk(card)
        next(walk)
        card.append(0)
        self.refused(2, walk.step)
        self.assertEqual(walk.next, 17)

    def test_a_look_is_the_same_during_a_walk(self):
        card = bytearray(self.worn)
        before = xrs.look(card, 1)
        for _ in xrs.Walk(card):
            self.assertEqual(xrs.Card(card).look(1), before)

    def test_check(self):
        self.assertEqual(xrs.Card(self.worn).check(), 2)
        self.assertIsNone(xrs.check_card(LEAP_DAY.record()))

    def test_conversion_there_and_back(self):
        old = (ROOT / "examples/old/two.card").read_bytes()
        new = xrs.card_to_new(xrs.Card(old))
        self.assertEqual(new, (ROOT / "examples/two.card").read_bytes())
        self.assertEqual(xrs.card_to_old(new), old)
        self.refused(2, xrs.card_to_new, (ROOT / "examples/old/worn.card").read_bytes())

    def test_the_window_of_the_readme(self):
        report = xrs.window(self.days, "06:00", "18:00")
        told = {number: (pump.sheets, pump.sum, pump.full, pump.highest, pump.date) for number, pump in enumerate(report.pumps) if pump.sheets}
        self.assertEqual(told[5], (3, 260, 2, 127, datetime.date(2023, 12, 31)))
        self.assertEqual(told[12], (1, 4, 0, 4, datetime.date(2024, 11, 2)))
        self.assertEqual(told[127], (1, 0, 0, 0, datetime.date(2099, 10, 10)))
        self.assertEqual((len(told), report.refused, report.blank, report.further), (3, 3, 2, False))
        self.assertIsNone(report.pumps[0].date)
        self.assertEqual(report, xrs.Card(self.days).window(24, 72))

    def test_the_sheets_of_a_card_are_those_of_the_window(self):
        found = list(xrs.Card(self.days).sheets())
        report = xrs.window(self.days, 0, 96)
        for number, pump in enumerate(report.pumps):
            own = [sheet for sheet in found if sheet.pump == number]
            self.assertEqual(len(own), pump.sheets)
            self.assertEqual(sum(sum(sheet.starts) for sheet in own), pump.sum)
            if own:
                highest = max(max(sheet.starts) for sheet in own)
                self.assertEqual(pump.date, min(sheet.date for sheet in own if highest in sheet.starts))


class Sheets(Case):
    def test_a_sheet_is_read_as_it_was_written(self):
        for day in (datetime.date(2000, 1, 1), datetime.date(2000, 2, 29), datetime.date(2127, 12, 31)):
            sheet = xrs.Sheet(day, 127, bytes(range(96)))
            self.assertEqual(xrs.Sheet.read(sheet.word()), sheet)
            self.assertEqual([found for found in xrs.sheets(sheet.record())], [sheet])

    def test_sheets_that_cannot_be_written(self):
        self.refused(6, xrs.Sheet(datetime.date(2128, 1, 1), 5, bytes(96)).word)
        self.refused(6, xrs.Sheet(datetime.date(1999, 12, 31), 5, bytes(96)).word)
        self.refused(6, xrs.Sheet(datetime.date(2024, 1, 1), 128, bytes(96)).word)
        self.refused(6, xrs.Sheet(datetime.date(2024, 1, 1), 5, bytes([128]) * 96).word)
        self.refused(2, xrs.Sheet(datetime.date(2024, 1, 1), 5, bytes(95)).word)

    def test_quarters(self):
        hours = [f"{hour:02}:{minute:02}" for hour in range(24) for minute in (0, 15, 30, 45)] + ["24:00"]
        self.assertEqual([xrs.quarter(hour) for hour in hours], list(range(97)))
        for wrong in ("6:00", "06:10", "24:15", "25:00", "", "24", "-1:00", "06:00 ", "०६:००"):
            with self.assertRaisesRegex(ValueError, "no quarter hour"):
                xrs.window(b"", wrong, "24:00")

    def test_windows(self):
        for first, end in itertools.product(range(100), range(100)):
            if first < end <= 96:
                xrs.window(b"", first, end)
            else:
                self.refused(21, xrs.window, b"", first, end)

    def test_the_part_that_a_comparison_hands_back(self):
        first, second = bytearray(LEAP_DAY.record()), bytes(139) + LEAP_DAY.record()
        self.assertEqual(bytes(xrs.compare_sheets(first, 1, second, 2).part), first)
        first[7] ^= 1
        found = xrs.compare_sheets(first, 1, xrs.Card(second), 2)
        self.assertIs(found.chosen, xrs.Side.CUPBOARD)
        self.assertIs(found.part.obj, second)
        self.assertEqual(found.part, second[139:])
        self.assertIs(xrs.compare_part(first, 1, second, 2).obj, second)
        self.assertEqual(xrs.compare_part(first, 1, second, 2), second[139:])


class Package(unittest.TestCase):
    def test_all_names_are_there(self):
        self.assertEqual([name for name in xrs.__all__ if not hasattr(xrs, name)], [])
        self.assertEqual(len(set(xrs.__all__)), len(xrs.__all__))
        with self.assertRaises(AttributeError):
            xrs.no_such_name

    def test_all_parameters_and_results_have_types(self):
        names = {"Sheet": xrs.Sheet, "Report": xrs.Report}
        functions = [getattr(xrs, name) for name in [*xrs.__all__, "sum"]]
        for kind in [found for found in functions if isinstance(found, type)]:
            functions += [member for member in vars(kind).values() if inspect.isfunction(member) and not member.__name__.startswith("_")]
        functions = [found for found in functions if inspect.isfunction(found)]
        self.assertGreater(len(functions), 40)
        for function in functions:
            with self.subTest(function=function.__qualname__):
                wanted = {name for name in inspect.signature(function).parameters if name != "self"} | {"return"}
                self.assertEqual(set(typing.get_type_hints(function, localns=names)), wanted)
                self.assertTrue(function.__doc__)


if __name__ == "__main__":
    unittest.main()
