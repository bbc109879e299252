"""What may be lent to a call and what may not. A call that cannot be made touches nothing."""

import array
import mmap
import threading
import unittest

import xrs

WORD = bytes([2, 7, 5, 6, 1, 3, 0, 1, 0, 0, 0, 0])
WRONG = bytes([2, 7, 5, 6, 1, 3, 0, 1, 0, 0, 0, 5])
RECORD = bytes([3, 0, 255, 255, 255, 255, 255]) + WRONG + bytes(120)

# Each call that writes, on a buffer of its own and with all else right.
WRITERS = {
    "encode_into": (12, lambda out: xrs.encode_into(3, WORD[5:], out)),
    "read_data_into": (7, lambda out: xrs.read_data_into(3, WORD, out)),
    "restore_word": (12, lambda out: xrs.restore_word(3, out)),
    "restore_word_by_trials": (12, lambda out: xrs.restore_word_by_trials(3, out)),
    "restore_record": (139, xrs.restore_record),
    "card_to_new_into": (139, lambda out: xrs.card_to_new_into(bytes([3, 0, 255, 255, 255, 255]) + bytes(132), out)),
    "card_to_old_into": (138, lambda out: xrs.card_to_old_into(RECORD, out)),
    "look_into": (132, lambda out: xrs.look_into(RECORD, 1, out)),
    "write_sheet_into": (132, lambda out: xrs.write_sheet_into(7, bytes(97) + bytes([1, 1, 0]), out)),
    "read_sheet_into": (100, lambda out: xrs.read_sheet_into(7, xrs.write_sheet(7, bytes(97) + bytes([1, 1, 0])), out)),
    "Walk": (139, lambda out: xrs.Walk(out).step()),
    "Card.walk": (139, lambda out: xrs.Card(out).walk().step()),
    "Counts.restore": (139, lambda out: xrs.Counts([1] * 4).restore(0, out)),
}

# Each call that reads, on a buffer.
READERS = {
    "encode": (WORD[5:], lambda data: xrs.encode(3, data)),
    "is_codeword": (WORD, lambda word: xrs.is_codeword(3, word)),
    "read_data": (WORD, lambda word: xrs.read_data(3, word)),
    "syndromes": (WORD, lambda word: xrs.syndromes(3, word)),
    "marks": (bytes([1, 3]), lambda marks: xrs.syndromes(3, WORD, marks)),
    "check_card": (RECORD, xrs.check_card),
    "card_to_old": (RECORD, xrs.card_to_old),
    "look": (RECORD, lambda card: xrs.look(card, 1)),
    "slots": (RECORD, lambda card: len(list(xrs.Card(card).slots()))),
    "sheets": (RECORD, lambda card: list(xrs.sheets(card))),
    "window": (RECORD, lambda card: xrs.window(card, 0, 96)),
    "write_sheet": (bytes(97) + bytes([1, 1, 0]), lambda symbols: xrs.write_sheet(7, symbols)),
}


def content(length):
    """What a buffer holds that a call is to write: a word or record that restoring changes."""
    return bytearray({12: WRONG, 139: RECORD}.get(length, bytes([9]) * length))


class Kinds(unittest.TestCase):
    """Every kind of buffer that can be lent."""

    def test_readers_answer_the_same_for_every_kind(self):
        for name, (data, call) in READERS.items():
            mapped = mmap.mmap(-1, len(data))
            mapped[:] = data
            kinds = [data, bytearray(data), memoryview(data), memoryview(bytearray(data)), memoryview(b"x" + data)[1:]]
            kinds += [array.array("B", data), memoryview(data).cast("B", (1, len(data))), memoryview(mapped), mapped]
            wanted = call(data)
            for kind in kinds:
                with self.subTest(call=name, kind=kind):
                    self.assertEqual(call(kind), wanted)
                    self.assertEqual(bytes(memoryview(kind).cast("B")), data)

    def test_writers_write_every_kind(self):
        for name, (length, call) in WRITERS.items():
            plain = content(length)
            call(plain)
            self.assertNotEqual(plain, content(length), name)
            mapped = mmap.mmap(-1, length)
            mapped[:] = bytes(content(length))
            for kind in (memoryview(content(length)), array.array("B", content(length)), memoryview(mapped)):
                with self.subTest(call=name, kind=kind):
                    call(kind)
                    self.assertEqual(bytes(kind), plain)

    def test_a_part_of_a_buffer_is_written_where_it_stands(self):
        card = bytearray(3 * RECORD)
        xrs.restore_record(memoryview(card)[139:278])
        fixed = bytearray(RECORD)
        xrs.restore_record(fixed)
        self.assertEqual(card, RECORD + fixed + RECORD)

    def test_empty_buffers(self):
        for empty in (b"", bytearray(), memoryview(b""), array.array("B"), memoryview(b"x")[:0]):
            self.assertIsNone(xrs.check_card(empty))
            self.assertEqual(xrs.card_to_new(empty), b"")
            self.assertEqual(xrs.window(empty, 0, 96).refused, 0)
            self.assertEqual(xrs.syndromes(3, WORD, empty), (0,) * 5)
            self.assertEqual(list(xrs.Card(empty).slots()), [])
        for empty in (bytearray(), array.array("B"), memoryview(bytearray())):
            self.assertEqual(list(xrs.Walk(empty)), [])
            for name, (_, call) in WRITERS.items():
                if "alk" not in name:
                    with self.subTest(call=name), self.assertRaises(xrs.Refusal) as caught:
                        call(empty)
                    self.assertEqual(caught.exception.number, 2)


class Refused(unittest.TestCase):
    """Buffers that cannot be lent."""

    def test_a_buffer_that_is_read_only_is_not_written(self):
        for name, (length, call) in WRITERS.items():
            before = bytes(content(length))
            for buffer in (before, memoryview(before), memoryview(content(length)).toreadonly()):
                with self.subTest(call=name, buffer=buffer), self.assertRaisesRegex(TypeError, "read-only"):
                    call(buffer)
                self.assertEqual(bytes(buffer), before)

    def test_a_view_that_is_not_contiguous_is_not_lent(self):
        for name, (length, call) in WRITERS.items():
            spread = bytearray(2 * length)
            spread[::2] = content(length)
            before = bytes(spread)
            with self.subTest(call=name), self.assertRaisesRegex(BufferError, "not contiguous"):
                call(memoryview(spread)[::2])
            self.assertEqual(spread, before)
        for name, (data, call) in READERS.items():
            with self.subTest(call=name), self.assertRaisesRegex(BufferError, "not contiguous"):
                call(memoryview(data)[::-1])

    def test_what_is_no_buffer_of_bytes_is_not_lent(self):
        for wrong in ("text", 12, None, [1, 2], 1.5):
            for name, (_, call) in list(WRITERS.items()) + [(name, reader) for name, reader in READERS.items() if name != "marks"]:
                with self.subTest(call=name, wrong=wrong), self.assertRaises(TypeError):
                    call(wrong)
        with self.assertRaisesRegex(TypeError, "items of 2 bytes"):
            xrs.is_codeword(3, array.array("H", WORD))
        with self.assertRaises(TypeError):
            xrs.syndromes(3, WORD, 5)

    def test_buffers_that_overlap_are_not_lent(self):
        room = bytearray(range(40)) * 10
        view = memoryview(room)
        before = bytes(room)
        calls = [
            lambda: xrs.encode_into(3, view[0:7], view[6:18]),
            lambda: xrs.encode_into(3, view[17:24], view[6:18]),
            lambda: xrs.read_data_into(3, view[0:12], view[5:12]),
            lambda: xrs.restore_word(3, view[0:12], view[11:12]),
            lambda: xrs.restore_word_by_trials(3, view[0:12], view[0:1]),
            lambda: xrs.card_to_new_into(view[0:138], view[100:239]),
            lambda: xrs.card_to_old_into(room, view[0:138]),
            lambda: xrs.look_into(room, 1, view[200:332]),
            lambda: xrs.write_sheet_into(7, view[0:100], view[99:231]),
            lambda: xrs.read_sheet_into(7, view[0:132], view[131:231]),
        ]
        for number, call in enumerate(calls):
            with self.subTest(call=number), self.assertRaisesRegex(ValueError, "overlaps"):
                call()
            self.assertEqual(room, before)

    def test_buffers_side_by_side_are_lent(self):
        room = bytearray(WORD[5:] + bytes(12))
        view = memoryview(room)
        xrs.encode_into(3, view[0:7], view[7:19])
        self.assertEqual(room, WORD[5:] + WORD)
        xrs.read_data_into(3, view[7:19], view[0:7])
        self.assertEqual(room, WORD[5:] + WORD)

    def test_a_buffer_is_free_after_a_refusal(self):
        for name, (length, call) in WRITERS.items():
            grows = content(length)
            grows.append(0)
            try:
                call(grows)
            except xrs.Refusal:
                grows.append(1)  # while the refusal's traceback is there
            else:
                self.assertIn("alk", name)  # a walk takes any length
        grows = bytearray(5)
        for name, (_, call) in READERS.items():
            try:
                call(grows)
            except xrs.Refusal:
                grows.append(1)
        self.assertGreater(len(grows), 10)
        for call in (lambda: xrs.window(grows, 5, 5), lambda: xrs.compare_sheets(grows, 1, grows, 1), lambda: xrs.compare_part(grows, 1, grows, 1)):
            try:
                call()
            except xrs.Refusal:
                grows.append(1)


class Threads(unittest.TestCase):
    """Many threads at once, each on memory of its own."""

    def test_threads(self):
        wrong = []

        def work(seed):
            word = bytearray(WORD)
            for turn in range(2000):
                word[turn % 12] ^= 1 + (seed + turn) % 7
                if xrs.restore_word(3, word) != 1 or word != WORD:
                    wrong.append((seed, turn))

        threads = [threading.Thread(target=work, args=(seed,)) for seed in range(4)]
        for thread in threads:
            thread.start()
        for thread in threads:
            thread.join()
        self.assertEqual(wrong, [])


if __name__ == "__main__":
    unittest.main()
