"""Calls of the proved library for the five times extended Reed-Solomon code, by which worn memory cards are restored.

Words, records and cards are bytes, bytearrays, memoryviews or other buffers, which are lent to the library without a copy. What a call
writes must be writable and contiguous, and must not overlap what it reads; otherwise TypeError, BufferError or ValueError says so. A call
that the library refuses raises `Refusal`, with the number and the words of the first question that was answered no. In either case no byte
is touched. What a call makes is a new bytearray; each has a sister `.._into` that writes into a buffer.

A number that fits no byte, like 300 for a width or a place, is refused like any other wrong one. A call keeps the interpreter's lock, so
that no other thread of Python changes a buffer meanwhile.

>>> import xrs
>>> word = xrs.encode(3, bytes([3, 0, 1, 0, 0, 0, 0]))
>>> word[0], word[6], word[11] = 200, 9, 1  # the cells 0 and 6 are dead, and the symbol at place 11 is wrong
>>> xrs.restore_word(3, word, marks=[6, 0])  # one wrong symbol was changed
1
>>> list(xrs.read_data(3, word))
[3, 0, 1, 0, 0, 0, 0]
"""

from __future__ import annotations

from .card import (
    OLD_RECORD_SIZE,
    RECORD_SIZE,
    ROW_SIZE,
    Card,
    Counts,
    Slot,
    Walk,
    card_to_new,
    card_to_new_into,
    card_to_old,
    card_to_old_into,
    check_card,
    look,
    look_into,
    restore_record,
)
from .code import (
    encode,
    encode_into,
    inverse,
    is_codeword,
    power,
    product,
    read_data,
    read_data_into,
    restore_word,
    restore_word_by_trials,
    sum,
    syndromes,
)
from .refusal import Question, Refusal
from .sheet import (
    SHEET_QUARTERS,
    SHEET_SIZE,
    Comparison,
    Pump,
    Report,
    Sheet,
    Side,
    compare_part,
    compare_sheets,
    quarter,
    read_sheet,
    read_sheet_into,
    sheets,
    window,
    write_sheet,
    write_sheet_into,
)

__version__: str

# All but `sum`, which would hide Python's own where everything is imported.
__all__ = [
    "OLD_RECORD_SIZE",
    "RECORD_SIZE",
    "ROW_SIZE",
    "SHEET_QUARTERS",
    "SHEET_SIZE",
    "Card",
    "Comparison",
    "Counts",
    "Pump",
    "Question",
    "Refusal",
    "Report",
    "Sheet",
    "Side",
    "Slot",
    "Walk",
    "card_to_new",
    "card_to_new_into",
    "card_to_old",
    "card_to_old_into",
    "check_card",
    "compare_part",
    "compare_sheets",
    "encode",
    "encode_into",
    "inverse",
    "is_codeword",
    "look",
    "look_into",
    "power",
    "product",
    "quarter",
    "read_data",
    "read_data_into",
    "read_sheet",
    "read_sheet_into",
    "restore_record",
    "restore_word",
    "restore_word_by_trials",
    "sheets",
    "syndromes",
    "window",
    "write_sheet",
    "write_sheet_into",
]


def __getattr__(name: str) -> str:
    if name == "__version__":
        from importlib.metadata import version

        return version("xrs")
    raise AttributeError(f"module {__name__!r} has no attribute {name!r}")
