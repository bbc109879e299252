"""Day sheets: codewords of width 7 that hold a day's compressor starts, its date and its pump.

The symbols of a day are the starts in each of its 96 quarter hours, in standard time, where 127 means 127 or more; then the year less
2000, the month, the day and the pump.
"""

from __future__ import annotations

import ctypes
import datetime
import enum
from dataclasses import dataclass, field
from typing import Iterator, List, Optional, Tuple, Union

from ._lending import Buffer, Writable, byte, lend, lend_to_write, record_number
from ._library import library
from .card import Card, bytes_of
from .code import WORD_LENGTHS
from .refusal import Refusal, value_of

# The symbols of a day sheet, and the quarter hours among them.
SHEET_SIZE = 100
SHEET_QUARTERS = 96

# The width of a day sheet, and where the symbols of a word begin in a record.
SHEET_WIDTH = 7
HEADER = 7

PUMPS = 128
PUMP_NUMBERS = 9

# The times at which quarter hours begin or end.
TIMES = {f"{quarter // 4:02}:{quarter % 4 * 15:02}": quarter for quarter in range(SHEET_QUARTERS + 1)}


def quarter(time: Union[int, str]) -> int:
    """The number of a quarter hour, 0 to 96, from a time of day: 00:00 to 24:00.

    >>> quarter("06:00"), quarter("24:00"), quarter(24)
    (24, 96, 24)
    """
    if not isinstance(time, str):
        return byte(time)
    if time not in TIMES:
        raise ValueError(f"{time!r} is no quarter hour from '00:00' to '24:00'")
    return TIMES[time]


def write_sheet(width: int, symbols: Buffer) -> bytearray:
    """The day sheet that has these 100 symbols, at the width 7: a codeword that holds them, and zeros behind them."""
    word = bytearray(WORD_LENGTHS.get(width, 0))
    write_sheet_into(width, symbols, word)
    return word


def write_sheet_into(width: int, symbols: Buffer, word: Writable) -> None:
    """Writes the day sheet that has these 100 symbols into `word`."""
    source = lend("symbols", symbols)
    target = lend_to_write("word", word, source)
    answer = library.xrs_write_sheet(byte(width), source.address, source.length, target.address, target.length)
    del source, target
    value_of(answer)


def read_sheet(width: int, word: Buffer) -> bytearray:
    """The 100 symbols of a day sheet."""
    symbols = bytearray(SHEET_SIZE)
    read_sheet_into(width, word, symbols)
    return symbols


def read_sheet_into(width: int, word: Buffer, symbols: Writable) -> None:
    """Writes the 100 symbols of a day sheet into `symbols`."""
    source = lend("word", word)
    target = lend_to_write("symbols", symbols, source)
    answer = library.xrs_read_sheet(byte(width), source.address, source.length, target.address, target.length)
    del source, target
    value_of(answer)


@dataclass(frozen=True)
class Sheet:
    """A day of a pump.

    >>> sheet = Sheet(datetime.date(2024, 2, 29), pump=5, starts=bytes(30) + bytes([4]) + bytes(65))
    >>> word = sheet.word()
    >>> word[5 + quarter("07:30")]
    4
    >>> Sheet.read(word) == sheet
    True
    """

    date: datetime.date
    pump: int
    """0 to 127."""

    starts: bytes
    """The starts in each of the 96 quarter hours; 127 means 127 or more."""

    number: Optional[int] = field(default=None, compare=False)
    """The number of its record, counted from 1, where it was read from a card."""

    @classmethod
    def read(cls, word: Buffer) -> Sheet:
        """The day sheet of a codeword of width 7."""
        return cls.of_symbols(read_sheet(SHEET_WIDTH, word))

    @classmethod
    def of_symbols(cls, symbols: Union[bytes, bytearray], number: Optional[int] = None) -> Sheet:
        """The day sheet that has these 100 symbols, whose date exists."""
        *starts, year, month, day, pump = symbols
        return cls(datetime.date(2000 + year, month, day), pump, bytes(starts), number)

    def symbols(self) -> bytes:
        """Its 100 symbols."""
        date = (self.date.year - 2000, self.date.month, self.date.day, self.pump)
        return bytes(self.starts) + bytes(byte(symbol) for symbol in date)

    def word(self) -> bytearray:
        """Its codeword of 132 symbols. Years outside 2000 to 2127 and other numbers that are no symbols are refused."""
        return write_sheet(SHEET_WIDTH, self.symbols())

    def record(self) -> bytearray:
        """Its record of 139 bytes, without marks."""
        return bytearray([SHEET_WIDTH, 0, 255, 255, 255, 255, 255]) + self.word()


def sheets(card: Union[Buffer, Card]) -> Iterator[Sheet]:
    """The day sheets of a card in their order, each read as restored in a copy. Other records and blank slots are passed over.

    >>> sheet = Sheet(datetime.date(2024, 2, 29), pump=5, starts=bytes(96))
    >>> record = sheet.record()
    >>> record[7] ^= 1  # a wrong symbol
    >>> [(found.number, found.date.isoformat(), found.pump) for found in sheets(bytes([255]) * 139 + record)]
    [(2, '2024-02-29', 5)]
    """
    for slot in Card(bytes_of(card)).slots():
        if slot.bytes[0] == SHEET_WIDTH:
            try:
                record, _ = slot.restored()
                yield Sheet.of_symbols(read_sheet(SHEET_WIDTH, memoryview(record)[HEADER:]), slot.number)
            except Refusal:
                pass


class Side(enum.Enum):
    """Whose sheet: the one by the pump's controller, or the one by the meter cupboard."""

    CONTROLLER = 1
    CUPBOARD = 2


@dataclass(frozen=True)
class Comparison:
    """Two sheets of one pump and day side by side."""

    signs: bytes
    """For each quarter hour 0 where the counts are equal, 1 where the controller's is higher, 2 where the cupboard's is."""

    equal: int
    """The quarter hours with equal counts. The three totals make 96."""

    controller_higher: int
    cupboard_higher: int

    chosen: Side
    """The sheet with fewer unmarked places changed; the controller's where they are as many."""

    part: memoryview
    """The chosen record's part of its card, as it was lent and not repaired."""


def compare_sheets(
    controller: Union[Buffer, Card], controller_number: int, cupboard: Union[Buffer, Card], cupboard_number: int
) -> Comparison:
    """Compares two sheets of one day, each a record of its card, counted from 1. The records are restored in a copy; both cards stay as they
    are.

    >>> first = Sheet(datetime.date(2024, 2, 29), pump=5, starts=bytes([4]) + bytes(95)).record()
    >>> second = Sheet(datetime.date(2024, 2, 29), pump=5, starts=bytes(96)).record()
    >>> found = compare_sheets(first, 1, second, 1)
    >>> found.equal, found.controller_higher, found.chosen.name
    (95, 1, 'CONTROLLER')
    """
    signs = bytearray(SHEET_QUARTERS)
    first, second, target = lend("controller", bytes_of(controller)), lend("cupboard", bytes_of(cupboard)), lend_to_write("signs", signs)
    numbers = record_number(controller_number), record_number(cupboard_number)
    answer = library.xrs_compare_sheets(
        first.address, first.length, numbers[0], second.address, second.length, numbers[1], target.address, target.length
    )
    del first, second, target
    side, equal, controller_higher, cupboard_higher = value_of(answer).to_bytes(7, "little")[:4]
    part = compare_part(controller, numbers[0], cupboard, numbers[1])
    return Comparison(bytes(signs), equal, controller_higher, cupboard_higher, Side(side), part)


def compare_part(
    controller: Union[Buffer, Card], controller_number: int, cupboard: Union[Buffer, Card], cupboard_number: int
) -> memoryview:
    """The chosen record's part of its card, as it was lent: the `part` of `compare_sheets`. The library says on which card it lies, where it
    begins and how long it is.

    >>> first = Sheet(datetime.date(2024, 2, 29), pump=5, starts=bytes(96)).record()
    >>> second = bytes([255]) * 139 + first
    >>> first[7] ^= 1  # a wrong symbol
    >>> part = compare_part(first, 1, second, 2)
    >>> part.obj is second, part == second[139:]
    (True, True)
    """
    offset, size = ctypes.c_uint64(), ctypes.c_uint64()
    first, second = lend("controller", bytes_of(controller)), lend("cupboard", bytes_of(cupboard))
    numbers = record_number(controller_number), record_number(cupboard_number)
    answer = library.xrs_compare_part(
        first.address, first.length, numbers[0], second.address, second.length, numbers[1], ctypes.addressof(offset), ctypes.addressof(size)
    )
    del first, second
    card = controller if value_of(answer) == Side.CONTROLLER.value else cupboard
    return memoryview(bytes_of(card)).cast("B")[offset.value : offset.value + size.value]


@dataclass(frozen=True)
class Pump:
    """The starts of one pump in a window of the day. Without sheets all is 0, and there is no date."""

    sheets: int
    """The day sheets that were read."""

    sum: int
    """The sum of the starts in the window. A count of 127, which means 127 or more, enters as 127."""

    full: int
    """The number of counts of 127 in the window."""

    highest: int
    """The highest count of one quarter hour in the window."""

    date: Optional[datetime.date]
    """Its earliest date."""

    quotient: int
    """The sum's mean per sheet, rounded down."""

    remainder: int
    """What is then left of the sum."""


@dataclass(frozen=True)
class Report:
    """What `window` tells of a card. The sheets of all pumps, the refused and the blank records are the records looked at."""

    pumps: Tuple[Pump, ...]
    """Pumps 0 to 127."""

    refused: int
    """The records that were refused or are no day sheets."""

    blank: int
    """The blank slots."""

    further: bool
    """Is there a record behind the 1,000,000 that are looked at?"""


def window(card: Union[Buffer, Card], first: Union[int, str], end: Union[int, str]) -> Report:
    """The starts of each pump over a card, in the quarter hours from `first` on and before `end`: numbers, 0 to 96, or times of day. Records
    are read as restored in a copy; the card stays as it is. At most 1,000,000 records are looked at, blank ones included.

    >>> card = Sheet(datetime.date(2024, 2, 29), pump=5, starts=bytes(30) + bytes([4, 127]) + bytes(64)).record()
    >>> report = window(card, "07:00", "09:00")
    >>> report.pumps[5]
    Pump(sheets=1, sum=131, full=1, highest=127, date=datetime.date(2024, 2, 29), quotient=131, remainder=0)
    >>> report.refused, report.blank, report.further
    (0, 0, False)
    """
    numbers = (ctypes.c_uint64 * (PUMPS * PUMP_NUMBERS + 3))()
    hours = quarter(first), quarter(end)
    lent = lend("card", bytes_of(card))
    answer = library.xrs_window(lent.address, lent.length, *hours, ctypes.addressof(numbers), len(numbers))
    del lent
    value_of(answer)
    *rows, refused, blank, further = numbers
    pumps = tuple(pump_of(rows[start : start + PUMP_NUMBERS]) for start in range(0, len(rows), PUMP_NUMBERS))
    return Report(pumps, refused, blank, further == 1)


def pump_of(row: List[int]) -> Pump:
    """The pump that has these numbers in a report."""
    count, total, full, highest, year, month, day, quotient, remainder = row
    date = datetime.date(2000 + year, month, day) if count else None
    return Pump(count, total, full, highest, date, quotient, remainder)
