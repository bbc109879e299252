"""Records and cards: restoring, checking, converting, walks, and the dock.

A card is slots of 139 bytes, each a record or blank, and perhaps a shorter last piece. Records are counted from 1.
"""

from __future__ import annotations

import ctypes
from dataclasses import dataclass, field
from typing import TYPE_CHECKING, Iterator, List, Optional, Tuple, Union

from ._lending import Buffer, Writable, byte, lend, lend_to_write, record_number, viewed
from ._library import library
from .refusal import value_of

if TYPE_CHECKING:
    from .sheet import Report, Sheet

# Bytes of a record: the width, the number of marks, five bytes for the marks (255 where unused), the word, and zeros.
RECORD_SIZE = 139

# Bytes of a record of the old edition, which has four bytes for the marks.
OLD_RECORD_SIZE = 138

# The symbols that a look gives: those of a word of width 7; behind a shorter word stand zeros.
ROW_SIZE = 132

BLANK = bytes([255]) * RECORD_SIZE


def restore_record(record: Writable, *, reach: Optional[int] = None) -> int:
    """Restores the word of a record with the marks that the record names, leaves the record without marks, and gives the number of unmarked
    places that changed, 0 to 2. With a reach it looks no further, as `restore_word` does.

    >>> record = bytearray([3, 1, 7, 255, 255, 255, 255]) + bytes(132)
    >>> record[7 + 7], record[7 + 11] = 200, 5
    >>> restore_record(record)
    1
    >>> list(record[:7])
    [3, 0, 255, 255, 255, 255, 255]
    """
    lent = lend_to_write("record", record)
    if reach is None:
        answer = library.xrs_restore_record(lent.address, lent.length)
    else:
        answer = library.xrs_restore_record_within(lent.address, lent.length, byte(reach))
    del lent
    return value_of(answer)


def check_card(card: Union[Buffer, Card]) -> Optional[int]:
    """The number of the first record that `restore_record` would refuse; `None` where there is none. Blank slots are passed over, and
    counted. A last piece shorter than a slot would be refused.

    >>> check_card(bytes([3, 0, 255, 255, 255, 255, 255]) + bytes(132))
    >>> check_card(bytes([6, 0, 255, 255, 255, 255, 255]) + bytes(132))
    1
    """
    lent = lend("card", bytes_of(card))
    return library.xrs_check_card(lent.address, lent.length) or None


def card_to_new(card: Union[Buffer, Card]) -> bytearray:
    """A card of the old edition, with slots of 138 bytes, as a card with slots of 139: each record gets a fifth mark byte, and a blank slot
    stays blank.

    >>> list(card_to_new(bytes([3, 1, 7, 255, 255, 255]) + bytes(132))[:8])
    [3, 1, 7, 255, 255, 255, 255, 0]
    """
    buffer = bytes_of(card)
    out = bytearray(viewed("card", buffer).nbytes // OLD_RECORD_SIZE * RECORD_SIZE)
    card_to_new_into(buffer, out)
    return out


def card_to_new_into(card: Union[Buffer, Card], out: Writable) -> None:
    """Writes `card_to_new` of the card into `out`, which must have as many slots."""
    source = lend("card", bytes_of(card))
    target = lend_to_write("out", out, source)
    answer = library.xrs_card_to_new(source.address, source.length, target.address, target.length)
    del source, target
    value_of(answer)


def card_to_old(card: Union[Buffer, Card]) -> bytearray:
    """`card_to_new` the other way. No record may have five marks.

    >>> list(card_to_old(bytes([3, 1, 7, 255, 255, 255, 255]) + bytes(132))[:7])
    [3, 1, 7, 255, 255, 255, 0]
    """
    buffer = bytes_of(card)
    out = bytearray(viewed("card", buffer).nbytes // RECORD_SIZE * OLD_RECORD_SIZE)
    card_to_old_into(buffer, out)
    return out


def card_to_old_into(card: Union[Buffer, Card], out: Writable) -> None:
    """Writes `card_to_old` of the card into `out`, which must have as many slots."""
    source = lend("card", bytes_of(card))
    target = lend_to_write("out", out, source)
    answer = library.xrs_card_to_old(source.address, source.length, target.address, target.length)
    del source, target
    value_of(answer)


def look(card: Union[Buffer, Card], number: int) -> bytearray:
    """The symbols of the record with this number, counted from 1, that `restore_record` would give it; behind a short word stand zeros. The
    card stays as it is. During a walk over it, it makes no difference whether the record was restored already.

    >>> card = bytearray([3, 1, 0, 255, 255, 255, 255]) + bytes(132)
    >>> card[7] = 200  # at the mark
    >>> look(card, 1) == bytes(132)
    True
    """
    row = bytearray(ROW_SIZE)
    look_into(card, number, row)
    return row


def look_into(card: Union[Buffer, Card], number: int, row: Writable) -> None:
    """Writes what `look` gives into `row`, of 132 bytes."""
    source = lend("card", bytes_of(card))
    target = lend_to_write("row", row, source)
    answer = library.xrs_look(source.address, source.length, record_number(number), target.address, target.length)
    del source, target
    value_of(answer)


@dataclass(frozen=True)
class Slot:
    """A piece of a card: a record, a blank slot, or a last piece that is shorter than these."""

    number: int
    """Its number, counted from 1."""

    bytes: memoryview
    """Its bytes on the card: 139 of them, in a short last piece fewer."""

    @property
    def is_blank(self) -> bool:
        """Was the slot never written? Then all its bytes are 255. A short last piece is no blank slot."""
        return self.bytes == BLANK

    def restored(self) -> Tuple[bytearray, int]:
        """The record as `restore_record` leaves it, in a copy, and the number of unmarked places that changed."""
        record = bytearray(self.bytes)
        changed = restore_record(record)
        return record, changed


class Card:
    """The slots of a card, over the buffer that holds it. Nothing is copied: what the buffer holds is what the card shows.

    >>> card = Card(bytes([3, 0, 255, 255, 255, 255, 255, 5]) + bytes(131) + bytes([255]) * 139)
    >>> len(card)
    2
    >>> [(slot.number, slot.is_blank) for slot in card.slots()]
    [(1, False), (2, True)]
    """

    def __init__(self, buffer: Buffer) -> None:
        viewed("card", buffer)
        self.buffer = buffer

    def __len__(self) -> int:
        """The number of records: slots, blank ones too, and a short last piece."""
        return -(-memoryview(self.buffer).nbytes // RECORD_SIZE)

    def slots(self) -> Iterator[Slot]:
        """The slots in their order, a short last piece too."""
        view = viewed("card", self.buffer).cast("B")
        for number, start in enumerate(range(0, view.nbytes, RECORD_SIZE), 1):
            yield Slot(number, view[start : start + RECORD_SIZE])

    def sheets(self) -> Iterator[Sheet]:
        """The day sheets in their order, each read as restored in a copy. Blank slots, refused records and those that are no day sheets
        are passed over; `window` counts them."""
        from .sheet import sheets

        return sheets(self)

    def window(self, first: Union[int, str], end: Union[int, str]) -> Report:
        """The starts of each pump in a window of the day, as the function `window` gives them."""
        from .sheet import window

        return window(self, first, end)

    def check(self) -> Optional[int]:
        """The number of the first record that would be refused; `None` where there is none."""
        return check_card(self)

    def look(self, number: int) -> bytearray:
        """The symbols of a record, as the function `look` gives them."""
        return look(self, number)

    def walk(self) -> Walk:
        """A walk that restores the card, whose buffer must be writable."""
        return Walk(self)


def bytes_of(card: Union[Buffer, Card]) -> Buffer:
    """The buffer of a card."""
    return card.buffer if isinstance(card, Card) else card


class Walk:
    """A walk restores a card by steps of up to 16 records, so that one may look at a record meanwhile. It is an iterator: each step gives
    the numbers of the records that it treated. Records that are refused and blank slots count, and stay as they are.

    >>> card = (bytearray([3, 0, 255, 255, 255, 255, 255, 5]) + bytes(131)) * 20
    >>> for step in Walk(card):
    ...     print(step.start, step.stop, card[7 + 19 * 139])
    1 17 5
    17 21 0
    """

    length: int
    """The length of the card that the walk began with."""

    next: int
    """The number of the next record, counted from 1; at the end, one more than the card has."""

    def __init__(self, card: Union[Writable, Card], *, next: int = 1, length: Optional[int] = None) -> None:
        """A walk over this card before its first step, or one that goes on: `next` and `length` are then those of the walk before."""
        self.card = bytes_of(card)
        self.length = lend_to_write("card", self.card).length if length is None else length
        self.next = next

    @property
    def is_done(self) -> bool:
        """Is there no further record?"""
        return self.next > -(-self.length // RECORD_SIZE)

    def step(self) -> range:
        """Restores the next 16 records of the card in their order, fewer only at its end, and gives their numbers. After the end a step
        changes nothing. Refused where the card has not the length that the walk began with, and where the next record is not 1 to one
        more than the card has; the walk then stays as it is.
        """
        number = ctypes.c_uint64(record_number(self.next))
        length = self.length if 0 <= self.length < 1 << 64 else (1 << 64) - 1
        lent = lend_to_write("card", self.card)
        answer = library.xrs_walk_step(length, ctypes.addressof(number), lent.address, lent.length)
        del lent
        value_of(answer)
        first, self.next = self.next, number.value
        return range(first, self.next)

    def __iter__(self) -> Walk:
        return self

    def __next__(self) -> range:
        if self.is_done:
            raise StopIteration
        return self.step()


@dataclass
class Counts:
    """The rewrites that a dock of four bays has left since its last charge. A bay that restores a record whose bytes change pays with one of
    its own, or with a common one where it has none left. A record that stays as it is, a refused one and a blank slot cost none.

    >>> left = Counts()  # none: the dock was never charged
    >>> left.charge()
    >>> left
    Counts(own=[100, 100, 100, 100], common=600)
    >>> left.restore(2, bytearray([3, 0, 255, 255, 255, 255, 255, 5]) + bytes(131))
    1
    >>> left.own
    [100, 100, 99, 100]
    """

    own: List[int] = field(default_factory=lambda: [0] * 4)
    """Those of bays 0 to 3."""

    common: int = 0
    """Those that go to whoever comes first."""

    def _lent(self) -> ctypes.Array[ctypes.c_uint16]:
        counts = [*self.own, self.common]
        if len(counts) != 5 or not all(0 <= count < 65_536 for count in counts):
            raise ValueError("the counts are not four of bays and a common one, each 0 to 65,535")
        return (ctypes.c_uint16 * 5)(*counts)

    def _take(self, left: ctypes.Array[ctypes.c_uint16]) -> None:
        *self.own, self.common = left

    def charge(self) -> None:
        """Sets all counts afresh: 100 for each bay, and 600 common ones."""
        left = (ctypes.c_uint16 * 5)()
        value_of(library.xrs_charge(ctypes.addressof(left), len(left)))
        self._take(left)

    def restore(self, bay: int, record: Writable, *, reach: Optional[int] = None) -> int:
        """`restore_record` at a bay, 0 to 3, which pays for the rewrite. Where none is left, own or common, the call is refused, and record
        and counts stay as they are. That is asked last, and only where the record would change."""
        left, lent = self._lent(), lend_to_write("record", record)
        lengths = (byte(bay), ctypes.addressof(left), len(left), lent.address, lent.length)
        if reach is None:
            answer = library.xrs_bay_restore(*lengths)
        else:
            answer = library.xrs_bay_restore_within(*lengths, byte(reach))
        del lent
        value = value_of(answer)
        self._take(left)
        return value
