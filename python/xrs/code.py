"""The field and the code: symbols, words, the encoder, the reader and the restorer.

A word of width 3, 4, 5 or 7 has q + 4 symbols, one to a byte, where q is 2^width: 12, 20, 36 or 132. Its first five are check symbols,
the others are the data. A call that raises `Refusal` leaves every buffer as it was.
"""

from __future__ import annotations

import operator
from typing import Optional, Tuple

from ._lending import Buffer, Marks, Writable, byte, lend, lend_marks, lend_to_write
from ._library import library
from .refusal import value_of

# The symbols of a word at each width.
WORD_LENGTHS = {3: 12, 4: 20, 5: 36, 7: 132}

# Those among them that are no data.
CHECK_SYMBOLS = 5


def sum(width: int, a: int, b: int) -> int:
    """The sum of two symbols.

    >>> sum(3, 5, 6)
    3
    """
    return value_of(library.xrs_sum(byte(width), byte(a), byte(b)))


def product(width: int, a: int, b: int) -> int:
    """The product of two symbols.

    >>> product(3, 7, 7)
    3
    """
    return value_of(library.xrs_product(byte(width), byte(a), byte(b)))


def power(width: int, a: int, e: int) -> int:
    """A symbol to the power e, 0 to 65,535; the power 0 is 1, also of 0.

    >>> power(7, 2, 100), power(7, 0, 0)
    (119, 1)
    """
    exponent = operator.index(e)
    if not 0 <= exponent < 65_536:
        raise ValueError("the exponent is not 0 to 65,535")
    return value_of(library.xrs_power(byte(width), byte(a), exponent))


def inverse(width: int, a: int) -> int:
    """The inverse of a symbol other than 0.

    >>> inverse(3, 2)
    5
    """
    return value_of(library.xrs_inverse(byte(width), byte(a)))


def encode(width: int, data: Buffer) -> bytearray:
    """The codeword of the data: five check symbols, then the data.

    >>> list(encode(3, bytes([3, 0, 1, 0, 0, 0, 0])))
    [2, 7, 5, 6, 1, 3, 0, 1, 0, 0, 0, 0]
    """
    word = bytearray(WORD_LENGTHS.get(width, 0))
    encode_into(width, data, word)
    return word


def encode_into(width: int, data: Buffer, word: Writable) -> None:
    """Writes the codeword of the data into `word`. What that held before does not matter."""
    source = lend("data", data)
    target = lend_to_write("word", word, source)
    answer = library.xrs_encode(byte(width), source.address, source.length, target.address, target.length)
    del source, target
    value_of(answer)


def is_codeword(width: int, word: Buffer) -> bool:
    """Are the five syndromes of the word zero?

    >>> is_codeword(3, bytes([1, 1, 1, 1, 1, 1, 0, 0, 0, 0, 0, 0]))
    True
    """
    lent = lend("word", word)
    answer = library.xrs_is_codeword(byte(width), lent.address, lent.length)
    del lent
    return value_of(answer) == 1


def read_data(width: int, word: Buffer) -> bytearray:
    """The data of a codeword.

    >>> list(read_data(3, bytes([1, 2, 4, 3, 6, 0, 1, 0, 0, 0, 0, 0])))
    [0, 1, 0, 0, 0, 0, 0]
    """
    data = bytearray(WORD_LENGTHS.get(width, CHECK_SYMBOLS) - CHECK_SYMBOLS)
    read_data_into(width, word, data)
    return data


def read_data_into(width: int, word: Buffer, data: Writable) -> None:
    """Writes the data of a codeword into `data`. What that held before does not matter."""
    source = lend("word", word)
    target = lend_to_write("data", data, source)
    answer = library.xrs_read_data(byte(width), source.address, source.length, target.address, target.length)
    del source, target
    value_of(answer)


def syndromes(width: int, word: Buffer, marks: Marks = ()) -> Tuple[int, ...]:
    """The five syndromes of the word over its unmarked places: a marked place counts as 0, whatever byte it holds.

    >>> syndromes(3, bytes([0, 0, 0, 0, 0, 0, 1, 0, 0, 0, 0, 200]), marks=[11])
    (1, 2, 4, 3, 6)
    """
    lent, places = lend("word", word), lend_marks(marks)
    answer = library.xrs_syndromes(byte(width), lent.address, lent.length, places.address, places.length)
    del lent, places
    return tuple(value_of(answer).to_bytes(5, "little"))


def restore_word(width: int, word: Writable, marks: Marks = (), *, reach: Optional[int] = None) -> int:
    """Writes the near codeword in place of the word, and gives the number of unmarked places that changed, 0 to 2.

    The marks are the erasures: at most five different places, at width 4 at most three, counted from 0, in any order. The near codeword
    differs from the word at no more than r unmarked places: r is (4 - s) / 2 rounded down with s marks, and 0 with five; at width 4 it is
    (3 - s) / 2 rounded down. A reach is a shorter r: no more unmarked places are changed.

    >>> word = bytearray([200, 7, 5, 6, 1, 3, 9, 1, 0, 0, 0, 1])
    >>> restore_word(3, word, marks=[6, 0])
    1
    >>> list(word)
    [2, 7, 5, 6, 1, 3, 0, 1, 0, 0, 0, 0]
    """
    places = lend_marks(marks)
    lent = lend_to_write("word", word, places)
    lengths = (byte(width), lent.address, lent.length, places.address, places.length)
    if reach is None:
        answer = library.xrs_restore_word(*lengths)
    else:
        answer = library.xrs_restore_word_within(*lengths, byte(reach))
    del lent, places
    return value_of(answer)


def restore_word_by_trials(width: int, word: Writable, marks: Marks = (), *, reach: Optional[int] = None) -> int:
    """`restore_word` by another method, which tries the places of wrong symbols one set after the other. The answer and the word afterwards
    are the same on every input; this takes longer.

    >>> restore_word_by_trials(3, bytearray([7, 0, 0, 0, 0, 7, 0, 0, 0, 0, 0, 0]))
    2
    """
    places = lend_marks(marks)
    lent = lend_to_write("word", word, places)
    lengths = (byte(width), lent.address, lent.length, places.address, places.length)
    if reach is None:
        answer = library.xrs_restore_word_by_trials(*lengths)
    else:
        answer = library.xrs_restore_word_by_trials_within(*lengths, byte(reach))
    del lent, places
    return value_of(answer)
