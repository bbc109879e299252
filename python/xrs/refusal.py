"""Why a call was refused."""

from __future__ import annotations

import enum
from typing import Optional


class Question(enum.IntEnum):
    """The questions that calls ask of their input. The number of each is that of its refusal.

    >>> Question.CORRECTABLE == 7
    True
    """

    WIDTH = 1
    LENGTH = 2
    ERASURE_COUNT = 3
    ERASURE_PLACE = 4
    ERASURE_DISTINCT = 5
    SYMBOL = 6
    CORRECTABLE = 7
    PADDING = 8
    SYNDROME = 9
    NONZERO = 10
    SHEET_WIDTH = 11
    DATE = 12
    UNUSED = 13
    UNIQUE = 14
    FOUR_ERASURES = 15
    REACH = 16
    RECORD_NUMBER = 17
    BAY = 18
    REWRITE = 19
    SAME_DAY = 20
    WINDOW = 21


WORDS = {
    Question.WIDTH: "the width is not 3, 4, 5 or 7",
    Question.LENGTH: "the length is not the right one",
    Question.ERASURE_COUNT: "there are too many erasures",
    Question.ERASURE_PLACE: "an erasure is no place of the word",
    Question.ERASURE_DISTINCT: "an erasure is given twice",
    Question.SYMBOL: "a symbol outside the erasures is not below 2^width",
    Question.CORRECTABLE: "no codeword is near",
    Question.PADDING: "an unused erasure byte is not 255, or the tail is not 0",
    Question.SYNDROME: "a syndrome is not zero",
    Question.NONZERO: "the symbol 0 has no inverse",
    Question.SHEET_WIDTH: "the width of a day sheet is not 7",
    Question.DATE: "the date of a day sheet does not exist",
    Question.UNUSED: "an unused symbol of a day sheet is not 0",
    Question.UNIQUE: "several codewords agree outside the five erasures",
    Question.FOUR_ERASURES: "there are five erasures, and the old edition has room for four",
    Question.REACH: "the reach is longer than r",
    Question.RECORD_NUMBER: "the card has no record of that number",
    Question.BAY: "the bay is not 0 to 3",
    Question.REWRITE: "no rewrite is left to the bay",
    Question.SAME_DAY: "the two day sheets have not the same pump and date",
    Question.WINDOW: "the window has no quarter hour, or its end is above 96",
}


class Refusal(ValueError):
    """A call was refused: the question of this number was the first to be answered no. Every buffer is as it was.

    >>> import xrs
    >>> try:
    ...     xrs.inverse(3, 0)
    ... except xrs.Refusal as refusal:
    ...     print(refusal.number, refusal.words, refusal.question.name, sep=", ")
    10, the symbol 0 has no inverse, NONZERO
    """

    number: int
    """The refusal number, which docs/FORMAT.md of the repository explains."""

    def __init__(self, number: int) -> None:
        super().__init__(number)
        self.number = number

    @property
    def question(self) -> Optional[Question]:
        """The question that was answered no; `None` for a number of a newer library, which is not known here."""
        return Question(self.number) if self.number in WORDS else None

    @property
    def words(self) -> str:
        """What was wrong."""
        question = self.question
        return WORDS[question] if question else f"refused with the number {self.number}, which is not known here"

    def __str__(self) -> str:
        return self.words


def value_of(answer: int) -> int:
    """The value of an answer, which is refusal + 256 * value."""
    if answer & 255:
        raise Refusal(answer & 255)
    return answer >> 8
