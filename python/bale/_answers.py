"""What the calls of the library answer."""

from __future__ import annotations

import enum


class Answer(enum.IntEnum):
    """What a call of the library answers, by the names of bale.h without BALE_; `text` says it in
    words. Answers from 0 up are no misuse."""

    text: str

    def __new__(cls, number: int, text: str) -> Answer:
        answer = int.__new__(cls, number)
        answer._value_ = number
        answer.text = text
        return answer

    # answers: checks/answers writes these lines
    OK = 0, "ok"
    FULL = 1, "the buffer is full"
    NONE = 2, "there is none"
    MORE = 3, "more to push or to send"
    NEAR = 4, "all is sent, not all is pulled"
    COMPLETE = 5, "the epoch is over"
    NO_MEMORY = -1, "no memory"
    NOT_BEGUN = -2, "the epoch has not begun"
    BEGUN = -3, "the epoch has begun already"
    SAID_DONE = -4, "the rank said that it is done"
    NO_RANK = -5, "no rank has this number"
    NOT_COMPLETE = -6, "the epoch isn't over"
    GONE = -7, "the handle is empty"
    BAD_NUMBERS = -8, "no grid, no capacity or no number of slots"
    IN_USE = -9, "the handle is in use"
    TAKEN = -10, "the rank was made before"
    LAST_EPOCH = -11, "no number is left for another epoch"
    NOT_LENT = -12, "a view lends fewer items"
    TOO_LONG = -13, "a string has more than 65,535 bytes"
    # end of answers


_BY_NUMBER: dict[int, Answer] = {int(answer): answer for answer in Answer}


class Progress(enum.Enum):
    """How far an advance found the rank. It is true while the exchange goes on, that is, until
    COMPLETE, so a loop may say `while rank.advance(done): ...`."""

    MORE = Answer.MORE.value
    """Items may still be pushed, or buffers are still to be sent."""
    NEAR = Answer.NEAR.value
    """This rank has sent everything; items are still to come or to be pulled."""
    COMPLETE = Answer.COMPLETE.value
    """The epoch is over for this rank: it has pulled all that any rank pushed to it."""

    def __bool__(self) -> bool:
        return self is not Progress.COMPLETE


class Phase(enum.Enum):
    """The state of a rank."""

    DORMANT = 100
    """The epoch has not begun."""
    WORKING = 101
    """Items may be pushed."""
    ENDGAME = 102
    """The rank said that it is done; buffers are still to be sent."""
    CLEANUP = 103
    """This rank has sent everything; items are still to come or to be pulled."""
    COMPLETE = 104
    """Every rank said that it is done, and this rank has pulled all that was pushed to it."""


class Misuse(Exception):
    """A call that doesn't fit its arguments or the state of the rank. It changed nothing.
    `answer` is what the library answered."""

    def __init__(self, answer: Answer) -> None:
        super().__init__(answer.text)
        self.answer = answer


def checked(number: int) -> int:
    """An answer from 0 up. Below 0 it is a MemoryError or a Misuse."""
    if number >= 0:
        return number
    answer = _BY_NUMBER.get(number)
    if answer is None:
        raise RuntimeError(f"the library is of another version: it answered {number}")
    if answer is Answer.NO_MEMORY:
        raise MemoryError(answer.text)
    raise Misuse(answer)
