"""The different texts of a column, each with a number in the order in which it was found."""

from __future__ import annotations

import threading
from typing import Dict, List, NamedTuple

import numpy as np

from .fields import WORD, Fields

# Texts of so many words are compared as such, and longer ones one by one.
WORDS = 8
FACTOR = np.uint64(0x9E37_79B9_7F4A_7C15)


# The places of a table by which texts are found: so many for each text, and at most so many.
SPARSE, MOST_PLACES = 16, 1 << 20


class Known(NamedTuple):
    """Texts in the order of their keys, with their numbers, lengths and words, as many as the longest has; and a table
    that says where a key stands, by its bits when it is multiplied but for so many of the lowest."""

    keys: np.ndarray
    codes: np.ndarray
    lengths: np.ndarray
    words: np.ndarray
    table: np.ndarray
    lowest: np.uint64

    @classmethod
    def of(cls, keys: np.ndarray, codes: np.ndarray, lengths: np.ndarray, words: np.ndarray) -> "Known":
        """Returns texts in whatever order they are."""
        order = np.argsort(keys)
        bits = min(SPARSE * len(keys), MOST_PLACES).bit_length()
        table, lowest = np.zeros(1 << bits, np.int64), np.uint64(64 - bits)
        table[_places_of(keys[order], lowest)] = np.arange(len(keys))
        return cls(keys[order], codes[order], lengths[order], words[:, order], table, lowest)

    def codes_of(self, asked: "Asked") -> np.ndarray:
        """Returns the number of each text that is known, and -1 for the others."""
        if not len(self.keys):
            return np.full(len(asked.keys), -1, np.int64)
        places = self.table[_places_of(asked.keys, self.lowest)]
        is_same = self._are(places, asked)
        if not is_same.all():
            # (it is new, or another text stands in its place of the table)
            rest = np.flatnonzero(~is_same)
            left = asked.taken(rest)
            places[rest] = np.minimum(np.searchsorted(self.keys, left.keys), len(self.keys) - 1)
            is_same[rest] = self._are(places[rest], left)
        codes = self.codes[places]
        codes[~is_same] = -1
        return codes

    def _are(self, places: np.ndarray, asked: "Asked") -> np.ndarray:
        """Returns which of the texts are those that stand at these places."""
        is_same = self.lengths[places] == asked.lengths
        for known, words in zip(self.words, asked.words):
            is_same &= known[places] == words
        return is_same


def _places_of(keys: np.ndarray, lowest: np.uint64) -> np.ndarray:
    """Returns the places of keys in a table."""
    return ((keys * FACTOR) >> lowest).view(np.int64)


NONE = Known.of(np.zeros(0, np.uint64), *np.zeros((2, 0), np.int64), np.zeros((0, 0), np.uint64))


class Asked(NamedTuple):
    """Fields by their words."""

    keys: np.ndarray
    lengths: np.ndarray
    words: List[np.ndarray]

    def taken(self, places: np.ndarray) -> "Asked":
        """Returns the fields at these places."""
        return Asked(self.keys[places], self.lengths[places], [words[places] for words in self.words])


def asked_of(fields: Fields) -> Asked:
    """Returns fields by their words, and a key of each. Keys that are equal may have words that differ, and a text may
    have several."""
    lengths, words = fields.ends - fields.starts, fields.words()[:WORDS]
    if len(words) == 1:
        return Asked(words[0], lengths, words)
    keys = lengths.astype(np.uint64) * FACTOR
    for word in words:
        keys = (keys ^ word) * FACTOR
        keys ^= keys >> np.uint64(29)
    return Asked(keys, lengths, words)


class Distinct:
    """Different texts. Several threads may ask it."""

    def __init__(self) -> None:
        self.texts: List[str] = []
        self._codes: Dict[str, int] = {}
        self._lock = threading.Lock()
        self._known = NONE

    def end(self) -> None:
        """Gives back the memory that finds texts: from then on none is asked for."""
        self._known, self._codes = NONE, {}

    def codes(self, fields: Fields) -> np.ndarray:
        """Returns the number of each field's text, which is kept if it is new."""
        asked = asked_of(fields)
        codes = self._known.codes_of(asked)
        codes[asked.lengths > WORDS * WORD] = -1
        unknown = np.flatnonzero(codes < 0)
        if len(unknown):
            with self._lock:
                self._learn(fields.taken(unknown), asked.taken(unknown))
            codes[unknown] = self._known.codes_of(asked.taken(unknown))
            codes[asked.lengths > WORDS * WORD] = -1
            others = np.flatnonzero(codes < 0)
            with self._lock:
                codes[others] = [self._code(text) for text in fields.taken(others).texts()]
        return codes

    def places(self, texts: List[str]) -> List[int]:
        """Returns the number of each text, which is kept if it is new."""
        with self._lock:
            return [self._code(text) for text in texts]

    def _code(self, text: str) -> int:
        code = self._codes.setdefault(text, len(self.texts))
        if code == len(self.texts):
            self.texts.append(text)
        return code

    def _learn(self, fields: Fields, asked: Asked) -> None:
        """Keeps the texts of fields that are short, the first of each key."""
        short = np.flatnonzero(asked.lengths <= WORDS * WORD)
        first = short[np.sort(np.unique(asked.keys[short], return_index=True)[1])]
        first = first[~np.isin(asked.keys[first], self._known.keys)]
        codes = np.array([self._code(text) for text in fields.taken(first).texts()], np.int64)
        known = self._known
        keys = np.concatenate([known.keys, asked.keys[first]])
        words = np.zeros((max(len(known.words), len(asked.words)), len(keys)), np.uint64)
        words[: len(known.words), : len(known.keys)] = known.words
        for place, word in enumerate(asked.words):
            words[place, len(known.keys) :] = word[first]
        self._known = Known.of(
            keys,
            np.concatenate([known.codes, codes]),
            np.concatenate([known.lengths, asked.lengths[first]]),
            words,
        )
