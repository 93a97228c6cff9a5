"""Which form each column of a user's own data gets: from the numbers that represent its values, slices of the least
width and an offset."""

from __future__ import annotations

from collections import deque
from dataclasses import replace
from numbers import Integral
from typing import Any, Callable, Deque, Dict, Iterable, Iterator, List, Mapping, NamedTuple, Optional, Tuple, Union

import numpy as np

from .errors import BadColumns, BadRow, BadSchema, Error, several
from .forms import LEAST, MOST, Form, narrowest
from .kinds import Decimals, Kind, Misfit, Texts, Whole, first_misfit, shown
from .narrowing import MAX_TEXTS, ROUNDS, encode, factor_of, joined, narrow, recode, too_many_texts
from .packing import Packed, packed
from .values import NO_TEXTS, Values, columns_of, values_of

# The numbers of each column, and which of them are valid.
Entered = List[Tuple[np.ndarray, np.ndarray]]
# How many numbers a column takes at most.
SPAN = 1 << 63


class Block(NamedTuple):
    """Numbers of a run of rows of one column, which of them are valid, what they represent, and the first row's
    number."""

    kind: Optional[Kind]
    numbers: np.ndarray
    valid: np.ndarray
    row: int = 0

    @property
    def rows(self) -> int:
        """How many rows there are."""
        return len(self.valid)

    @property
    def ends(self) -> Optional[Tuple[int, int]]:
        """The least and the greatest of the valid numbers, or None if there is none."""
        return ends_of(self.numbers, self.valid) if self.valid.any() else None

    def plain(self) -> "Block":
        """Returns the block as it is."""
        return self

    def value(self, row: int) -> Any:
        """Returns what a number of the block represents."""
        return (self.kind or Whole()).decode(int(self.numbers[row]))

    def part(self, start: int, end: int) -> "Block":
        """Returns the rows from the one number to the other."""
        return self._replace(numbers=self.numbers[start:end], valid=self.valid[start:end])


class PackedBlock(NamedTuple):
    """The same as a block that takes as few bits as its numbers need: these times a factor, or those that stand at their
    places in a list."""

    kind: Optional[Kind]
    packed: Packed
    row: int
    ends: Optional[Tuple[int, int]]
    factor: int = 1
    listed: Optional[np.ndarray] = None

    @classmethod
    def of(cls, block: Block) -> "PackedBlock":
        """Packs a block."""
        found = packed(block.numbers, block.valid)
        return cls(block.kind, found, block.row, found.ends)

    @property
    def rows(self) -> int:
        """How many rows there are."""
        return self.packed.rows

    def plain(self) -> Block:
        """Returns the block unpacked."""
        numbers = self.packed.numbers
        numbers = numbers if self.listed is None else self.listed[numbers]
        return Block(self.kind, numbers if self.factor == 1 else numbers * self.factor, self.packed.valid, self.row)

    def meaning(self, kind: Kind, listed: np.ndarray) -> "PackedBlock":
        """Returns the block with what stands at the places in a list that its numbers are."""
        found = self._replace(kind=kind, listed=listed)
        return found._replace(ends=found.plain().ends)

    def scaled(self, kind: Optional[Kind]) -> Optional["PackedBlock"]:
        """Returns the block under a kind that keeps what it keeps, or None if a number leaves 63 bits. It has no
        texts."""
        factor = factor_of(self.kind, kind)
        low, high = (end * factor for end in self.ends or (0, 0))
        fits = -SPAN < low and high < SPAN
        ends = None if self.ends is None else (low, high)
        return self._replace(kind=kind, factor=self.factor * factor, ends=ends) if fits else None


AnyBlock = Union[Block, PackedBlock]


class Chosen(NamedTuple):
    """The forms of columns, and the blocks of each, which have the same rows."""

    forms: Dict[str, Form]
    columns: List[List[Any]]

    def rows(self) -> int:
        """Returns how many rows there are."""
        return sum(block.rows for block in self.columns[0])

    def taken(self, most: int) -> Iterator[Entered]:
        """Yields the numbers of all columns in runs of at most so many rows. The next run takes the memory of the one
        before."""
        columns = [deque(blocks) for blocks in self.columns]
        rooms = [_Entering(min(most, self.rows())) for _ in columns]
        self.columns.clear()
        while columns[0]:
            found = [room.filled(blocks) for room, blocks in zip(rooms, columns)]
            if len(found[0][1]):
                yield found


class _Entering:
    """Memory for the next rows of a column."""

    def __init__(self, most: int):
        self._numbers, self._valid = np.empty(most, np.int64), np.empty(most, bool)

    def filled(self, blocks: Deque[Any]) -> Tuple[np.ndarray, np.ndarray]:
        """Takes the first rows from the blocks, as many as there is memory for, and returns their numbers and which of
        them are valid."""
        rows = 0
        while blocks and (rows < len(self._valid) or not blocks[0].rows):
            block = blocks.popleft().plain()
            size = min(block.rows, len(self._valid) - rows)
            if size < block.rows:
                blocks.appendleft(block.part(size, block.rows))
            if size == len(self._valid):
                return block.numbers[:size].astype(np.int64, copy=False), block.valid[:size]
            self._numbers[rows : rows + size] = block.numbers[:size]
            self._valid[rows : rows + size] = block.valid[:size]
            rows += size
        return self._numbers[:rows], self._valid[:rows]


def _joined(blocks: List[Block]) -> Tuple[np.ndarray, np.ndarray]:
    if len(blocks) == 1:
        return blocks[0].numbers.astype(np.int64, copy=False), blocks[0].valid
    numbers = np.concatenate([block.numbers for block in blocks], dtype=np.int64, casting="unsafe")
    return numbers, np.concatenate([block.valid for block in blocks])


def wanted_of(columns: Optional[Iterable[str]], names: List[str], drop: Iterable[str] = ()) -> List[str]:
    """Returns the columns that are wanted, all if none are named, but for those that are dropped."""
    for what, given in (("columns", columns), ("drop", drop)):
        if given is not None and not isinstance(given, Iterable):
            raise TypeError(f"{what} is a list of names, and not {given!r}")
    wanted = list(names) if columns is None else [columns] if isinstance(columns, str) else list(columns)
    dropped = [drop] if isinstance(drop, str) else list(drop)
    unknown = [name for name in [*wanted, *dropped] if name not in names]
    if unknown:
        raise BadColumns(f"there is no column {unknown[0]!r}, only {', '.join(map(repr, names))}")
    wanted = [name for name in wanted if name not in dropped]
    repeated = [name for name in wanted if wanted.count(name) > 1 or names.count(name) > 1]
    if repeated:
        raise BadColumns(f"the column {repeated[0]!r} is there twice")
    if not wanted:
        raise BadColumns("there are no columns")
    return wanted


def refuse_no_kind(name: str, kind: Any) -> None:
    """Refuses what is given as a kind and is none."""
    if not isinstance(kind, Kind):
        raise BadSchema(f"the kind of column {name!r} is one, as Decimals('0.01') is, and not {kind!r}")


def _texts_of(name: str, dtype: Any) -> Texts:
    """Returns the texts of a category's dtype of pandas, or raises BadSchema if it has none."""
    texts = () if dtype.categories is None else tuple(dtype.categories)
    if not texts or not all(isinstance(text, str) for text in texts):
        has = f"the categories {shown(list(texts))}" if texts else "no categories"
        reason = f"its dtype has {has}, but needs a list of texts"
        raise BadSchema(f"column {name!r}: {reason}; kinds= with Texts accepts those that are there")
    return Texts(texts, ordered=bool(dtype.ordered))


def by_column(what: str, wanted: str, given: Any, names: List[str], kind: type) -> Dict[str, Any]:
    """Returns what is given for all columns, or by column. Refuses what is of another type than is wanted, or is given
    for no column."""
    by_name = given if isinstance(given, Mapping) else dict.fromkeys(names, given)
    found = {name: one for name, one in by_name.items() if one is not None}
    for name, one in found.items():
        if not isinstance(one, kind) or isinstance(one, bool):
            raise TypeError(f"{what} is {wanted}, or a dict of such by column, and not {given!r}")
        if name not in names:
            raise BadColumns(f"{what} is given for {name!r}, and the columns are {', '.join(map(repr, names))}")
    return found


class Wishes:
    """What the caller says about kinds and forms of columns, by name."""

    def __init__(
        self,
        names: List[str],
        kinds: Optional[Mapping[str, Any]],
        forms: Optional[Mapping[str, Form]],
        spare: int = 0,
        round: Union[int, Mapping[str, int], None] = None,
    ):
        for what, given in (("kinds", kinds), ("forms", forms)):
            if given is not None and not isinstance(given, Mapping):
                raise TypeError(f"{what} is a dict by column, and not {given!r}")
        self.names, self.kinds, self.forms, self.spare = names, dict(kinds or {}), dict(forms or {}), spare
        self.round = by_column("round", "a number of places", round, names, Integral)
        for places in self.round.values():
            if not 0 <= places <= 18:
                raise ValueError(f"round is 0 to 18 places, and not {places}")
        if not isinstance(spare, int) or not 0 <= spare < 63:
            raise ValueError(f"spare is 0 to 62 bits, and not {spare!r}")
        for name in [*self.kinds, *self.forms]:
            if name not in names:
                listed = ", ".join(map(repr, names))
                raise BadColumns(f"a kind or form is given for {name!r}, and the columns are {listed}")
        for name, kind in self.kinds.items():
            if hasattr(kind, "categories"):
                self.kinds[name] = _texts_of(name, kind)
        for name, form in self.forms.items():
            if not isinstance(form, Form):
                shape = "slices(..), range(..) or equality(..)"
                raise BadSchema(f"the form of column {name!r} is {shape}, and not {form!r}")
            if form.kind != Whole():
                self.kinds.setdefault(name, form.kind)

    def block(self, name: str, values: Values, row: int = 0) -> Block:
        """Returns the numbers that represent the values, under the kind that is given or the narrowest."""
        kind = self.kinds.get(name)
        try:
            if kind is None or kind is Texts:
                kind, numbers = narrow(values, None if kind is Texts else MAX_TEXTS, self.round.get(name))
                if self.kinds.get(name) is Texts and not isinstance(kind, (Texts, type(None))):
                    first_misfit(values.valid, values.values, "is no text")
            else:
                refuse_no_kind(name, kind)
                numbers = encode(kind, values)
        except Misfit as why:
            raise BadRow(name, row + why.row, why.value, why.reason) from None
        return Block(kind, numbers, values.valid, row)

    def form(self, name: str, kind: Optional[Kind], low: int, high: int) -> Form:
        """Returns the form that is given for the column, or the smallest for its numbers."""
        given = self.kinds.get(name)
        # (a column of texts has one at least)
        kind = kind or (given if isinstance(given, Kind) else NO_TEXTS if given is Texts else Whole())
        if name in self.forms:
            return self.forms[name].of(kind)
        if high - low >= SPAN:
            raise BadSchema(f"column {name!r}: {too_far(kind, low, high)}")
        if isinstance(kind, Texts):
            # (a list that is given, or an order, has texts that no row has yet)
            low, high = 0, len(kind.values) - 1
            grows = not isinstance(given, Texts) and not kind.ordered and self.spare
            kind = replace(kind, grows=True) if grows else kind
        return narrowest(kind, low, high, self.spare)


def too_far(kind: Kind, low: int, high: int) -> str:
    """Returns what is wrong with numbers that lie too far apart."""
    return f"from {kind.show(low)} to {kind.show(high)} are more than the 2^63 values that a column can hold"


def kind_of(name: str, blocks: Iterable[AnyBlock], most: Optional[int] = MAX_TEXTS) -> Optional[Kind]:
    """Returns the kind that keeps what all blocks keep, with at most so many texts."""
    kind: Optional[Kind] = None
    blocks = list(blocks)
    for block in (block for block in blocks if not _has_no_text(block)):
        before = kind
        try:
            kind = joined(before, block.kind)
        except TypeError as why:
            given = block.plain()
            row = int(given.valid.argmax())
            raise BadRow(name, given.row + row, given.value(row), str(why)) from None
        if isinstance(kind, Texts) and kind not in (before, block.kind) and most and len(kind.values) > most:
            raise _too_many_texts(name, dict.fromkeys(getattr(before, "values", ())), block.plain())
    return kind or next((block.kind for block in blocks if block.kind is not None), None)


def _has_no_text(block: AnyBlock) -> bool:
    """Returns whether a block says that its column has texts, and has none."""
    return block.kind == NO_TEXTS and block.ends is None


def _too_many_texts(name: str, found: Dict[str, None], block: Block) -> Error:
    """Returns which text of the block is one too many."""
    for row in np.flatnonzero(block.valid).tolist():
        found[block.value(row)] = None
        if len(found) > MAX_TEXTS:
            return BadRow(name, block.row + row, block.value(row), too_many_texts(block.value(row)))
    return BadColumns(f"column {name!r} has more than {MAX_TEXTS:,} different texts; leave it out")


def settled(name: str, blocks: List[Any], wishes: Wishes) -> Form:
    """Returns the form of a column, and puts its blocks under one kind. Refuses those that a form which was given does
    not take."""
    kind = kind_of(name, blocks, None if wishes.kinds.get(name) is Texts else MAX_TEXTS)
    for place, block in enumerate(blocks):
        blocks[place] = recoded(name, block, kind)
    ends = [block.ends for block in blocks if block.ends is not None]
    low, high = min((low for low, _ in ends), default=0), max((high for _, high in ends), default=0)
    if high - low >= SPAN and name not in wishes.forms:
        more = ROUNDS if isinstance(kind, Decimals) and name not in wishes.kinds else ""
        raise _first_too_far(name, kind or Whole(), more, *_joined([block.plain() for block in blocks]))
    form = wishes.form(name, kind, low, high)
    if name in wishes.forms:
        for block in (block.plain() for block in blocks):
            refuse_misfit(name, form, block.numbers, block.valid, block.row)
    return form


def recoded(name: str, block: AnyBlock, kind: Optional[Kind]) -> AnyBlock:
    """Returns a block under a kind that keeps what it keeps."""
    if block.kind is None or block.kind == kind:
        return block
    if _has_no_text(block):
        return block._replace(kind=kind)
    if isinstance(block, PackedBlock) and (scaled := block.scaled(kind)) is not None:
        return scaled
    given = block.plain()
    try:
        return given._replace(kind=kind, numbers=recode(given.numbers, given.valid, given.kind, kind))
    except Misfit as why:
        raise BadRow(name, given.row + why.row, given.value(why.row), why.reason) from None


def _first_too_far(name: str, kind: Kind, more: str, numbers: np.ndarray, valid: np.ndarray) -> BadRow:
    """Returns the first row that lies too far from one before it, and what helps."""
    low = np.minimum.accumulate(np.where(valid, numbers, MOST))
    high = np.maximum.accumulate(np.where(valid, numbers, LEAST))
    # (the difference as a number without a sign, which is right where there is a number before)
    spans = high.view(np.uint64) - low.view(np.uint64)
    row = int((np.logical_or.accumulate(valid) & (spans >= SPAN)).argmax())
    return BadRow(name, row, kind.decode(int(numbers[row])), too_far(kind, int(low[row]), int(high[row])) + more)


def joined_blocks(name: str, blocks: List[Block]) -> Tuple[Optional[Kind], Tuple[np.ndarray, np.ndarray]]:
    """Returns the kind of a column, and its numbers of all blocks under it."""
    kind = kind_of(name, blocks)
    return kind, _joined([recoded(name, block, kind).plain() for block in blocks])


def ends_of(numbers: np.ndarray, valid: np.ndarray) -> Tuple[int, int]:
    """Returns the least and the greatest of the valid numbers, and 0 twice if there is none."""
    there = numbers if valid.all() else numbers[valid]
    return (int(there.min()), int(there.max())) if len(there) else (0, 0)


def misfits(form: Form, numbers: np.ndarray, valid: np.ndarray) -> np.ndarray:
    """Returns which of the numbers their column does not accept."""
    return valid & ((numbers < form.offset) | (numbers > min(form.most, MOST)))


def refuse_misfit(name: str, form: Form, numbers: np.ndarray, valid: np.ndarray, first: int = 0) -> None:
    """Raises the first number that its column does not accept, if there is one. The rows begin with that number."""
    bad = misfits(form, numbers, valid)
    if bad.any():
        row = int(bad.argmax())
        raise form.misfit(name, first + row, int(numbers[row]))


def chosen_of(
    frames: Iterable[Any],
    columns: Optional[Iterable[str]] = None,
    kinds: Optional[Mapping[str, Any]] = None,
    forms: Optional[Mapping[str, Form]] = None,
    *,
    drop: Iterable[str] = (),
    round: Union[int, Mapping[str, int], None] = None,
    spare: int = 0,
) -> Chosen:
    """Returns the forms of the wanted columns of frames that follow each other, and their numbers. Each frame has the
    wanted columns of the first."""
    wishes: Optional[Wishes] = None
    blocks: Dict[str, List[Block]] = {}
    rows = 0
    for frame in frames:
        given = columns_of(frame)
        if wishes is None:
            wishes = Wishes(wanted_of(columns, list(given), drop), kinds, forms, spare, round)
            blocks = {name: [] for name in wishes.names}
        names = wanted_of(wishes.names, list(given))
        for name, block in of_each(names, lambda name: wishes.block(name, values_of(name, given[name]), rows)).items():
            blocks[name].append(block)
        rows += _length({name: len(found[-1].numbers) for name, found in blocks.items()})
    if wishes is None:
        raise BadColumns("there is no frame")
    return Chosen(of_each(wishes.names, lambda name: settled(name, blocks[name], wishes)), list(blocks.values()))


def of_each(names: Iterable[str], call: Callable[[str], Any]) -> Dict[str, Any]:
    """Returns what the call gives of each column. Where it refuses some, all of these are told."""
    found, refusals = {}, []
    for name in names:
        try:
            found[name] = call(name)
        except Error as why:
            refusals.append(why)
    if refusals:
        raise several(refusals)
    return found


def _length(lengths: Dict[str, int]) -> int:
    """Returns the one length that all columns have."""
    if len(set(lengths.values())) > 1:
        listed = ", ".join(f"{name!r} {length:,}" for name, length in lengths.items())
        raise BadColumns(f"the columns differ in length: {listed}")
    return next(iter(lengths.values()))
