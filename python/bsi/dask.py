"""Rows over the workers of a Dask cluster: an actor on each worker keeps the index of its partitions, and only numbers
leave it.

    import bsi.dask
    rows = bsi.dask.from_frame(frame)          # a Dask frame, and the client at hand
    rows.median("price", bsi.col.day < 31)     # exact, as over one index

Workers must be spawned, as Dask does by itself, and not forked: a process with threads is no safe parent.
"""

from __future__ import annotations

import asyncio
import contextlib
import os
from typing import Any, Dict, Iterable, List, Mapping, NamedTuple, Optional, Sequence, Tuple, Union

import dask
import numpy as np
from distributed import Client, get_client, wait

from .choosing import Block, Wishes, ends_of, joined_blocks, kind_of, of_each, refuse_misfit, wanted_of
from .errors import BadRow, BadSchema, Error, IndexFull, LostWorker, several
from .forms import LEAST, Form
from .gathered import Gathered
from .index import Index
from .kept import Path, opened_file
from .kinds import Kind, Misfit, Whole
from .narrowing import encode
from .table import MAX_ROWS, Table
from .values import Values, columns_of, values_of

BOUNDS, SECONDS = 63, 0.5
ALL_NUMBERS = Form("slices", (64,), LEAST)
# Of each column of a partition its first number and the two ends, as a block of three, or what it refuses; and how many
# rows the partition has.
Survey = Tuple[Union[Dict[str, Block], Error], int]


def _survey(frame: Any, wanted: List[str], kinds: Any, forms: Any) -> Survey:
    """Looks at a partition, on its worker. A refusal is returned, so that the first one of all partitions can be
    told."""
    try:
        wishes, given = Wishes(wanted, kinds, forms), columns_of(frame)
        return of_each(wanted, lambda name: _ends(wishes.block(name, values_of(name, given[name])))), len(frame)
    except Error as why:
        return why, len(frame)


def _ends(block: Block) -> Block:
    """Returns the first number of a block and the two ends."""
    first = int(np.argmax(block.valid)) if len(block.valid) else 0
    three = np.array([*block.numbers[first : first + 1], *ends_of(block.numbers, block.valid)])
    return Block(block.kind, three, np.full(len(three), block.valid.any()), first)


def _misfit(frame: Any, forms: Mapping[str, Form]) -> Optional[Error]:
    """Returns of each column the first value of a partition that it does not accept, on the partition's worker."""
    given = columns_of(frame)
    try:
        of_each(forms, lambda name: _refuse_misfit(name, forms[name], values_of(name, given[name])))
        return None
    except Error as why:
        return why


def _refuse_misfit(name: str, form: Form, values: Values) -> None:
    try:
        refuse_misfit(name, form, encode(form.kind, values), values.valid)
    except Misfit as why:
        raise BadRow(name, why.row, why.value, why.reason) from None


class Part:
    """A Dask actor: the index of some partitions."""

    def __init__(self, forms: Mapping[str, Form], frames: Iterable[Any]):
        self._index = Index(forms)
        for frame in frames:
            self._index.append(frame[list(forms)])

    def call(self, name: str, *arguments: Any) -> Any:
        """Makes a call of the index's store."""
        return getattr(self._index._store, name)(*arguments)


class KeptPart:
    """A Dask actor: the index in a file, opened on its worker."""

    def __init__(self, path: str):
        self._kept = opened_file(path)

    def call(self, name: str, *arguments: Any) -> Any:
        """Makes a call of the index."""
        return getattr(self._kept.handle, name)(*arguments)

    def columns(self) -> Tuple[Dict[str, Form], Dict[str, bytes]]:
        """Returns the columns, and the names that the library has for them."""
        return self._kept.forms, self._kept.within


class _Actor(NamedTuple):
    address: str
    proxy: Any


class _Actors(Gathered):
    """The actors of the parts, and the client that reaches them."""

    def __init__(self, client: Client, actors: List[_Actor]):
        super().__init__(BOUNDS)
        self._client, self._actors = client, actors
        self._lost: Optional[str] = None

    def _each(self, call: str, *arguments: Any) -> List[Any]:
        return self._each_of(call, [arguments] * len(self._actors))

    def _parts(self) -> int:
        return len(self._actors)

    def _each_of(self, call: str, arguments: Sequence[Sequence[Any]]) -> List[Any]:
        if self._lost is not None:
            raise LostWorker(self._lost)
        try:
            futures = [actor.proxy.call(call, *given) for actor, given in zip(self._actors, arguments)]
            return [self._answer(actor, future) for actor, future in zip(self._actors, futures)]
        except (OSError, ValueError, LostWorker) as why:
            if isinstance(why, Error) and not isinstance(why, LostWorker):
                raise
            gone = sorted({actor.address for actor in self._actors} - _addresses(self._client)) or [str(why)]
            self._lost = f"the worker {', '.join(gone)} is gone, and its rows with it; make the index again"
            raise LostWorker(self._lost) from None

    def _answer(self, actor: _Actor, future: Any) -> Any:
        """Returns an actor's answer. Dask may wait for ever for a lost worker, so this looks from time to time whether
        it is there."""
        while True:
            try:
                return future.result(timeout=SECONDS)
            except (asyncio.TimeoutError, TimeoutError):
                if actor.address not in _addresses(self._client):
                    raise LostWorker(actor.address) from None

    def close(self) -> None:
        with self.lock, contextlib.suppress(LostWorker):
            self._each("close")


def _addresses(client: Client) -> set:
    return set(client.scheduler_info()["workers"])


class Workers(Table):
    """Rows over the workers of a cluster, as `from_frame` makes them. Questions are those of an Index; no further rows
    are accepted."""

    def append(self, data: Any) -> int:
        raise TypeError("an index over workers accepts no further rows: make it of a frame that has them")


def from_frame(
    frame: Any,
    columns: Optional[Iterable[str]] = None,
    *,
    kinds: Optional[Mapping[str, Kind]] = None,
    forms: Optional[Mapping[str, Form]] = None,
    limit: Optional[int] = None,
    client: Optional[Client] = None,
) -> Workers:
    """Makes an index on each worker over the partitions of a Dask frame, and chooses kinds, widths and offsets from the
    data of all.

    A partition stays on the worker that has it, as far as all get about as many. Rows keep the order of the partitions.
    """
    if dask.config.get("distributed.worker.multiprocessing-method", "spawn") == "fork":
        raise ValueError("workers are spawned and not forked: set distributed.worker.multiprocessing-method to spawn")
    client = client or get_client()
    wanted = wanted_of(columns, list(frame.columns))
    wishes = Wishes(wanted, kinds, forms)
    partitions = client.compute(frame.to_delayed())
    asked = {"wanted": wanted, "kinds": wishes.kinds, "forms": wishes.forms}
    surveys = client.gather(client.map(_survey, partitions, pure=False, **asked))
    found, rows = zip(*surveys)
    _refuse(found, rows)
    ends = {name: _placed([one[name] for one in found], rows) for name in wanted}
    if doubtful := _doubtful(ends, wishes):
        _refuse(client.gather(client.map(_misfit, partitions, forms=doubtful, pure=False)), rows)
    chosen = of_each(ends, lambda name: _form(name, ends[name], wishes))
    if limit is not None and sum(rows) > limit:
        raise IndexFull(f"row {limit:,} is past the limit of {limit:,} rows; no index was made", limit)
    places = _places(client, partitions)
    return Workers(chosen, MAX_ROWS if limit is None else limit, _store(client, chosen, partitions, places, rows))


def open_parts(paths: Iterable[Path], client: Optional[Client] = None) -> Workers:
    """Opens the indexes in files on the workers of a cluster, by turns, which all reach the files under these
    paths. The files have the same columns; their rows come file by file."""
    client = client or get_client()
    names, workers = [os.fspath(path) for path in paths], sorted(_addresses(client))
    if not names:
        raise ValueError("an index over workers needs a file")
    places = [workers[place % len(workers)] for place in range(len(names))]
    how = {"actor": True, "pure": False}
    futures = [client.submit(KeptPart, name, workers=[place], **how) for name, place in zip(names, places)]
    _wait(client, futures, workers)
    actors = [_Actor(place, future.result()) for place, future in zip(places, futures)]
    columns = [actor.proxy.columns().result() for actor in actors]
    for name, found in zip(names, columns):
        if found != columns[0]:
            raise BadSchema(f"{name} has other columns than {names[0]}")
    store = _Actors(client, actors)
    store.runs = list(enumerate(store._each("rows")))
    forms, within = columns[0]
    return Workers(forms, MAX_ROWS, store, within)


def _refuse(answers: Sequence[Any], rows: Sequence[int]) -> None:
    """Raises the refusals of the partitions, of each column the first one, with the number that its row has among
    all."""
    found: Dict[str, Error] = {}
    for place, answer in enumerate(answers):
        for why in (answer, *answer.others) if isinstance(answer, Error) else ():
            if isinstance(why, BadRow):
                row, where = sum(rows[:place]) + why.row, f" (partition {place})"
                found.setdefault(why.column, BadRow(why.column, row, why.value, why.reason, where))
            else:
                why.others = ()
                found.setdefault(str(why), why)
    if found:
        raise several(list(found.values()))


def _store(client: Client, forms: Any, partitions: List[Any], places: List[str], rows: Sequence[int]) -> _Actors:
    """Makes an actor on each worker, over the partitions that have their place there."""
    workers = sorted(set(places))
    shares = [[one for one, place in zip(partitions, places) if place == worker] for worker in workers]
    how = {"actor": True, "pure": False}
    futures = [client.submit(Part, forms, share, workers=[worker], **how) for worker, share in zip(workers, shares)]
    _wait(client, futures, workers)
    store = _Actors(client, [_Actor(worker, future.result()) for worker, future in zip(workers, futures)])
    store.runs = [(workers.index(place), count) for place, count in zip(places, rows)]
    return store


def _wait(client: Client, futures: List[Any], workers: List[str]) -> None:
    """Waits for the actors, as long as their workers are there."""
    while True:
        try:
            wait(futures, timeout=SECONDS)
            return
        except (asyncio.TimeoutError, TimeoutError):
            gone = set(workers) - _addresses(client)
            if gone:
                raise LostWorker(f"the worker {', '.join(sorted(gone))} is gone; make the index again") from None


def _placed(ends: List[Block], rows: Sequence[int]) -> List[Block]:
    """Returns the blocks that have a number, each with its row among those of all partitions."""
    starts = [sum(rows[:place]) for place in range(len(rows))]
    there = [block._replace(row=start + block.row) for start, block in zip(starts, ends) if block.valid.any()]
    return there or ends


def _doubtful(ends: Mapping[str, List[Block]], wishes: Wishes) -> Dict[str, Form]:
    """Returns the columns that may not accept each value of a partition: those whose form is given, and those that keep
    it as another kind than the partition chose. Of these the form is one that takes all numbers."""
    kinds = of_each(ends, lambda name: kind_of(name, ends[name]) or Whole())
    return {
        name: wishes.forms.get(name, ALL_NUMBERS).of(kind)
        for name, kind in kinds.items()
        if name in wishes.forms or any(block.kind not in (kind, None) for block in ends[name])
    }


def _form(name: str, ends: List[Block], wishes: Wishes) -> Form:
    """Returns the form of a column over all partitions, of each of which the ends are known."""
    kind, (numbers, valid) = joined_blocks(name, ends)
    return wishes.form(name, kind, *ends_of(numbers, valid))


def _places(client: Client, partitions: List[Any]) -> List[str]:
    """Returns for each partition the worker that keeps its rows: one that has it, unless that one has its share
    already."""
    wait(partitions)
    workers, holders = sorted(_addresses(client)), client.who_has(partitions)
    load, share = dict.fromkeys(workers, 0), -(-len(partitions) // len(workers))
    places = []
    for partition in partitions:
        there = [worker for worker in holders.get(partition.key, ()) if load.get(worker, share) < share]
        place = min(there or workers, key=load.__getitem__)
        load[place] += 1
        places.append(place)
    return places
