"""How far a long read is: told to a callback, or shown by tqdm if it is there."""

from __future__ import annotations

from contextlib import contextmanager
from typing import Callable, Iterator, Union

# A callback that is told how much is done and of how much, True for a bar of tqdm where it is there, or None.
Progress = Union[Callable[[int, int], None], bool, None]


@contextmanager
def told(progress: Progress, total: int, unit: str) -> Iterator[Callable[[int], None]]:
    """Gives a function to be told how much is done."""
    if progress is not None and not isinstance(progress, bool):
        callback = progress
        yield lambda done: callback(done, total)
        return
    try:
        from tqdm import tqdm
    except ImportError:
        progress = False
    if not progress:
        yield lambda done: None
        return
    with tqdm(total=total, unit=unit, unit_scale=True, leave=False) as bar:
        yield lambda done: bar.update(done - bar.n)
