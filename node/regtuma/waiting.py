"""Waiting for a limited time, and reading so much at most."""
import asyncio
import json
from collections.abc import Callable, Coroutine, Iterable, Sequence
from http.cookies import SimpleCookie
from typing import Any, TypeVar

import aiohttp

T = TypeVar("T")
Item = TypeVar("Item")


# How many bytes are kept of what is too long.
BEGIN = 2000


class TooMuch(ValueError):
    """Somebody answers more than is read, which begins so."""

    def __init__(self, why: str, begin: bytes = b""):
        super().__init__(why)
        self.begin = begin


class NoCookies(SimpleCookie[str]):
    def load(self, rawdata: object) -> None:
        """Nobody wants them."""


class Answer(aiohttp.ClientResponse):
    """An answer of anybody's program. To read the cookies that its headers have room for takes a second."""

    def __init__(self, *args: Any, **more: Any):
        super().__init__(*args, **more)
        self.cookies = NoCookies()


async def within(seconds: float, doing: Coroutine[Any, Any, T]) -> T:
    """What this comes to; TimeoutError where it takes longer.

    Python 3.11's wait_for passes over a cancel that comes in the very moment in which it is done, and timeout takes one of aiohttp,
    which takes none back, for the end of the task.
    """
    task = asyncio.ensure_future(doing)
    # One that fails as its time is up, or as nobody waits any more, is no matter: else asyncio says that nobody asked.
    task.add_done_callback(lambda it: it.cancelled() or it.exception())
    try:
        if not (await asyncio.wait([task], timeout=seconds))[0]:
            raise asyncio.TimeoutError
        return task.result()
    finally:
        task.cancel()


async def together(doings: Iterable[Coroutine[Any, Any, T]]) -> list[T]:
    """What all of these come to, side by side. Where one fails, the others end."""
    tasks = [asyncio.ensure_future(it) for it in doings]
    try:
        return list(await asyncio.gather(*tasks))
    finally:
        for it in tasks:
            it.cancel()


async def beside(here: Coroutine[Any, Any, T], others: Iterable[Coroutine[Any, Any, T]]) -> list[T]:
    """The same, of which the first needs no task: one costs more than most of what is done in it. Where another one fails, that is
    told once the first is done."""
    tasks = [asyncio.ensure_future(it) for it in others]
    for it in tasks:
        # Where the first fails, nobody asks how these end.
        it.add_done_callback(lambda done: done.cancelled() or done.exception())
    try:
        return [await here, *[await it for it in tasks]]
    finally:
        for it in tasks:
            it.cancel()


async def each(items: Sequence[Item], most: int, do: Callable[[Item], Coroutine[Any, Any, T]]) -> list[T]:
    """What is done with each of these, so many at a time. Where one fails, the others end."""
    done, left = dict[int, T](), iter(enumerate(items))

    async def one_by_one() -> None:
        for place, item in left:
            done[place] = await do(item)
    await together(one_by_one() for _ in range(min(most, len(items))))
    return [done[place] for place in range(len(items))]


async def whole(content: aiohttp.StreamReader, longest: int) -> bytes:
    """What somebody answers, who may be anybody's program: no more is read than this node bears."""
    data = bytearray()
    async for piece in content.iter_any():
        data += piece
        if len(data) > longest:
            raise TooMuch(f"its answer has more than {longest >> 20} MiB", bytes(data[:BEGIN]))
    return bytes(data)


def value_of(data: bytes, most: int) -> object:
    """The JSON value that somebody's bytes spell, with so many commas at most: what lies between them takes up to thirty times as much
    in memory, and time."""
    if data.count(b",") > most:
        raise ValueError(f"its answer has more than {most:,} commas")
    return json.loads(data)
