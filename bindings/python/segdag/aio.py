"""The same for asyncio: each call runs in a thread, and the loop goes on meanwhile.

    async with await segdag.aio.open("log", create=True) as store:
        await store.add(child, [parent])
        async for head in await store.query("heads(all)"):
            ...
"""
import asyncio
from typing import Any, AsyncIterator, Callable, Iterable, Iterator, List, Sequence, Tuple

from . import store as _store
from .store import Distance, Follower, Members, Path, Sizes, Store

# So many ids are handed over at once.
_BLOCK = 4096


class AsyncMembers(AsyncIterator[bytes]):
    """The ids of an expression's members, as segdag.Members, for `async for`."""

    def __init__(self, members: Members) -> None:
        self._members, self._block = members, iter(())  # type: Members, Iterator[bytes]

    def __aiter__(self) -> "AsyncMembers":
        return self

    async def __anext__(self) -> bytes:
        for id in self._block:
            return id
        block = await asyncio.to_thread(lambda: [id for _, id in zip(range(_BLOCK), self._members)])
        if not block:
            raise StopAsyncIteration
        self._block = iter(block)
        return next(self._block)


class AsyncStore:
    """A store whose calls are awaited. `store` is the store itself, which other threads may use meanwhile."""

    def __init__(self, store: Store) -> None:
        self.store = store

    def __repr__(self) -> str:
        return f"<segdag.aio.{type(self).__name__} over {self.store!r}>"

    async def __aenter__(self) -> "AsyncStore":
        return self

    async def __aexit__(self, *raised: object) -> None:
        await self.close()

    async def close(self) -> None:
        await asyncio.to_thread(self.store.close)

    async def line(self, line: str) -> str:
        return await asyncio.to_thread(self.store.line, line)

    async def add_mirror(self, word: Path) -> None:
        await asyncio.to_thread(self.store.add_mirror, word)

    async def follow(self) -> "AsyncFollower":
        return AsyncFollower(await asyncio.to_thread(self.store.follow))

    async def add(self, id: bytes, parents: Sequence[bytes] = (), session: int = 0) -> int:
        return await asyncio.to_thread(self.store.add, id, parents, session)

    async def flush(self, *heads: bytes, session: int = 0) -> Sizes:
        return await asyncio.to_thread(lambda: self.store.flush(*heads, session=session))

    async def strip(self, *ids: bytes, session: int = 0) -> Sizes:
        return await asyncio.to_thread(lambda: self.store.strip(*ids, session=session))

    async def clone(self, session: int = 0) -> Sizes:
        return await asyncio.to_thread(self.store.clone, session)

    async def pull(self, session: int = 0) -> Sizes:
        return await asyncio.to_thread(self.store.pull, session)

    async def reload(self, session: int = 0) -> int:
        return await asyncio.to_thread(self.store.reload, session)

    async def discard(self, session: int = 0) -> int:
        return await asyncio.to_thread(self.store.discard, session)

    async def sizes(self, session: int = 0) -> Sizes:
        return await asyncio.to_thread(self.store.sizes, session)

    async def number(self, id: bytes, session: int = 0) -> int:
        return await asyncio.to_thread(self.store.number, id, session)

    async def id(self, number: int, session: int = 0) -> bytes:
        return await asyncio.to_thread(self.store.id, number, session)

    async def count(self, expression: str, session: int = 0) -> int:
        return await asyncio.to_thread(self.store.count, expression, session)

    async def query(self, expression: str, session: int = 0) -> AsyncMembers:
        return AsyncMembers(await asyncio.to_thread(self.store.query, expression, session))

    async def merge_bases(self, a: bytes, b: bytes, session: int = 0) -> List[bytes]:
        return await asyncio.to_thread(self.store.merge_bases, a, b, session)

    async def is_ancestor(self, a: bytes, b: bytes, session: int = 0) -> bool:
        return await asyncio.to_thread(self.store.is_ancestor, a, b, session)

    async def ahead_behind(self, pairs: Iterable[Tuple[bytes, bytes]], session: int = 0) -> List[Distance]:
        return await asyncio.to_thread(self.store.ahead_behind, pairs, session)


class AsyncFollower(AsyncStore):
    """A follower whose calls are awaited."""

    store: Follower

    async def __aenter__(self) -> "AsyncFollower":
        return self

    async def refresh(self) -> int:
        return await asyncio.to_thread(self.store.refresh)


async def _made(opens: Callable[..., Store], *arguments: Any, **options: Any) -> Store:
    return await asyncio.to_thread(lambda: opens(*arguments, **options))


async def open(path: Path, **options: Any) -> AsyncStore:
    """As segdag.open."""
    return AsyncStore(await _made(_store.open, path, **options))


async def follow(path: Path, **options: Any) -> AsyncFollower:
    """As segdag.follow."""
    return AsyncFollower(await _made(_store.follow, path, **options))
