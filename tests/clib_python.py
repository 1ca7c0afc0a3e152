"""The module in Python at its edges, for the part `python` of clib.sh: clib_python.py FOLDER, a new folder. What doesn't fit its type is
refused, and never taken for something else; a store goes to other threads and back, and is let go by any of them; a copy is none; a fork
has to open the log anew. PYTHONPATH has bindings/python, and SEGDAG_LIBRARY the library.
"""
import asyncio
import copy
import errno
import gc
import os
import pickle
import signal
import subprocess
import sys
import threading
import time
from concurrent.futures import ThreadPoolExecutor
from pathlib import Path
from typing import Callable, List, Tuple, Type

import plain_log
import segdag
from segdag import aio

FOLDER = Path(sys.argv[1])
WRONG_SESSIONS = (-1, 16, 256, 2**64, "0", None, 0.0)
WORKERS, ROWS = 8, 200
LONG = 1_100_000  # more members than the core answers at once


def name(number: int) -> bytes:
    return number.to_bytes(20, "big")


def fail(text: str) -> None:
    sys.exit(f"clib_python: {text}")


def raises(wanted: Tuple[Type[BaseException], ...], call: Callable[[], object], what: str) -> None:
    """Whether the call raises one of these, and nothing else."""
    try:
        told = call()
    except wanted:
        return
    fail(f"{what} gives {told!r}")


def numbers() -> None:
    """A session, an id or a cache that doesn't fit its type."""
    with segdag.open(FOLDER / "numbers", create=True) as store:
        store.add(name(1))
        store.flush(name(1))
        store.add(name(2), [name(1)])
        for session in WRONG_SESSIONS:
            calls = {
                "discard": lambda: store.discard(session=session), "sizes": lambda: store.sizes(session=session),
                "reload": lambda: store.reload(session=session), "add": lambda: store.add(name(3), session=session),
                "flush": lambda: store.flush(session=session), "strip": lambda: store.strip(name(1), session=session),
                "clone": lambda: store.clone(session=session), "pull": lambda: store.pull(session=session),
                "number": lambda: store.number(name(1), session=session), "id": lambda: store.id(0, session=session),
                "count": lambda: store.count("all", session=session), "query": lambda: list(store.query("all", session=session)),
                "merge_bases": lambda: store.merge_bases(name(1), name(2), session=session),
                "is_ancestor": lambda: store.is_ancestor(name(1), name(2), session=session),
                "ahead_behind": lambda: store.ahead_behind([(name(1), name(2))], session=session),
            }  # fmt: skip
            for what, call in calls.items():
                raises((segdag.Argument, TypeError), call, f"{what} with the session {session!r}")
        for number in (-1, 2**64, 2**64 + 1, "0", 0.5, name(1)):
            raises((segdag.Argument, TypeError), lambda: store.id(number), f"the id of {number!r}")
        for id in (b"", name(1)[1:], name(1) + b"x", name(1).hex(), 1, None):
            raises((segdag.Argument, TypeError), lambda: store.number(id), f"the number of {id!r}")
        if store.sizes() != (1, 0, 1) or store.id(0) != name(1):
            fail("a call that was refused changed something")
    for number in (0, -1, 2**32 + 1, 2**64, "7", 1.5):
        for opens in (segdag.open, segdag.follow):
            raises((segdag.Argument, TypeError), lambda: opens(FOLDER / "numbers", cache=number), f"a cache of {number!r}")
            raises((segdag.Argument, TypeError), lambda: opens(FOLDER / "numbers", most_bytes=number), f"a limit of {number!r}")
    for wait in (-1, 2**32, float("nan"), float("inf"), "x"):
        raises((ValueError, OverflowError), lambda: segdag.open(FOLDER / "numbers", wait=wait), f"a wait of {wait!r}")


def errors() -> None:
    """What a failure tells, as fields of what is raised."""
    path = FOLDER / "errors"
    raises((segdag.NotOpened,), lambda: segdag.open(path), "opening what isn't there")
    with segdag.open(path, create=True) as store:
        try:
            store.add(name(2), [name(1)])
        except segdag.Refusal as refused:
            told = (type(refused), refused.name, refused.id, refused.text, str(refused), refused.errno, refused.call)
            if told != (segdag.Unknown, "unknown", name(1), f"unknown {name(1).hex()}", f"unknown {name(1).hex()}", 0, None):
                fail(f"a refusal tells {told}")
        try:
            segdag.open(FOLDER / "none" / "log", create=True)
        except segdag.NotOpened as failed:
            if (failed.errno, failed.call) != (errno.ENOENT, "open") or "No such file" not in str(failed):
                fail(f"a file that can't be made tells {failed}")
        raises((segdag.Locked,), lambda: segdag.open(path), "opening what is open")
        raises((segdag.NoLog,), lambda: segdag.follow(FOLDER / "numbers", most_bytes=50), "a log longer than was allowed")
        if repr(store) != f"<segdag.Store {str(path)!r}, open>" or store.is_closed:
            fail(f"a store is {store!r}")
    raises((segdag.Closed,), store.sizes, "the sizes of a closed store")
    if not store.is_closed or segdag.__version__.count(".") != 2 or not set(segdag.__all__) <= set(dir(segdag)):
        fail("the module lacks what it tells, or a closed store is open")


def answers() -> None:
    """Members are as they were when they were asked for, also once the store is closed, and of more than a million commits."""
    with segdag.open(FOLDER / "answers", create=True) as store:
        for row in range(10_000):
            store.add(name(row), [name(row - 1)] if row else [])
        members = store.query("all")
        store.discard()
        with store.query("all") as none, segdag.follow(FOLDER / "answers") as reader, reader.follow() as again:
            if len(none) or list(none) or again.sizes() != (0, 0, 0) or not isinstance(again, segdag.Follower):
                fail("there are members of nothing")
    if len(members) != 10_000 or [next(members), next(members)] != [name(9_999), name(9_998)] or len(members) != 9_998:
        fail("members come in another order, or are counted wrongly")
    if list(members) != [name(row) for row in range(9_997, -1, -1)] or next(members, None) is not None:
        fail("members are others than those that were asked for")
    members.close()
    write_long(FOLDER / "long", LONG)
    with segdag.open(FOLDER / "long", read_only=True) as store:
        last = LONG
        for last, id in zip(range(LONG - 1, -1, -1), store.query("all")):
            if id != name(last):
                fail(f"the member {last} of a long answer is {id.hex()}")
        if last != 0 or store.count("all") != LONG:
            fail(f"a long answer ends before {last}")


def write_long(path: Path, count: int) -> None:
    """The log of a chain of so many commits."""
    short = FOLDER / "short"
    with segdag.open(short, create=True) as store:
        for row in range(3):
            store.add(name(row), [name(row - 1)] if row else [])
        store.flush(name(2))
    (payload,) = plain_log.read(short.read_bytes())
    payload.master, payload.after = [[level, [0, count - 1, parents]] for level, (_, _, parents) in payload.master], count
    payload.known = [(row, name(row)) for row in range(count)]
    path.write_bytes(plain_log.spelled([payload]))


def in_asyncio() -> None:
    """The same for asyncio: the loop goes on while a call waits."""

    async def use() -> None:
        path = FOLDER / "asyncio"
        async with await aio.open(path, create=True) as store:
            await asyncio.gather(*(store.add(name(row), session=row % 16) for row in range(64)))
            await asyncio.gather(*(store.flush(session=session) for session in range(16)))
            waits = asyncio.create_task(aio.open(path, wait=60))
            await store.reload()
            found = [id async for id in await store.query("all")]
            if sorted(found) != [name(row) for row in range(64)] or await store.count("all") != 64:
                fail("asyncio finds other commits")
            async with await store.follow() as reader:
                if await reader.refresh() != 0 or (await reader.sizes()).others != 64:
                    fail("a follower in asyncio finds other commits")
        async with await waits as second:
            if await second.id(await second.number(name(7))) != name(7):
                fail("a store that was waited for has other commits")

    asyncio.run(use())


def told_progress() -> None:
    """What is told how far a call has come cancels it by its answer, or by what it raises; a signal ends a wait; no call is made meanwhile."""
    path, told = FOLDER / "long", []

    def cancels(stage: segdag.Stage) -> Callable[[segdag.Progress], bool]:
        return lambda progress: bool(told.append(progress)) or progress.stage == stage

    for stage in (segdag.Stage.READ, segdag.Stage.LOAD):
        for opens in (segdag.open, segdag.follow):
            raises((segdag.Cancelled,), lambda: opens(path, progress=cancels(stage)), f"an opening that is cancelled at {stage!r}")
    if {progress.stage for progress in told} != {segdag.Stage.READ, segdag.Stage.LOAD} or max(it.done for it in told) != path.stat().st_size:
        fail(f"an opening tells {told}")
    raises((ZeroDivisionError,), lambda: segdag.open(path, progress=lambda _: 1 // 0), "an opening whose progress raises")
    with segdag.open(path, progress=lambda progress: progress.stage == segdag.Stage.ANSWER) as store:
        raises((segdag.Cancelled,), lambda: store.query("all"), "a long query that is cancelled")
        raises((segdag.Locked,), lambda: segdag.open(path, wait=0.1), "a wait")
        raises((segdag.Cancelled,), lambda: segdag.open(path, wait=None, progress=cancels(segdag.Stage.LOCK)), "a wait that is cancelled")
        before = signal.signal(signal.SIGINT, signal.default_int_handler)  # a shell starts what is in the background without it
        signalled = threading.Timer(0.3, os.kill, (os.getpid(), signal.SIGINT))
        raises((KeyboardInterrupt,), lambda: (signalled.start(), segdag.open(path, wait=600)), "a wait with a signal")
        signalled.join()
        far = [(name(row), name(LONG - 1)) for row in range(5000)] * 40
        with segdag.follow(path, progress=lambda _: False) as reader:
            signalled = threading.Timer(0.05, os.kill, (os.getpid(), signal.SIGINT))
            raises((KeyboardInterrupt,), lambda: (signalled.start(), reader.ahead_behind(far), signalled.join(), time.sleep(1)), "many pairs with a signal")
            if reader.ahead_behind(far[:2]) != [(0, LONG - 1), (0, LONG - 2)]:
                fail("a call that a signal ended left something")
        signal.signal(signal.SIGINT, before)
    kept: List[segdag.Store] = []
    with segdag.open(path, progress=lambda _: kept and kept[0].sizes()) as store:
        kept.append(store)
        raises((segdag.Argument,), lambda: store.ahead_behind([(name(0), name(1))]), "a call on a store in its own progress")
        kept.clear()
        if store.ahead_behind([(name(0), name(1))]) != [(0, 1)]:
            fail("a call that was refused left something")


def unloaded() -> None:
    """Where the library isn't there the import says what to do."""
    done = subprocess.run(
        [sys.executable, "-c", "import segdag"], env={**os.environ, "SEGDAG_LIBRARY": "/nowhere/libsegdag.so"}, stderr=subprocess.PIPE, text=True
    )
    if done.returncode == 0 or "ImportError: segdag needs its library" not in done.stderr or "make lib" not in done.stderr:
        fail(f"without the library the import says {done.stderr}")


def paths() -> None:
    """A path with a NUL is none, and a file that is no log stays as it is."""
    page = FOLDER / "page"
    page.write_text("# A page\n")
    for path in ("a\0b", b"a\0b"):
        for opens in (segdag.open, segdag.follow):
            raises((ValueError,), lambda: opens(os.fsdecode(FOLDER) + "/" + os.fsdecode(path)), f"opening {path!r}")
    if (FOLDER / "a").exists():
        fail("a path was cut at its NUL")
    with segdag.open(FOLDER / "paths", create=True) as store:
        raises((ValueError,), lambda: store.add_mirror("numbers\0x"), "a mirror with a NUL")
        store.add_mirror(os.fspath(page))
        raises((segdag.Remote,), store.clone, "a clone of a page")
    for opens in (segdag.open, segdag.follow):
        raises((segdag.Foreign,), lambda: opens(page), "opening a page")
    if page.read_text() != "# A page\n":
        fail("the page was changed")


def is_free(path: Path) -> bool:
    try:
        segdag.open(path, create=True).close()
    except segdag.Locked:
        return False
    return True


def dropped() -> None:
    """Stores that another thread than the one that opened them lets go of."""
    path = FOLDER / "dropped"
    kept = [segdag.open(path, create=True)]
    if is_free(path):
        fail("a log that is open isn't locked")
    thread = threading.Thread(target=kept.clear)
    thread.start()
    thread.join()
    gc.collect()
    if not is_free(path):
        fail("a store that another thread dropped keeps its lock")
    thread = threading.Thread(target=lambda: kept.append(segdag.open(path, create=True)))
    thread.start()
    thread.join()
    kept[0].add(name(1))
    kept.pop().close()
    if not is_free(path):
        fail("a store whose thread has ended keeps its lock")


def copied() -> None:
    """No copy closes the store of which it was made."""
    with segdag.open(FOLDER / "copied", create=True) as store:
        for call in (lambda: copy.copy(store), lambda: copy.deepcopy(store), lambda: pickle.dumps(store)):
            raises((TypeError,), call, "a copy")
        gc.collect()
        store.add(name(1))


def shared() -> None:
    """A pool of threads over one store: each answer is its own thread's."""
    with segdag.open(FOLDER / "shared", create=True) as store, ThreadPoolExecutor(WORKERS) as pool:

        def work(worker: int) -> int:
            for row in range(ROWS):
                own = name(1 + worker * ROWS + row)
                store.add(own, session=worker)
                if store.line(f"{worker} query {own.hex()}") != f"{own.hex()}\nok 1\n" or list(store.query(own.hex(), session=worker)) != [own]:
                    fail("an answer is another thread's")
            return store.flush(session=worker).others

        if max(pool.map(work, range(WORKERS))) != WORKERS * ROWS:
            fail("rows of a thread are missing")


def closed() -> None:
    """A store that is closed while other threads use it: their calls are answered, or refused as Closed."""
    for _ in range(40):
        store = segdag.open(FOLDER / "closed", create=True)

        def work() -> int:
            for calls in range(10**9):
                try:
                    store.line("0 query all")
                    store.sizes()
                except segdag.Closed:
                    return calls

        with ThreadPoolExecutor(4) as pool:
            workers = [pool.submit(work) for _ in range(4)]
            time.sleep(0.002)
            store.close()
            for worker in workers:
                worker.result(timeout=60)


def forked() -> None:
    """A child uses its parent's store: it is refused, and neither its close nor its end lets go of the parent's lock."""
    path = FOLDER / "forked"
    store = segdag.open(path, create=True)
    store.add(name(1))
    child = os.fork()
    if child == 0:
        try:
            raises((segdag.Forked,), lambda: store.add(name(2)), "a row in a child")
            store.close()
            del store
            os._exit(int(is_free(path)))
        finally:
            os._exit(9)
    if os.waitpid(child, 0)[1] != 0 or is_free(path):
        fail("a child let go of its parent's lock, or used its store")
    store.flush(name(1))
    store.close()
    if not is_free(path):
        fail("a store that is closed keeps its lock")


for part in (numbers, errors, answers, in_asyncio, told_progress, unloaded, paths, dropped, copied, shared, closed, forked):
    part()
print("clib: the module in Python refuses what doesn't fit, and lends a store to threads, to none of their copies, and to no fork")
