#!/usr/bin/env python3
"""What an operator and a client meet: rights, refusals, logs that are taken in, written out and written anew, waits, rows that are wrong.

    postgres_traps.py SEGDAG-POSTGRES SEGDAG FOLDER [PART]...
"""
import ctypes
import os
import re
import resource
import shutil
import signal
import subprocess
import sys
import threading
import time
from contextlib import ExitStack, suppress
from pathlib import Path
from typing import List

from postgres_drawn import in_turn
from postgres_lib import HERE, Failed, Front, Server, create, execute, exported, main_of, name_of, need, tell

sys.path.insert(0, str(HERE.parent / "tools"))
from segdag_tools.lines import Socket  # noqa: E402  (the folder is on the path now)
from segdag_tools.refused import Refused  # noqa: E402


def store(front: Front, number: int) -> None:
    """Stores a commit behind the one before it."""
    parent = [name_of(number - 1)] if number > 1 else []
    need(front.ask(" ".join(["0 add", name_of(number), *parent])).startswith("ok"), "an add was refused")
    need(front.ask(f"0 flush {name_of(number)}").startswith("ok flushed"), "a flush was refused")


def refused(program: Path, words: List[str], status: int, pattern: str) -> None:
    """The program ends with this status, and says something like this."""
    ran = subprocess.run([str(program), *words], input="0 status\n", capture_output=True, text=True, check=False)
    told = f"status {ran.returncode}, '{ran.stderr.strip()}', and not {status}, '{pattern}'"
    need(ran.returncode == status and re.search(pattern, ran.stderr), f"{words[1:]}: {told}")


def refusals(program: Path, server: Server) -> None:
    """Whatever isn't as it has to be is said in a sentence."""
    direct = server.words()
    refused(program, [direct, "none", "--", "run"], 9, "not-opened: the database has no log none")
    refused(program, [direct, "none", "--", "export", "/tmp/none"], 9, "the database has no log none")
    refused(program, [direct, "main", "--", "create"], 42, "the database already has a log main")
    refused(program, [direct.replace("port=5432", "port=5499"), "main", "--", "run"], 9, "not-opened: connection to server")
    refused(program, [server.words("nobody"), "main", "--", "run"], 9, 'role "nobody" does not exist')
    refused(program, [server.words("admin", "", "postgres"), "main", "--", "run"], 27, "no tables of segdag: run schema.sql")
    refused(program, [direct, "main", "--", "runs"], 2, "there is no such mode")
    refused(program, [direct, "main", "--", "run", "--cache", "0"], 2, "run and follow take --cache N")
    server.admin("update segdag.version set version = 2")
    refused(program, [direct, "main", "--", "run"], 27, "has version 2 of segdag's tables, and this library needs version 1")
    server.admin("update segdag.version set version = 1; update segdag.log set wants_standby = true where name = 'main'")
    refused(program, [direct, "main", "--", "run"], 26, "requires a synchronous standby, and the server has none")
    server.admin("update segdag.log set wants_standby = false")


def rights(program: Path, server: Server) -> None:
    """A reader reads, and a writer appends and can't change what is there."""
    refused(program, [server.words("reader"), "main", "--", "run"], 27, "permission denied")
    with Front(program, server.words("reader"), "main", "follow") as reader:
        need(reader.ask("0 reload") == "ok reloaded 0\n" and reader.ask(f"0 add {'e' * 40}").startswith("ok"), "a reader can't read")
        for verb in ("flush", "strip", "clone", "pull"):
            need(reader.ask(f"0 {verb} {'e' * 40}") == "err read-only\n", f"a reader may {verb}")
    denied = ["update segdag.change set bytes = ''", "delete from segdag.change", "delete from segdag.log", "truncate segdag.change",
              "update segdag.log set generation = 7", "update segdag.log set name = 'other'", "update segdag.log set may_lock = false",
              "update segdag.version set version = 3"]
    for user, statements in (("writer", denied), ("reader", [*denied, "insert into segdag.log (name) values ('x')"])):
        for text in statements:
            ran = subprocess.run([str(server.bin / "psql"), "-Xqd", server.words(user), "-c", text], capture_output=True, text=True, check=False)
            need("permission denied" in ran.stderr or "violates check" in ran.stderr, f"the {user} may '{text}'")


def locked(program: Path, server: Server) -> None:
    """Who doesn't get the lock in time is told so, and goes on with what is pending."""
    holder = subprocess.Popen([str(server.bin / "psql"), "-Xqd", server.words()], stdin=subprocess.PIPE, stdout=subprocess.PIPE, text=True)
    assert holder.stdin and holder.stdout
    with Front(program, server.words() + " options='-c lock_timeout=200ms'") as front:
        front.ask("0 mirrors")
        holder.stdin.write("begin; select id from segdag.log where name = 'main' for update; \\echo held\n")
        holder.stdin.flush()
        while holder.stdout.readline() != "held\n":
            pass
        need(front.ask(f"0 add {name_of(2)} {name_of(1)}").startswith("ok added"), "an add was refused")
        need(front.ask(f"0 flush {name_of(2)}") == "err locked\n", "a flush went on beside the lock")
        holder.communicate("rollback;\n")
        need(front.ask(f"0 flush {name_of(2)}") == "ok flushed 2 0\n", "a flush isn't possible behind the lock")


def operator(program: Path, _segdag: Path, folder: Path) -> None:
    """Refusals, rights and locks."""
    server = Server(folder).make()
    try:
        create(program, server)
        with Front(program, server.words()) as front:
            store(front, 1)
        refusals(program, server)
        rights(program, server)
        locked(program, server)
        server.setting("fsync", "off")
        refused(program, [server.words(), "main", "--", "run"], 27, "fsync is off")
        tell("what isn't as it has to be is said, a reader reads, a writer appends, and who waits for the lock is told so in time")
    finally:
        server.kill()


# ---- whole logs

def waits(program: Path, server: Server) -> None:
    """Who watches is told of a flush at once."""
    watcher = subprocess.Popen([str(program), server.words("reader"), "main", "--", "watch"], stdout=subprocess.PIPE, text=True)
    try:
        end = time.monotonic() + 20
        while "listen" not in server.admin("select string_agg(query, ',') from pg_stat_activity where usename = 'reader'") and time.monotonic() < end:
            if server.admin("select count(*) from pg_stat_activity where usename = 'reader' and state = 'idle' and wait_event = 'ClientRead'") == "1":
                break
            time.sleep(0.05)
        time.sleep(0.3)
        with Front(program, server.words()) as front:
            size = int(front.ask("0 status").split()[1])
            began = time.monotonic()
            store(front, size + 1)
        heard: List[str] = []
        taker = threading.Thread(target=lambda: heard.append(watcher.stdout.readline()), daemon=True)  # type: ignore[union-attr]
        taker.start()
        taker.join(10)
        need(heard == ["ok 1\n"], f"who watches was told {heard} of a flush")
        need(time.monotonic() - began < 8, "who watches was told late")
    finally:
        watcher.kill()
        watcher.communicate()


def written_over(program: Path, segdag: Path, server: Server, log: str, path: Path) -> None:
    """Writes a log anew, as the owner of the tables does."""
    owner = server.words("owner")
    chain = execute([program, owner, log, "--", "export", path]).split()[2]
    execute([segdag, path, "--", "compact"])
    need(execute([program, owner, log, "--", "import", f"{path}.new", chain]) == "ok imported\n", "the log isn't written anew")


def written_anew(program: Path, segdag: Path, server: Server, folder: Path) -> None:
    """A log is written out, compacted by the program, and taken in in place of itself: who had it open is told."""
    path, owner = folder / "out.log", server.words("owner")
    with Front(program, server.words()) as writer, Front(program, server.words("reader"), "main", "follow") as reader:
        size = int(writer.ask("0 status").split()[1])
        store(writer, size + 1)
        need(reader.ask("0 reload").startswith("ok"), "a follower can't reload")
        chain = execute([program, owner, "main", "--", "export", path]).split()[2]
        need(execute([segdag, path, "--", "compact"]).startswith("ok compacted"), "the export can't be compacted")
        refused(program, [owner, "main", "--", "import", str(path) + ".new"], 42, "the log isn't empty")
        refused(program, [server.words(), "main", "--", "import", str(path) + ".new", chain], 27, "permission denied")
        store(writer, size + 2)
        refused(program, [owner, "main", "--", "import", str(path) + ".new", chain], 25, "something was stored since")
        path.unlink()
        Path(f"{path}.new").unlink()
        written_over(program, segdag, server, "main", path)
        need(reader.ask("0 reload") == "err replaced\n", "a follower isn't told that the log was written anew")
        need(reader.ask(f"0 id {name_of(1)}") == "ok 0\n", "a follower whose log was written anew doesn't answer what it had")
        need(writer.ask(f"0 add {'d' * 40}").startswith("ok"), "an add was refused")
        need(writer.ask("0 flush") == "err replaced\n", "a writer isn't told that the log was written anew")
    need(exported(program, server, folder) == Path(f"{path}.new").read_bytes(), "what was taken in isn't what is written out")
    with Front(program, server.words()) as writer:
        store(writer, size + 3)


def files(program: Path, segdag: Path, server: Server, folder: Path) -> None:
    """A file that the program wrote is taken in and written out the same; one that is no log, or is open, isn't."""
    path, direct = folder / "demo.log", server.words()
    with subprocess.Popen([str(segdag), str(path), "--", "run"], stdin=subprocess.PIPE, stdout=subprocess.PIPE, text=True) as running:
        assert running.stdin and running.stdout
        for number in range(1, 301):
            parent = f" {name_of(number - 1)}" if number > 1 else ""
            running.stdin.write(f"0 add {name_of(number)}{parent}\n" + (f"0 flush {name_of(number)}\n" if number % 3 == 0 else ""))
        running.stdin.write("0 status\n")
        running.stdin.flush()
        while running.stdout.readline() != "ok 300 0 0\n":
            pass
        create(program, server, "file")
        refused(program, [direct, "file", "--", "import", str(path)], 16, "another process has the log")
    execute([program, direct, "file", "--", "import", path])
    need(exported(program, server, folder, "file") == path.read_bytes(), "a file isn't written out as it was taken in")
    refused(program, [direct, "file", "--", "export", str(path)], 9, "File exists")
    (folder / "bad.log").write_bytes(path.read_bytes()[:-40])
    create(program, server, "bad")
    refused(program, [direct, "bad", "--", "import", str(folder / "bad.log")], 4, "isn't a log")
    (folder / "fresh.log").write_bytes(b"")
    execute([program, direct, "bad", "--", "import", folder / "fresh.log"])
    need(exported(program, server, folder, "bad") == b"\0", "an empty log isn't one")


def mirrors(program: Path, segdag: Path, server: Server, folder: Path) -> None:
    """A log that is a clone, beside a mirror that grows: replies and bytes are those of the program beside the same."""
    mirror = folder / "mirror.log"
    rows = [f"0 add {name_of(i)} " + " ".join(map(name_of, {i // 2, i - 1} - {0})) for i in range(1, 200)]
    execute([segdag, mirror, "--", "run"], given="".join(it.rstrip() + "\n" for it in rows) + f"0 flush {name_of(199)}\n")
    first = ["0 clone", "0 status", "0 query heads(all)", "0 query all", f"0 add {'c' * 40}", "0 flush", "1 reload", "1 query top(all,9)", "0 levels"]
    then = ["0 pull", "0 status", "0 query all", "1 pull", "1 levels", "1 mirrors", "1 drop 0", "1 pull"]
    create(program, server, "clone")
    told = []
    with Front(program, server.words(), "clone", "run") as without:
        need(without.ask("0 clone") == "err no-remote\n", "a clone without a mirror")
    beside = [str(program), server.words(), "clone", str(mirror), "--", "run"]
    alone = [str(segdag), str(folder / "clone.log"), str(mirror), "--", "run"]
    for lines in (first, then):
        for words in (beside, alone):
            told.append(execute(words, given="".join(it + "\n" for it in lines)))
        # What the mirror gets is for the pull.
        execute([segdag, mirror, "--", "run"], given=f"0 add {'a' * 40} {name_of(199)}\n0 add {'b' * 40} {'a' * 40}\n0 flush {'b' * 40}\n")
    need(told[0] == told[1] and "ok cloned" in told[0], f"beside a mirror: {told[0][-200:]}, and the program has {told[1][-200:]}")
    need(told[2] == told[3] and "ok pulled" in told[2], f"a pull: {told[2][-200:]}, and the program has {told[3][-200:]}")
    need(exported(program, server, folder, "clone") == (folder / "clone.log").read_bytes(), "a clone has other bytes than the program's")


def wrong_rows(program: Path, server: Server) -> None:
    """A row that is missing, or has another past, is seen."""
    with Front(program, server.words("reader"), "file", "follow") as reader, Front(program, server.words(), "file") as writer:
        store(writer, 301)
        store(writer, 302)
        need(reader.ask("0 reload").startswith("ok"), "a follower can't reload")
        kept = server.admin("select count(*) from segdag.change")
        server.admin("update segdag.change c set chain = sha256(chain) from segdag.log l where l.id = c.log and l.name = 'file'"
                     " and at = (select max(at) from segdag.change where log = l.id)")
        need(reader.ask("0 reload") == "err replaced\n" and reader.ask("0 status") == "ok 302 0 0\n", "a follower goes on over another past")
        need(writer.ask("0 flush") == "err replaced\n", "a writer goes on over another past")
        need("chain" in server.admin("select fault from segdag.faults('file')"), "a chain that isn't that of its bytes isn't found")
    server.admin("delete from segdag.change c using segdag.log l where l.id = c.log and l.name = 'file'"
                 " and at > 0 and at < (select max(at) from segdag.change where log = l.id)")
    need(server.admin("select count(*) from segdag.change") < kept, "no row was taken away")
    refused(program, [server.words(), "file", "--", "run"], 4, "rows have a gap: one ends at byte")
    need("ends at" in server.admin("select fault from segdag.faults('file')"), "a gap isn't found")


def logs(program: Path, segdag: Path, folder: Path) -> None:
    """Waits, files, logs written anew, rows that are wrong, and rows in pieces."""
    server = Server(folder).make()
    try:
        create(program, server)
        with Front(program, server.words()) as front:
            store(front, 1)
        waits(program, server)
        written_anew(program, segdag, server, folder)
        files(program, segdag, server, folder)
        mirrors(program, segdag, server, folder)
        wrong_rows(program, server)
        pieces = Path(os.environ["PLANTS"]) / "pieces" / "segdag-postgres"
        changes = in_turn(pieces, server, folder, 77, 300)
        rows = int(server.admin("select count(*) from segdag.change where log = (select id from segdag.log where name = 'turn77')"))
        need(rows > 2 * changes > 10, f"{changes} changes are in {rows} rows")
        tell("who watches is told, logs are taken in, written out and written anew, wrong rows are seen, and "
             f"{changes} changes in {rows} pieces are whole")
    finally:
        server.kill()


# ---- clients

def python_stores(server: Server) -> None:
    """The Python module opens a log by a URL."""
    sys.path[:0] = [str(HERE.parent / "bindings/postgres"), str(HERE.parent / "bindings/python")]
    import segdag  # pylint: disable=import-outside-toplevel
    import segdag_postgres  # pylint: disable=import-outside-toplevel
    url = f"postgresql:///logs?host={server.folder}&port={server.port}"
    segdag.open(url + "&user=writer", log="python", create=True).close()
    first, second = b"\1" * 20, b"\2" * 20
    with segdag_postgres.open(url + "&user=writer", "python") as one, segdag.open(url + "&user=writer", log="python", create=True) as two, \
            segdag.follow(url + "&user=reader", log="python") as reader:
        need(one.add(first) >= 1 << 56 and tuple(one.flush(first)) == (1, 0, 0), "a flush of Python isn't one")
        two.add(second)
        need(tuple(two.flush()) == (1, 1, 0), "the second writer lacks what the first stored")
        need(reader.wait(5) == 2 and reader.reload() == 0 and list(reader.query("all")) == [second, first], "a follower of Python lacks what came")
        try:
            reader.flush()
            raise Failed("a follower of Python flushes")
        except segdag.ReadOnly:
            pass
    for words, name, error in ((url + "&user=writer", "none", segdag.NotOpened), (url + "&user=reader", "python", segdag.Database)):
        try:
            segdag_postgres.open(words, name)
            raise Failed(f"{name} was opened by {words}")
        except error as told:
            need("no log none" in str(told) or "permission denied" in str(told), f"'{told}' doesn't say what was wrong")


    for wrong in ({"path": url}, {"path": "a file", "log": "python"}, {"path": url, "log": "python", "read_only": True}):
        try:
            segdag.open(**wrong)
            raise Failed(f"{wrong} was opened")
        except ValueError:
            pass


def typed_changes(segdag_program: Path, server: Server, folder: Path) -> None:
    """Changes as calls: each takes what others stored before it, one that is refused keeps nobody waiting, and beside a mirror a log is a clone."""
    import segdag  # pylint: disable=import-outside-toplevel
    import segdag_postgres  # pylint: disable=import-outside-toplevel
    url = f"postgresql:///logs?host={server.folder}&port={server.port}&user=writer"
    a, b, c, d, none = (bytes([it]) * 20 for it in range(1, 6))
    segdag_postgres.create(url, "typed")
    with segdag_postgres.open(url, "typed") as one, segdag_postgres.open(url, "typed") as two:
        one.add(a)
        need(tuple(one.flush()) == (0, 1, 0), "a flush isn't one")
        two.reload()
        two.add(b, [a])
        need(tuple(two.flush(b)) == (2, 0, 0), "a flush of what another writer stored isn't one")
        one.add(c, [a])
        need(tuple(one.flush()) == (2, 1, 0), "a flush lacks what another writer stored")
        two.reload()
        need(tuple(two.strip(c)) == (2, 0, 0), "a strip of what another writer stored isn't one")
        for change in (lambda: one.strip(none), lambda: one.flush(none), one.clone, one.pull):
            try:
                change()
                raise Failed("a change that can't be made is made")
            except segdag.Refusal:
                pass
            began = time.monotonic()
            need(two.reload() == 0 and tuple(two.flush()) == (2, 0, 0) and time.monotonic() - began < 20, "a change that was refused keeps others waiting")
        one.add(d, [b])
        need(tuple(one.flush(d)) == (3, 0, 0) and two.reload() == 0 and list(two.query("all")) == [d, b, a], "a writer doesn't go on behind refusals")
    mirror = folder / "mirror.log"
    execute([segdag_program, mirror, "--", "run"], given=f"0 add {a.hex()}\n0 add {b.hex()} {a.hex()}\n0 flush {b.hex()}\n")
    segdag_postgres.create(url, "typed clone")
    with segdag_postgres.open(url, "typed clone", mirrors=[str(mirror)]) as clone, segdag_postgres.open(url, "typed clone") as beside:
        need(tuple(clone.clone()) == (2, 0, 0), "a clone isn't one")
        execute([segdag_program, mirror, "--", "run"], given=f"0 add {c.hex()} {b.hex()}\n0 flush {c.hex()}\n")
        need(tuple(clone.pull()) == (3, 0, 0) and clone.is_ancestor(a, c), "a pull isn't one")
        need(beside.reload() == 0 and beside.sizes().master == 3, "another writer lacks what was cloned and pulled")


def arguments(server: Server, folder: Path) -> None:
    """What is no argument is told so, and a store over a file is none over a database."""
    import segdag  # pylint: disable=import-outside-toplevel
    from segdag._library import library  # pylint: disable=import-outside-toplevel
    store, number, words, argument = ctypes.c_void_p(7), ctypes.c_uint64(), server.words().encode(), segdag.Argument.code
    for conninfo, log, cache in ((None, b"main", 1), (words, None, 1), (words, b"", 1), (words, b"main", 0), (words, b"main", 65537)):
        opened = library.segdag_postgres_open(conninfo, log, cache, ctypes.byref(store))
        need(opened == argument and not store.value, f"{log!r}, {cache} is an argument")
    need(library.segdag_postgres_open(words, b"main", 1, None) == argument, "no place for a store is an argument")
    need(library.segdag_postgres_create(words, b"") == argument, "a log without a name is an argument")
    need(library.segdag_postgres_export(words, b"main", None, None) == argument, "no file is an argument")
    need(library.segdag_postgres_import(words, b"main", None, None) == argument, "no file is an argument")
    with segdag.open(folder / "a.log", create=True) as over_file:
        need(library.segdag_postgres_wait(over_file._store, 1, ctypes.byref(number)) == argument, "a store over a file waits for a database")
        need(library.segdag_postgres_patience(over_file._store, 1) == argument, "a store over a file has patience")
        need(over_file.add(b"\7" * 20) >= 1 << 56 and over_file.flush(b"\7" * 20).master == 1, "a store over a file isn't what it was")
    need(library.segdag_postgres_wait(None, 1, ctypes.byref(number)) == segdag.Closed.code, "no store waits")


def installed(program: Path, folder: Path) -> Path:
    """The tools as they are installed beside this program; the daemon's path."""
    tools = folder / "lib/segdag"
    shutil.copytree(HERE.parent / "tools", tools, ignore=shutil.ignore_patterns("__pycache__"))
    shutil.copy(HERE.parent / "VERSION", tools)
    (folder / "bin").mkdir()
    (folder / "bin/segdag-postgres").symlink_to(program)
    return tools / "segdagd"


class Daemon:
    """segdagd over a log in the database, and its clients."""

    def __init__(self, tool: Path, server: Server, log: str, folder: Path) -> None:
        folder.mkdir()
        self.folder, self.door = folder, folder / "socket"
        words = [sys.executable, str(tool), "--postgres", server.words(), log, "--socket", "socket", "--idle-client", "0.1"]
        self.process = subprocess.Popen(words, cwd=folder)
        end = time.monotonic() + 20
        while not self.door.exists():
            need(self.process.poll() is None and time.monotonic() < end, f"segdagd doesn't come up: {self.process.poll()}")
            time.sleep(0.02)

    def client(self) -> Socket:
        """A client that connected."""
        return Socket(str(self.door), patience=30)

    def end(self) -> None:
        """Ends it, well."""
        self.process.terminate()
        need(self.process.wait() == 0, "segdagd ended badly")

    def __enter__(self) -> "Daemon":
        return self

    def __exit__(self, *raised: object) -> None:
        if self.process.poll() is None:
            self.process.kill()
            self.process.wait()


def told_end(client: Socket) -> int:
    """The number with which a client is let go of at its next line; 0 where it isn't."""
    try:
        client.ask("status")
    except Refused as refused:
        return refused.status or 0
    return 0


def daemons(program: Path, segdag: Path, server: Server, folder: Path) -> None:
    """Two of segdagd serve a log that others write, too. A session that was lent isn't moved without a word, and a log that was written anew is
    gone as one whose file was."""
    create(program, server, "daemon")
    tool = installed(program, folder)
    with Daemon(tool, server, "daemon", folder / "one") as one, Daemon(tool, server, "daemon", folder / "two") as two:
        with one.client() as first, two.client() as second, Front(program, server.words(), "daemon") as other:
            for line, wanted in ((f"add {name_of(1)}", "ok added N0"), (f"flush {name_of(1)}", "ok flushed 1 0")):
                need(first.ask(line).last == wanted, f"segdagd doesn't answer '{wanted}' to '{line}'")
            need(second.ask("reload").ok and second.ask("status").last == "ok 1 0 0", "what a client of one daemon stored isn't seen by those of another")
            store(other, 2)
            need(first.ask("status").last == "ok 1 0 0" and first.ask("reload").ok and first.ask("status").last == "ok 2 0 0",
                 "a client is moved to what others stored before its reload, or not by it")
        need(sorted(it.name for it in one.folder.iterdir()) == ["socket", "socket.lock"], "segdagd made files beside its socket")
        with ExitStack() as there:
            many = [there.enter_context(two.client()) for _ in range(17)]
            need(all(it.ask("status").last == "ok 2 0 0" for it in many), "seventeen clients don't share the sessions")
            need(told_end(many[0]) == 17, "a client whose session was lent goes on, and others may have stored since")
        with one.client() as client:
            need(client.ask("status").last == "ok 2 0 0", "a client of a daemon isn't served")
            written_over(program, segdag, server, "daemon", folder / "anew.log")
            need(client.ask("reload").last == "err replaced" and told_end(client) == 19, "a client isn't told that the log was written anew")
        with two.client() as client:
            need(told_end(client) == 19, "who comes isn't told that the log was written anew")
        for number, daemon in ((3, one), (4, two)):
            with daemon.client() as client:
                told = [client.ask(line).last for line in (f"add {name_of(number)} {name_of(number - 1)}", f"flush {name_of(number)}")]
                need(told == ["ok added N0", f"ok flushed {number} 0"], f"a log that was written anew isn't served: {told}")
        one.end()


class Served:
    """segdagd-many-postgres over the database of a server, for clients of a socket."""

    def __init__(self, server: Server, folder: Path, user: str, *options: str) -> None:
        self.door = folder / f"door.{user}"
        root = f"postgresql://{user}@/logs?host={server.folder}&port={server.port}&connect_timeout=3"
        self.process = subprocess.Popen([os.environ["SERVER"], "--root", root, "--socket", str(self.door), *options])
        end = time.monotonic() + 60
        while not self.door.exists():
            need(self.process.poll() is None and time.monotonic() < end, f"segdagd --root doesn't come up: {self.process.poll()}")
            time.sleep(0.02)

    def of(self, log: str) -> Socket:
        """A client that uses a log."""
        one = Socket(str(self.door), patience=60)
        one.must(f"use {log}")
        return one

    def kill(self) -> None:
        """Ends it at once."""
        self.process.kill()
        self.process.wait()


def many(program: Path, server: Server, folder: Path) -> None:
    """segdagd --root over the database: logs by their names, beside other writers, with a bound on connections, and a database that goes away."""
    served, reads = Served(server, folder, "writer", "--stores", "10"), Served(server, folder, "reader")
    try:
        one, other, asks = served.of("many/log"), served.of("many/log"), reads.of("many/log")
        told = [one.must(line).last for line in ("status", f"add {name_of(1)}", f"flush {name_of(1)}", "status")]
        need(told == ["ok 0 0 0", "ok added N0", "ok flushed 1 0", "ok 1 0 0"], f"a new log tells {told}")
        with Front(program, server.words(), "many/log") as front:
            store(front, 2)
        for client in (one, other, asks):
            client.must("reload")
            need(client.must("status").last == "ok 2 0 0", "what another writer stored isn't seen behind a reload")
        need(asks.ask(f"add {name_of(9)}").last == "err open database", "who may only read the tables writes")
        for number in range(30):
            with served.of(f"many/{number}") as client:
                client.must(f"add {name_of(1)}")
                need(client.must("flush").last == "ok flushed 0 1", "one of many logs isn't written")
        end = time.monotonic() + 60
        while (links := int(server.admin("select count(*) from pg_stat_activity where usename = 'writer'"))) > 12:
            need(time.monotonic() < end, f"it has {links} connections, of which ten were wanted")
            time.sleep(0.1)
        one.must(f"add {name_of(3)} {name_of(2)}")
        other.must("status")
        server.kill()
        need(other.must("status").last == "ok 2 0 0", "a question isn't answered where the database is gone")
        need(one.ask(f"flush {name_of(3)}").last == "err gone", "a change is stored where the database is gone")
        need(Socket(str(served.door), patience=60).ask("use many/none").last == "err use database", "a log is opened where the database is gone")
        server.start()
        need(one.must(f"flush {name_of(3)}").last == "ok flushed 3 0", "pending commits are lost with a connection")
        other.must("reload")
        need(other.must("status").last == "ok 3 0 0", "a log isn't read any more where the database is back")
    finally:
        served.kill()
        reads.kill()


def clients(program: Path, segdag: Path, folder: Path) -> None:
    """Python and segdagd."""
    server = Server(folder).make()
    try:
        python_stores(server)
        typed_changes(segdag, server, folder)
        arguments(server, folder)
        daemons(program, segdag, server, folder)
        many(program, server, folder)
        tell("Python opens a log by a URL, two of segdagd serve one, and segdagd --root those of a database")
    finally:
        server.kill()


# ---- logs as a whole, as they are moved

def on_terminal(words: List[object], closes: bool = False) -> str:
    """What a program that ends well tells on a terminal, which is gone at once where it closes."""
    ours, theirs = os.openpty()
    running = subprocess.Popen([str(it) for it in words], stdout=subprocess.DEVNULL, stderr=theirs)
    os.close(theirs)
    told = b""
    with suppress(OSError):
        while not closes and (piece := os.read(ours, 4096)):
            told += piece
    os.close(ours)
    need(running.wait() == 0, f"{words[2:]} on a terminal ended with {running.returncode}: {told!r}")
    return told.decode()


def without(words: List[object], *closed: int, given: str = "") -> "subprocess.CompletedProcess[str]":
    """Runs a program without these descriptors."""
    closing = lambda: [os.close(fd) for fd in closed]  # noqa: E731  (one expression is all that it is)
    return subprocess.run([str(it) for it in words], input=given, capture_output=True, text=True, check=False, preexec_fn=closing)


def large(segdag: Path, path: Path) -> None:
    """A log of more than two million bytes."""
    rows = "".join(f"0 add {number:040x}\n" for number in range(1 << 156, (1 << 156) + 65_536))
    execute([segdag, path, "--", "run"], given=f"{rows}0 flush {1 << 156:040x}\n0 flush\n")
    need(path.stat().st_size > 2 << 20, f"a log of 65,536 commits has {path.stat().st_size} bytes")


def progress(program: Path, segdag: Path, server: Server, folder: Path) -> None:
    """Who sits at a terminal is told how far a log has come, and nobody else."""
    path, direct = folder / "large.log", server.words()
    large(segdag, path)
    for log in ("shown", "gone", "piped"):
        create(program, server, log)
    told = on_terminal([program, direct, "shown", "--", "import", path])
    for part in ("reading, 0.0 of", "checking,", "storing, 0.0 of"):
        need(f"\rsegdag-postgres: shown: {part}" in told, f"an import tells '{part}' on no terminal: {told!r}")
    need(told.endswith(" MB\033[K\r\n") and told.count("\n") == 1, f"an import ends on a terminal by {told[-40:]!r}")
    told = on_terminal([program, direct, "shown", "--", "export", folder / "shown.log"])
    need("reading, 0.0 MB" in told and "writing the file, 0.0 of" in told and told.count("\n") == 1, f"an export tells a terminal {told!r}")
    need((folder / "shown.log").read_bytes() == path.read_bytes(), "a log comes out as another one than went in")
    on_terminal([program, direct, "gone", "--", "import", path], closes=True)
    for words in (["piped", "--", "import", path], ["piped", "--", "export", folder / "piped.log"]):
        ran = without([program, direct, *words])
        need(ran.returncode == 0 and ran.stderr == "" and ran.stdout.startswith("ok "), f"{words[2]} says in a pipe {ran}")
    need((folder / "piped.log").read_bytes() == path.read_bytes(), "a log that a terminal wasn't told of comes out as another one")


def closed(program: Path, server: Server, folder: Path) -> None:
    """Nothing that is said goes into a connection or a file that has the number of a descriptor that was closed."""
    path, reader = folder / "large.log", server.words("reader")
    create(program, server, "closed")
    for words in ([server.words(), "closed", "--", "import", path], [reader, "closed", "--", "export", folder / "closed.log"]):
        ran = without([program, *words], 2)
        need(ran.returncode == 0 and ran.stdout.startswith("ok "), f"{words[3]} without standard error ends with {ran}")
    need((folder / "closed.log").read_bytes() == path.read_bytes(), "without standard error another log comes out")
    ran = without([program, reader, "closed", "--", "follow"], 2, given="0 flush\n0 reload\n0 count all\n")
    need(ran.stdout == "err read-only\nok reloaded 0\nok 65536\n", f"a refusal without standard error is followed by {ran.stdout!r}")
    need("invalid frontend message" not in server.told(), "what is said of a refusal goes to the server, without standard error")
    ran = without([program, reader, "closed", "--", "export", folder / "mute.log"], 1)
    need(ran.returncode == 6 and (folder / "mute.log").read_bytes() == path.read_bytes(), f"an export without standard output ends with {ran}")
    ran = without([program, reader, "closed", "--", "export", folder / "dumb.log"], 0, 1, 2)
    need(ran.returncode == 6 and (folder / "dumb.log").read_bytes() == path.read_bytes(), f"an export without descriptors ends with {ran}")


class Told(ctypes.Structure):  # pylint: disable=too-few-public-methods
    """What a progress call is given."""

    _fields_ = [("stage", ctypes.c_int), ("done", ctypes.c_uint64), ("whole", ctypes.c_uint64)]


def cancelled(server: Server, folder: Path) -> None:
    """A call that is told not to go on did nothing, whatever it was doing."""
    sys.path[:0] = [str(HERE.parent / "bindings/postgres"), str(HERE.parent / "bindings/python")]
    import segdag  # pylint: disable=import-outside-toplevel
    from segdag._library import library  # pylint: disable=import-outside-toplevel
    words, path, made = server.words().encode(), str(folder / "large.log").encode(), folder / "cancelled.log"
    need(library.segdag_postgres_create(words, b"cancelled") == 0, "a log isn't made")
    stages: List[int] = []
    for stage in (2, 3, 5):

        @ctypes.CFUNCTYPE(ctypes.c_bool, ctypes.POINTER(Told), ctypes.c_void_p)
        def ask(told: "ctypes._Pointer[Told]", _context: object, wanted: int = stage) -> bool:
            stages.append(told.contents.stage)
            return told.contents.stage == wanted

        library.segdag_postgres_progress(ask, None)
        need(library.segdag_postgres_import(words, b"cancelled", path, None) == segdag.Cancelled.code, f"an import goes on at stage {stage}")
        if stage != 3:
            need(library.segdag_postgres_export(words, b"shown", str(made).encode(), None) == segdag.Cancelled.code, f"an export goes on at stage {stage}")
        need(not made.exists(), "an export that was cancelled leaves a file")
    need(set(stages) == {2, 3, 5}, f"the stages {set(stages)} were asked")
    library.segdag_postgres_progress(None, None)
    need(library.segdag_postgres_export(words, b"cancelled", str(made).encode(), None) == 0 and made.read_bytes() == b"\0", "an import that was cancelled stored something")


def killed_amid_export(words: str, file: Path) -> None:
    """Ends this process behind an export's first writes."""
    from segdag._library import library  # pylint: disable=import-outside-toplevel

    @ctypes.CFUNCTYPE(ctypes.c_bool, ctypes.POINTER(Told), ctypes.c_void_p)
    def ask(told: "ctypes._Pointer[Told]", _context: object) -> bool:
        if told.contents.stage == 5 and told.contents.done > 1 << 20:
            os.kill(os.getpid(), signal.SIGKILL)
        return False

    library.segdag_postgres_progress(ask, None)
    library.segdag_postgres_export(words.encode(), b"shown", str(file).encode(), None)
    os._exit(0)


def cut(program: Path, segdag: Path, server: Server, folder: Path) -> None:
    """An export that the disk ends leaves no file; one that is killed leaves an empty log, and never a part of one that looks whole."""
    reader, file = server.words("reader"), folder / "cut.log"
    limited = lambda: resource.setrlimit(resource.RLIMIT_FSIZE, (1 << 20, 1 << 20))  # noqa: E731  (one expression is all that it is)
    ran = subprocess.run([str(program), reader, "shown", "--", "export", str(file)], capture_output=True, text=True, check=False, preexec_fn=limited)
    need(ran.returncode == 3 and "File too large" in ran.stderr, f"an export whose file may not grow ends with {ran}")
    need(not file.exists(), "an export whose file may not grow leaves it")
    child = os.fork()
    if not child:
        killed_amid_export(reader, file)
    need(os.WIFSIGNALED(os.waitpid(child, 0)[1]) and file.stat().st_size > 1 << 20, "an export that is to be killed amid its writes isn't")
    told = execute([segdag, file, "--", "run"], given="0 count all\n")
    need(told == "ok 0\n", f"an export that was killed leaves a log that answers {told!r}")


def moved(program: Path, segdag: Path, folder: Path) -> None:
    """Logs that are taken in and written out: at a terminal, without descriptors, cancelled, cut off."""
    server = Server(folder).make()
    try:
        progress(program, segdag, server, folder)
        closed(program, server, folder)
        cancelled(server, folder)
        cut(program, segdag, server, folder)
        tell("an export and an import tell their progress at a terminal alone, want no descriptor, are cancelled whole, and leave no part of a log")
    finally:
        server.kill()


if __name__ == "__main__":
    main_of({"operator": operator, "logs": logs, "moved": moved, "clients": clients})
