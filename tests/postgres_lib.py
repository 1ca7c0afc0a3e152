"""A PostgreSQL server of a test's own, on a Unix socket in a folder of its own, and the program segdag-postgres over it."""
import os
import pwd
import re
import shutil
import signal
import subprocess
import sys
import time
from contextlib import suppress
from pathlib import Path
from typing import Dict, List, Optional, Sequence, Tuple, Union

HERE = Path(__file__).resolve().parent
TABLES = HERE.parent / "bindings/postgres"


class Failed(Exception):
    """What a test found to be wrong, in a sentence."""


def need(holds: object, sentence: str) -> None:
    """Ends the test where this doesn't hold."""
    if not holds:
        raise Failed(sentence)


def binaries() -> Optional[Path]:
    """The folder of the server's programs, the newest that there is."""
    found = [Path(it) for it in [os.environ.get("PG_BIN", "")] if it]
    found += sorted(Path("/usr/lib/postgresql").glob("*/bin"), key=lambda it: float(it.parent.name), reverse=True)
    initdb = shutil.which("initdb")
    found += [Path(initdb).resolve().parent] if initdb else []
    return next((it for it in found if (it / "initdb").exists()), None)


def owner() -> Dict[str, object]:
    """As whom the server runs, for Popen: it refuses to run as root."""
    if os.geteuid() != 0:
        return {}
    for name in ("postgres", "nobody"):
        with suppress(KeyError):
            found = pwd.getpwnam(name)
            return {"user": found.pw_uid, "group": found.pw_gid, "extra_groups": []}
    raise Failed("there is no user postgres and no user nobody to run a server as")


def execute(words: Sequence[Union[str, Path]], as_owner: bool = False, given: str = "", wants: Optional[int] = 0) -> str:
    """Runs a program, and gives what it puts; it has to end with the status that is wanted."""
    ran = subprocess.run([str(it) for it in words], input=given, capture_output=True, text=True, cwd="/", **(owner() if as_owner else {}))
    need(wants is None or ran.returncode == wants, f"{words[0]} ended with {ran.returncode}: {ran.stderr[-600:]}{ran.stdout[-200:]}")
    return ran.stdout


CONFIGURATION = """
listen_addresses = ''
unix_socket_directories = '{folder}'
port = {port}
shared_buffers = 16MB
max_connections = 80
max_wal_senders = 4
wal_level = replica
wal_keep_size = 64MB
max_wal_size = 96MB
min_wal_size = 32MB
hot_standby = on
wal_retrieve_retry_interval = 200ms
autovacuum = off
log_min_messages = warning
restart_after_crash = on
"""


class Server:
    """A server with its data in a folder; its sockets are in that above it."""

    def __init__(self, folder: Path, port: int = 5432, data: Optional[Path] = None) -> None:
        self.folder, self.port, self.data = folder, port, data or folder / f"data{port}"
        # Where its clients reach it, and the words in front of its programs, where these run as its owner somewhere else than here.
        self.host, self.within = str(folder), []  # type: Tuple[str, List[str]]
        self.process: Optional[subprocess.Popen] = None
        found = binaries()
        assert found is not None
        self.bin = found

    def make(self, more: str = "") -> "Server":
        """Makes its data, with the tables of segdag and a role that writes and one that reads: a copy of what is made once."""
        template = Path(sys.argv[3]) / "template"
        if not template.exists():
            template.parent.chmod(0o777)
            Server(template.parent, 5999, template).make_template()
        execute(["cp", "-a", template, self.data], as_owner=True)
        self.configure(more)
        return self.start()

    def make_template(self) -> None:
        """Makes the data that others copy, by the files of SQL that an operator runs, as who owns the database and is no superuser."""
        execute([self.bin / "initdb", "-A", "trust", "-U", "admin", "-N", "-E", "UTF8", "--no-locale", "-D", self.data], as_owner=True)
        self.configure("")
        self.start()
        self.admin("create role owner login; create role writer login; create role reader login; create database logs owner owner", "postgres")
        psql = [self.bin / "psql", "-Xq", "-v", "ON_ERROR_STOP=1", "-d", self.words("owner")]
        execute([*psql, "--single-transaction", "-f", TABLES / "schema.sql"])
        execute([*psql, "-v", "reader=reader", "-v", "writer=writer", "-f", TABLES / "rights.sql"])
        execute([self.bin / "pg_ctl", "stop", "-w", "-m", "fast", "-D", self.data], as_owner=True)

    def configure(self, more: str = "") -> None:
        """Writes its configuration, with these lines behind what all have."""
        with open(self.data / "postgresql.conf", "w", encoding="ascii") as file:
            file.write(CONFIGURATION.format(folder=self.folder, port=self.port) + more)

    def follow(self, primary: "Server", name: str, more: str = "") -> "Server":
        """Makes its data a copy of the primary's, whose standby it is by this name."""
        copy = [self.bin / "pg_basebackup", "-D", self.data, "-R", "-X", "stream", "-c", "fast", "-d", primary.words("admin", name)]
        execute([*self.within, *copy], as_owner=not self.within)
        self.configure(more)
        return self.start()

    def start(self) -> "Server":
        """Starts it, and waits until it answers."""
        # A server that was killed leaves a file with its process, and its children for a moment.
        with open(self.folder / f"log{self.port}", "a", encoding="utf8") as log:
            os.chmod(log.name, 0o666)
            words = [*self.within, str(self.bin / "postgres"), "-D", str(self.data)]
            self.process = subprocess.Popen(words, stdout=log, stderr=log, cwd="/", start_new_session=True, **({} if self.within else owner()))
        end = time.monotonic() + 60
        while not self.answers():
            need(time.monotonic() < end, f"the server at {self.data} doesn't answer: {self.told()}")
            if self.process.poll() is not None:
                time.sleep(0.1)
                return self.start()
            time.sleep(0.03)
        return self

    def answers(self) -> bool:
        """Whether it takes connections."""
        words = [str(self.bin / "pg_isready"), "-q", "-t", "1", "-h", str(self.folder), "-p", str(self.port)]
        return subprocess.run(words, check=False).returncode == 0

    def told(self) -> str:
        """The last lines of its log."""
        return (self.folder / f"log{self.port}").read_text(errors="replace")[-800:]

    def words(self, user: str = "writer", application: str = "", base: str = "logs", *others: "Server") -> str:
        """The words of a connection to it, and to the others where it isn't the one that is wanted."""
        servers = [self, *others]
        hosts, ports = ",".join(it.host for it in servers), ",".join(str(it.port) for it in servers)
        return f"host={hosts} port={ports} user={user} dbname={base} connect_timeout=3" + (f" application_name={application}" if application else "")

    def admin(self, text: str, base: str = "logs") -> str:
        """What psql puts for statements of who owns all; each is a transaction of its own."""
        words = [self.bin / "psql", "-XAtq", "-v", "ON_ERROR_STOP=1", "-d", f"host={self.folder} port={self.port} user=admin dbname={base}"]
        return execute(words, given=";\n".join(text.split(";")) + ";").strip()

    def children(self) -> List[int]:
        """Its processes, the first one last."""
        assert self.process is not None
        told = subprocess.run(["ps", "-o", "pid=", "--ppid", str(self.process.pid)], capture_output=True, text=True, check=False).stdout
        return [int(it) for it in told.split()] + [self.process.pid]

    def signal(self, which: int) -> None:
        """Sends it to each of its processes."""
        for process in self.children():
            with suppress(ProcessLookupError):
                os.kill(process, which)

    def kill(self) -> None:
        """Ends it as a machine ends: all its processes at once."""
        if self.process and self.process.poll() is None:
            self.signal(signal.SIGSTOP)
            self.signal(signal.SIGKILL)
            self.process.wait()

    def promote(self) -> None:
        """Makes a standby the primary."""
        execute([self.bin / "pg_ctl", "promote", "-w", "-D", self.data], as_owner=True)

    def setting(self, name: str, value: str) -> None:
        """Sets a parameter, and waits until it is in force."""
        self.admin(f"alter system set {name} = {value}; select pg_reload_conf()", "postgres")
        time.sleep(0.1)


# ---- the program

REPLY = re.compile(rb"(?:ok|err)(?: [^\n]*)?\n\Z")


class Ended(Exception):
    """The program ended; its status, and the word that it gave."""

    def __init__(self, status: int, told: str) -> None:
        super().__init__(f"status {status}: {told}")
        self.status, self.told = status, told
        found = re.findall(r"^segdag-postgres: [^:]*: ([a-z-]+)", told, re.M)
        # Who was killed said nothing of its last line, whatever it said of others.
        self.word = found[-1] if found and status > 0 else ""


class Front:
    """segdag-postgres, which is asked a line at a time."""

    def __init__(self, program: Union[str, Path], words: str, log: str = "main", mode: str = "run", *more: str) -> None:
        command = [str(program), words, log, "--", mode, *more]
        self.process = subprocess.Popen(command, stdin=subprocess.PIPE, stdout=subprocess.PIPE, stderr=subprocess.PIPE, bufsize=0)

    def send(self, line: str) -> None:
        """Sends a line, whose reply is taken later."""
        assert self.process.stdin
        try:
            self.process.stdin.write(line.encode() + b"\n")
        except BrokenPipeError:
            raise self.ended() from None

    def take(self) -> str:
        """The next reply."""
        assert self.process.stdout
        reply = b""
        while not REPLY.search(reply.rpartition(b"\n")[0].rpartition(b"\n")[2] + b"\n" if reply.endswith(b"\n") else b""):
            piece = os.read(self.process.stdout.fileno(), 65536)
            if not piece:
                raise self.ended()
            reply += piece
        if reply == b"err disk\n":
            raise self.ended()
        return reply.decode()

    def ask(self, line: str) -> str:
        """The reply to a line."""
        self.send(line)
        return self.take()

    def ended(self) -> Ended:
        """What it says at its end, which is waited for."""
        self.process.stdin.close()
        self.process.stdout.close()
        told = self.process.stderr.read().decode()
        return Ended(self.process.wait(), told)

    def kill(self) -> None:
        """Ends it at once."""
        self.process.kill()
        self.process.wait()
        for pipe in (self.process.stdin, self.process.stdout, self.process.stderr):
            with suppress(BrokenPipeError):
                pipe.close()

    def close(self) -> str:
        """Ends it as the end of its lines does, which has to be well; what it told."""
        ended = self.ended()
        need(ended.status == 0, f"the program ended badly: {ended}")
        return ended.told

    def __enter__(self) -> "Front":
        return self

    def __exit__(self, *raised: object) -> None:
        if self.process.poll() is None:
            self.kill()


def name_of(number: int) -> str:
    """A name as text."""
    return f"{number:040x}"


def create(program: Union[str, Path], server: Server, log: str = "main") -> None:
    """Makes an empty log."""
    execute([program, server.words(), log, "--", "create"])


def exported(program: Union[str, Path], server: Server, folder: Path, log: str = "main") -> bytes:
    """The bytes of a log, as the program writes them into a file."""
    path = folder / "exported.log"
    path.unlink(missing_ok=True)
    execute([program, server.words("reader"), log, "--", "export", path])
    return path.read_bytes()


def program_answers(segdag: Union[str, Path], log: Path, lines: Sequence[str]) -> Tuple[int, str]:
    """Status and replies of the program over a file."""
    ran = subprocess.run([str(segdag), str(log), "--", "run"], input="".join(it + "\n" for it in lines), capture_output=True, text=True, check=False)
    return ran.returncode, ran.stdout


def tell(sentence: str) -> None:
    """A line of what was tried."""
    print(f"postgres: {sentence}", flush=True)


def main_of(parts: Dict[str, object]) -> None:
    """Runs the parts that the words name, or all, each in a folder of its own; a failure is told in a sentence."""
    program, segdag, folder, *wanted = sys.argv[1:]
    for part in wanted or parts:
        began = time.monotonic()
        place = Path(folder) / f"{Path(sys.argv[0]).stem}.{part}"
        place.mkdir()
        place.chmod(0o777)
        try:
            parts[part](Path(program), Path(segdag), place)  # type: ignore[operator]
        except Failed as failed:
            sys.exit(f"postgres: {part}: {failed}")
        if os.environ.get("TIMES"):
            tell(f"{part} took {time.monotonic() - began:.1f} s")


if __name__ == "__main__":
    # Makes what the servers of all parts are copies of.
    Path(sys.argv[3]).chmod(0o777)
    Server(Path(sys.argv[3]), 5999, Path(sys.argv[3]) / "template").make_template()
