"""What stands between a client and a server of PostgreSQL on Unix sockets, and cuts the line where it is told to."""
import random
import socket
import threading
from contextlib import suppress
from pathlib import Path
from typing import Callable, List, Optional, Tuple

# How a line is cut at a message: it isn't sent on; half of it is; it is, and nobody waits; the answer is waited for, and kept.
MODES = ("before", "half", "in", "behind")

Plan = Callable[[str], Optional[str]]


def kind_of(message: bytes) -> str:
    """What a message of a client asks for: the first word of a statement, or the name of a prepared one; nothing where it asks for none."""
    if message[:1] == b"Q":
        text = message[5:].rstrip(b"\0").decode()
        return "notify" if "pg_notify" in text else text.split(" ")[0]
    if message[:1] == b"B":
        return message[5:].split(b"\0")[1].decode()
    if message[:1] == b"P" and message[5:6] == b"\0":
        return message[6:].split(b"\0")[0].split(b" ")[0].decode()
    return ""


class Triggers:
    """Cuts once at each of these, in their order: a kind of message, and a mode."""

    def __init__(self, *wanted: Tuple[str, str]) -> None:
        self.wanted: List[Tuple[str, str]] = list(wanted)

    def __call__(self, kind: str) -> Optional[str]:
        if self.wanted and self.wanted[0][0] == kind:
            return self.wanted.pop(0)[1]
        return None


class Drawn:
    """Cuts at some of the messages, that are drawn; most often at a COMMIT."""

    def __init__(self, seed: int, often: float) -> None:
        self.draw, self.often, self.cuts = random.Random(seed), often, 0

    def __call__(self, kind: str) -> Optional[str]:
        if not kind or self.draw.random() >= (self.often if kind == "commit" else self.often / 6):
            return None
        self.cuts += 1
        return self.draw.choice(MODES)


class Line:
    """One connection, in both directions."""

    def __init__(self, client: socket.socket, server: socket.socket, proxy: "Proxy") -> None:
        self.client, self.server, self.proxy = client, server, proxy
        self.keeps = threading.Event()
        self.answered = threading.Event()
        threading.Thread(target=self.back, daemon=True).start()
        threading.Thread(target=self.forth, daemon=True).start()

    def cut(self) -> None:
        """Ends both sides."""
        for side in (self.client, self.server):
            with suppress(OSError):
                side.shutdown(socket.SHUT_RDWR)
            side.close()

    def back(self) -> None:
        """Gives the client what the server says."""
        with suppress(OSError):
            while data := self.server.recv(65536):
                self.answered.set()
                if not self.keeps.is_set():
                    self.client.sendall(data)
        self.answered.set()
        self.cut()

    def message(self, is_first: bool) -> bytes:
        """The next message of the client; the first one has no kind."""
        front = self.exactly(4 if is_first else 5)
        size = int.from_bytes(front[-4:], "big") - 4
        return front + self.exactly(size)

    def exactly(self, size: int) -> bytes:
        """So many bytes."""
        data = b""
        while len(data) < size:
            piece = self.client.recv(size - len(data))
            if not piece:
                raise OSError
            data += piece
        return data

    def forth(self) -> None:
        """Gives the server what the client says, up to where it is cut."""
        with suppress(OSError):
            self.server.sendall(self.message(True))
            while True:
                message = self.message(False)
                mode = self.proxy.plan(kind_of(message))
                if mode:
                    self.end(message, mode)
                    break
                self.server.sendall(message)
        self.cut()

    def end(self, message: bytes, mode: str) -> None:
        """Ends the line at this message."""
        if mode == "half":
            self.server.sendall(message[: len(message) // 2])
        elif mode == "in":
            self.server.sendall(message)
        elif mode == "behind":
            self.keeps.set()
            self.answered.clear()
            self.server.sendall(message)
            if message[:1] != b"Q":
                # It is executed by the messages behind this one.
                while message[:1] != b"S":
                    message = self.message(False)
                    self.server.sendall(message)
            self.answered.wait(5)


class Proxy:
    """Listens in a folder of its own, and gives each connection to the server at another socket. While it is shut nobody comes through."""

    def __init__(self, folder: Path, server: Path) -> None:
        self.folder, self.server = folder, server
        self.plan: Plan = lambda kind: None
        self.is_shut = False
        folder.mkdir(exist_ok=True)
        self.door = socket.socket(socket.AF_UNIX)
        self.door.bind(str(folder / server.name))
        self.door.listen(64)
        threading.Thread(target=self.admit, daemon=True).start()

    def admit(self) -> None:
        """Takes connections."""
        with suppress(OSError):
            while True:
                client, _ = self.door.accept()
                server = socket.socket(socket.AF_UNIX)
                try:
                    if self.is_shut:
                        raise OSError
                    server.connect(str(self.server))
                    Line(client, server, self)
                except OSError:
                    client.close()
                    server.close()

    def close(self) -> None:
        """No more connections."""
        with suppress(OSError):
            self.door.shutdown(socket.SHUT_RDWR)
        self.door.close()
