"""Connections of segdagd: who is let in, what comes from each, and what each is sent."""
from __future__ import annotations

import errno
import select
from time import monotonic
from typing import TYPE_CHECKING

from .clients import Client, Room
from .doors import SESSIONS, Door

if TYPE_CHECKING:
    import socket

    from .server import Daemon

SILENT = 1  # seconds that a client may say nothing before it makes room for others
FULL = (errno.EMFILE, errno.ENFILE, errno.ENOMEM, errno.ENOBUFS)  # there is no room for another connection
BROKEN = select.EPOLLHUP | select.EPOLLERR


class Lobby:
    """The clients, by their descriptors, and the door that they come in by."""

    def __init__(self, daemon: Daemon, door: Door) -> None:
        self.daemon, self.door, self.epoll = daemon, door, daemon.epoll
        self.clients: dict[int, Client] = {}
        self.count, self.is_full = 0, False
        self.room, self.used = Room(daemon.options.spill_all), monotonic()

    def accept(self) -> None:
        """Takes those who wait at the door, as far as there is room. Who has said nothing for longest makes room for others."""
        most = self.daemon.options.most
        for _ in range(SESSIONS):
            if len(self.clients) >= most and self.silent() is None:
                self.shut_out()
                return
            try:
                sock, _ = self.door.sock.accept()
            except OSError as error:
                if error.errno in FULL:
                    # Until somebody leaves, or for a second.
                    self.shut_out()
                return
            silent = self.silent() if len(self.clients) >= most else None
            if silent is not None:
                self.leave(silent)
            self.admit(sock)

    def silent(self) -> Client | None:
        """The client that has said nothing for longest, and for some time; None where there is none."""
        before = monotonic() - SILENT
        return next((client for client in self.clients.values() if not client.is_known and client.came < before), None)

    def shut_out(self) -> None:
        """Who comes now waits at the door."""
        self.is_full = True
        self.epoll.modify(self.door.sock, 0)

    def open_door(self) -> None:
        """Who waits at the door may come in, where nobody could."""
        if self.is_full and self.daemon.course.is_open():
            self.is_full = False
            self.epoll.modify(self.door.sock, select.EPOLLIN)

    def has_room(self) -> bool:
        """Whether one more may come in."""
        return len(self.clients) < self.daemon.options.most or self.silent() is not None

    def shut(self) -> None:
        """Nobody comes in any more. Who waits at a door of the daemon's own is still told."""
        self.epoll.unregister(self.door.sock)
        for sock in self.door.shut():
            self.admit(sock)

    def admit(self, sock: socket.socket) -> None:
        """A connection is a client from now on."""
        sock.setblocking(False)
        self.count += 1
        client = Client(sock, self.count, self.daemon.options.spill, self.room)
        self.clients[sock.fileno()] = client
        self.used = monotonic()
        client.mask = client.wanted()
        self.epoll.register(sock, client.mask)

    def heard(self, client: Client, event: int) -> None:
        """Something came from a client, or there is room for replies to it, or it is gone."""
        if event & BROKEN:
            self.leave(client)
            return
        if event & client.mask & select.EPOLLIN:
            data = client.read()
            if data is None:
                self.leave(client)
                return
            if data and self.daemon.turns.is_still(data) and client.is_alone(data):
                self.daemon.turns.pass_on(client, data)
                return
            if data:
                client.take_in(data)
            if client.lines and not client.is_known:
                self.daemon.sessions.meet(client)
            elif client.lines and client.is_lent:
                self.daemon.sessions.resume(client)
        self.settle(client)

    def settle(self, client: Client) -> None:
        """Sends a client what it takes, and has its socket watched for what it waits for."""
        if client.is_gone:
            return
        if client.lines and client.lines[client.at] is None:
            client.refuse()
        if client.outbox.size and not client.give() or (client.is_over or client.is_told) and client.is_done():
            self.leave(client)
            return
        mask = client.wanted()
        if mask != client.mask:
            client.mask = mask
            self.epoll.modify(client.sock, mask)

    def drop_slow(self, now: float) -> None:
        """Lets go of who takes no reply for too long."""
        for client in list(self.clients.values()):
            if client.outbox.size and now - client.moved > self.daemon.options.slow:
                self.leave(client)

    def leave(self, client: Client) -> None:
        """Ends a connection. What it sent and wasn't sent on is let go."""
        if client.is_gone:
            return
        del self.clients[client.sock.fileno()]
        self.epoll.unregister(client.sock)
        client.close()
        self.daemon.sessions.release(client)
        self.used = monotonic()
        self.open_door()

    def leave_all(self) -> None:
        """Ends all connections."""
        for client in list(self.clients.values()):
            self.leave(client)
