#!/usr/bin/env python3
"""A log over two machines: network namespaces with a server and two writers each, and a line between them.

    postgres_machines.py SEGDAG-POSTGRES SEGDAG FOLDER [PART]...

It wants to be root, with `ip` and `setpriv`.
"""
import os
import subprocess
import time
from pathlib import Path
from typing import List

from postgres_faults import Worker, acknowledged, check, joined
from postgres_lib import Server, create, execute, main_of, need, owner, tell
from postgres_standby import stand_by

# Addresses that are nobody's.
NETWORK, ADDRESSES = "198.18.0.0/24", ("198.18.0.1", "198.18.0.2")

# A peer that is gone is found out within seconds.
QUICK = " keepalives_idle=1 keepalives_interval=1 keepalives_count=2 tcp_user_timeout=3000"


class Machine(Server):
    """A machine with a server, which others reach over the network alone."""

    def __init__(self, folder: Path, port: int, namespace: str, address: str) -> None:
        super().__init__(folder, port)
        self.namespace, self.host = namespace, address
        who = owner()
        self.within = ["ip", "netns", "exec", namespace, "setpriv", f"--reuid={who['user']}", f"--regid={who['group']}", "--clear-groups"]

    def configure(self, more: str) -> None:
        super().configure(f"{more}listen_addresses = '{self.host}'\n")
        with open(self.data / "pg_hba.conf", "a", encoding="ascii") as file:
            file.write("".join(f"host {bases} all {NETWORK} trust\n" for bases in ("all", "replication")))

    def front(self, program: Path) -> Path:
        """The program as it runs on this machine."""
        path = self.folder / f"front{self.port}"
        path.write_text(f'#!/bin/sh\nexec ip netns exec {self.namespace} {program} "$@"\n', encoding="ascii")
        path.chmod(0o755)
        return path


class Network:
    """Two machines, the second of which has the standby of the first, and the line between them."""

    def __init__(self, folder: Path) -> None:
        names = [f"segdag{os.getpid()}{side}" for side in "ab"]
        self.first, self.second = (Machine(folder, 5432 + it, names[it], ADDRESSES[it]) for it in range(2))
        self.machines = (self.first, self.second)

    def __enter__(self) -> "Network":
        for machine in self.machines:
            execute(["ip", "netns", "add", machine.namespace])
            execute(["ip", "-n", machine.namespace, "link", "set", "lo", "up"])
        execute(["ip", "link", "add", "line", "netns", self.first.namespace, "type", "veth", "peer", "name", "line", "netns", self.second.namespace])
        for machine in self.machines:
            execute(["ip", "-n", machine.namespace, "address", "add", f"{machine.host}/24", "dev", "line"])
        self.line("up")
        self.first.make()
        stand_by(self.first, self.second)
        return self

    def __exit__(self, *raised: object) -> None:
        for machine in self.machines:
            machine.kill()
            subprocess.run(["ip", "netns", "delete", machine.namespace], check=False)

    def line(self, state: str) -> None:
        """Cuts the line, or mends it."""
        for machine in self.machines:
            execute(["ip", "-n", machine.namespace, "link", "set", "line", state])

    def writers(self, program: Path, flushes: int, before: int) -> List[Worker]:
        """Two on each machine, first those on the first, which have so many flushes acknowledged by now."""
        create(self.first.front(program), self.first)
        both = self.first.words("writer", "", "logs", self.second) + QUICK
        fronts = [machine.front(program) for machine in self.machines]
        workers = [Worker(number, fronts[number // 2], lambda: both, flushes, "--patience", "30") for number in range(4)]
        for worker in workers:
            worker.start()
        end = time.monotonic() + 60
        while len(acknowledged(workers)) < before or not all(worker.acknowledged for worker in workers):
            need(time.monotonic() < end, "the workers don't come on")
            time.sleep(0.02)
        return workers


def killed(program: Path, segdag: Path, folder: Path) -> None:
    """The primary is killed under load, and the other machine's server takes its place: the writers of both machines go on."""
    with Network(folder) as network:
        workers = network.writers(program, 60, 40)
        network.first.kill()
        network.second.promote()
        joined(workers)
        names = acknowledged(workers)
        rows = check(network.second.front(program), segdag, network.second, folder, names)
        tell(f"two machines, of which the primary was killed: their four writers went on, {rows} rows, {len(names)} acknowledged, none missing")


def cut(program: Path, segdag: Path, folder: Path) -> None:
    """The line is cut while both machines go on, and the standby is promoted: who is on its side goes on, and who is beside the old primary is told
    nothing that the new one lacks."""
    with Network(folder) as network:
        workers = network.writers(program, 80, 40)
        network.line("down")
        network.second.promote()
        joined(workers[2:])
        need(any(worker.is_alive() for worker in workers[:2]), "a primary that is cut off from its standby acknowledges all")
        check(network.second.front(program), segdag, network.second, folder, acknowledged(workers))
        network.line("up")
        network.first.kill()
        joined(workers)
        names = acknowledged(workers)
        rows = check(network.second.front(program), segdag, network.second, folder, names)
        tell(f"two machines that were cut off from each other: {rows} rows, {len(names)} acknowledged, none missing, and none by the old primary")


if __name__ == "__main__":
    main_of({"killed": killed, "cut": cut})
