"""A part of guide.sh: files at the log's place that are no log, logs that are removed, and daemons that don't answer."""
import os
import random
import shutil
import signal
import socket
import subprocess
import time

from guide_lib import FOLDER, PROGRAM, TOOL, Repository, ask_pair, environment, fail, refuse, same, script

QUESTIONS = (["log", "main"], ["merge-base", "main", "topic"], ["query", "all"], ["sync"], ["compact"], ["daemon", "start"], ["verify"])


def files():
    foreign()
    removed()
    resets()
    mute()
    ends()
    print("guide: a file that is no log is left as it is, a log goes by a command, and a daemon that says nothing is given up")


def grown(name):
    repository = Repository(name, random.Random(2))
    repository.grow(30, most=10, wide=0.3, roots=0)
    repository.point("main", repository.commits[-1])
    repository.point("topic", repository.commits[-4])
    repository.lose()
    return repository


def foreign():
    """Notes, a bundle, a page, a log whose first bit has flipped: refused by what they are, not written, and `reset` goes on."""
    repository = grown("foreign")
    repository.sync()
    log = repository.log.read_bytes()
    bundle = subprocess.run([PROGRAM, repository.log, "--", "bundle"], capture_output=True).stdout
    kinds = [b"hello, my notes\n", b"{}\n", b"<html>", b"#!/bin/sh\n", bytes([3]) + log[1:], bytes([129]) + log[1:], b"\xff\xfe", bundle]
    for kind in kinds:
        repository.log.write_bytes(kind)
        for words in QUESTIONS:
            refuse(repository, words, 128, "a bundle, and no log" if kind == bundle else "is no log")
        if repository.log.read_bytes() != kind:
            fail(f"files: {kind[:20]} was written over")
    if "is removed" not in repository.must("segdag", "reset"):
        fail("files: reset over what is no log")
    repository.sync()
    ask_pair(repository, "main", "topic")
    for empty in (b"", b"\0", b"x"):
        repository.log.write_bytes(empty)
        repository.sync()
        same(repository, ["segdag", "query", "all"], ["rev-list", "--branches"], sort=True)


def removed():
    """A log that is removed while a daemon has it: what `sync` acknowledges is in the file that stands there."""
    repository = grown("removed")
    for way in (lambda: repository.log.unlink(), lambda: repository.log.write_bytes(b""), lambda: shutil.rmtree(repository.log.parent)):
        repository.sync()
        repository.must("segdag", "daemon", "start", "60")
        process = int(repository.must("segdag", "daemon", "status").split()[1])
        repository.point("main", repository.commit(repository.commits[-1]))
        way()
        repository.sync()
        same(repository, ["segdag", "query", "all"], ["rev-list", "--branches", "HEAD"], sort=True)
        repository.must("segdag", "daemon", "stop")
        same(repository, ["segdag", "query", "all"], ["rev-list", "--branches", "HEAD"], sort=True)
        if not repository.log.exists():
            # What a folder that is gone leaves behind is ended by the daemon itself.
            fail("files: there is no log behind a sync")
        end(process)
    gone = script("removes", f"""import os, subprocess, sys
child = subprocess.Popen(['{PROGRAM}', *sys.argv[1:]])
if 'run' in sys.argv: os.path.exists('{repository.log}') and os.unlink('{repository.log}')
sys.exit(child.wait())
""")
    # The program may open the path before the file goes, or behind that: then it makes another one, and says so rightly.
    if repository.git("segdag", "sync", SEGDAG=gone)[0] == 0:
        same(repository, ["segdag", "query", "all"], ["rev-list", "--branches", "HEAD"], sort=True)


def end(process):
    try:
        os.kill(process, signal.SIGTERM)
    except ProcessLookupError:
        pass


def resets():
    """The log goes, with its daemon, and nothing else."""
    repository = grown("resets")
    if repository.must("segdag", "reset") != "there was no log\n":
        fail("files: reset where there is none")
    repository.sync()
    repository.must("segdag", "daemon", "start", "60")
    if "is removed" not in repository.must("segdag", "reset") or repository.log.exists():
        fail("files: reset")
    if repository.git("segdag", "daemon", "status")[:2] != (1, "no daemon runs\n"):
        fail("files: a daemon is left by reset")
    refuse(repository, ["log", "main"], 128, "the log has no commits yet")
    repository.sync()
    ask_pair(repository, "main", "topic")


def mute():
    """A daemon that is stopped, and who listens and says nothing: a question is answered from the log after a time, and a sync is refused."""
    repository = grown("mute")
    repository.sync()
    repository.must("segdag", "daemon", "start", "600")
    process = int(repository.must("segdag", "daemon", "status").split()[1])
    os.kill(process, signal.SIGSTOP)
    try:
        given_up(repository, process)
    finally:
        repository.must("segdag", "daemon", "stop")
    ask_pair(repository, "main", "topic")
    with socket.socket(socket.AF_UNIX) as door:
        door.bind(os.path.relpath(repository.common / "segdag/socket"))
        door.listen(8)
        given_up(repository, os.getpid())
        (repository.common / "segdag/socket").unlink()


def given_up(repository, process):
    begun = time.monotonic()
    same(repository, ["segdag", "merge-base", "main", "topic"], ["merge-base", "main", "topic"])
    if time.monotonic() - begun > 25:
        fail(f"files: a daemon that says nothing is given up after {time.monotonic() - begun:.0f} seconds")
    refuse(repository, ["sync"], 128, f"process {process} has the log, and doesn't answer", command=[TOOL])
    if "doesn't answer" not in repository.must("segdag", "daemon", "status"):
        fail("files: status of a daemon that says nothing")


def ends():
    """Daemons whose last words are none: the log is asked, and a sync is refused in a sentence."""
    repository = grown("ends")
    repository.sync()
    for last in (b"err ended x\n", b"err ended \n", b"err ended 0\n", b"err ended 99999999999999999999\n", b"err ended -\n"):
        path = repository.common / "segdag/socket"
        liar = script("last", f"""import os, socket, sys
os.chdir({str(path.parent)!r})
door = socket.socket(socket.AF_UNIX)
door.bind('socket')
door.listen(8)
print('there', flush=True)
while True:
    one, _ = door.accept()
    with one:
        try:
            if one.recv(1 << 16):
                one.sendall(b'ok session\\n' + {last!r})
        except OSError:
            pass
""")
        child = subprocess.Popen([liar], stdout=subprocess.PIPE)
        child.stdout.readline()
        try:
            for words in (["merge-base", "main", "topic"], ["merge-base", "--all", "main", "topic"]):
                same(repository, ["segdag", *words], words)
            same(repository, ["segdag", "query", "ancestors(main)"], ["rev-list", "main"], sort=True)
            refuse(repository, ["sync"], 128, "segdag/socket")
        finally:
            child.kill()
            child.wait()
            child.stdout.close()
            path.unlink()
