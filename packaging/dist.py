#!/usr/bin/env python3
"""Makes the files of a release out of what was built: a tarball, Debian packages, a Python wheel, and a statement of what was proved.

    packaging/dist.py [FOLDER] [--program FILE] [--library FOLDER]

FOLDER is out/dist. The same commit makes the same bytes in any folder: times are the commit's, owners are root, and names are sorted.
docs/RELEASES.md says what the files have, and how to check them.
"""
from __future__ import annotations

import argparse
import base64
import gzip
import hashlib
import io
import os
import re
import shutil
import subprocess
import sys
import tarfile
import tempfile
import zipfile
from pathlib import Path

import install

TOP = Path(__file__).resolve().parent.parent
PLATFORM = "linux_x86_64"
CONTROL = """Package: segdag
Version: {version}
Architecture: amd64
Maintainer: The segdag authors <{address}>
Installed-Size: {size}
Depends: libc6 (>= {libc}), python3 (>= 3.9)
Recommends: git
Section: vcs
Priority: optional
Description: commit graph of a large repository, proved
 A store of the commit graph of a large repository, which answers what version
 control systems ask all day: ancestors, merge bases, what is new on a branch.
 Its answers, and what a crash leaves of it, are proved by machine.
 .
 This package has the program, a daemon, the command git segdag, the C library
 with its header, and a Python module.
"""
POSTGRES = """Package: segdag-postgres
Version: {version}
Architecture: amd64
Maintainer: The segdag authors <{address}>
Installed-Size: {size}
Depends: libc6 (>= {libc}), libpq5 (>= 14), segdag (= {version})
Recommends: postgresql
Section: vcs
Priority: optional
Description: commit graph of a large repository, in PostgreSQL
 Logs of segdag as rows of a PostgreSQL database, which any number of
 processes on any machines write at the same time.
 .
 This package has the program segdag-postgres, the server of many logs over a
 database, the C library with its header, a Python module, and the tables.
"""
METADATA = """Metadata-Version: 2.1
Name: segdag
Version: {version}
Summary: The commit graph of a large repository, in a store whose answers and crashes are proved
License: MIT OR Apache-2.0
Requires-Python: >=3.9
Description-Content-Type: text/plain

The commit graph store in this process: ctypes over a C library that is in this wheel. `pydoc segdag` has its pages.
"""


def run(*words: str, **how: object) -> str:
    """What a command puts on standard output; it must end well."""
    return subprocess.run(words, check=True, stdout=subprocess.PIPE, text=True, cwd=TOP, **how).stdout.strip()


def sum_of(path: Path) -> str:
    """The SHA-256 of a file."""
    return hashlib.sha256(path.read_bytes()).hexdigest()


class Release:
    """What all files of a release are made of."""

    def __init__(self, options: argparse.Namespace) -> None:
        self.version = install.version()
        self.folder = Path(options.folder).resolve()
        self.options = options
        self.commit = run("git", "rev-parse", "HEAD")
        self.is_changed = bool(run("git", "status", "--porcelain", "--untracked-files=no"))
        self.epoch = int(run("git", "log", "-1", "--format=%ct"))
        self.program = Path(options.program) if options.program else install.built_program()
        self.library = Path(options.library) if options.library else TOP / "out"
        self.has_postgres = (self.library / "segdag-postgres").exists()

    def staged(self, root: Path, *words: str) -> None:
        """An installation below the root, with the notices, and all times those of the commit."""
        words = ("install", "--destdir", str(root), "--program", str(self.program), "--library", str(self.library), *words)
        run(sys.executable, str(TOP / "packaging/install.py"), *words)

    def settle(self, root: Path) -> None:
        """Gives each file below the root the commit's time, and the rights that an installation has."""
        for path in [*sorted(root.rglob("*"), reverse=True), root]:
            if path.is_symlink():
                os.utime(path, (self.epoch, self.epoch), follow_symlinks=False)
                continue
            runs = path.is_dir() or os.access(path, os.X_OK)
            path.chmod(0o755 if runs else 0o644)
            os.utime(path, (self.epoch, self.epoch))

    def tarball(self) -> Path:
        """The installed files below one folder, which may stand anywhere."""
        name = f"segdag-{self.version}-linux-x86_64"
        made = self.folder / f"{name}.tar.gz"
        with tempfile.TemporaryDirectory() as folder:
            root = Path(folder) / name
            self.staged(Path(folder), "--prefix", f"/{name}", "--relocatable", "--pythondir", f"/{name}/lib/python")
            self.settle(root)
            made.write_bytes(packed(root, name, self.epoch))
        return made

    def debian(self, part: str) -> Path:
        """A Debian package of the same files below /usr, or of those for logs in PostgreSQL."""
        made = self.folder / f"{part}_{self.version}_amd64.deb"
        with tempfile.TemporaryDirectory() as folder:
            root = Path(folder) / part
            library = ("--libdir", "lib/x86_64-linux-gnu", "--pythondir", "lib/python3/dist-packages")
            self.staged(root, "--prefix", "/usr", "--part", part, *library)
            debianize(root, part, self)
            self.settle(root)
            how = {"env": {**os.environ, "SOURCE_DATE_EPOCH": str(self.epoch)}}
            run("dpkg-deb", "--build", "--root-owner-group", "-Zxz", "--threads-max=1", str(root), str(made), **how)
        return made

    def wheel(self) -> Path:
        """The Python module with the library in it, and the client of the daemon."""
        made = self.folder / f"segdag-{self.version}-py3-none-{PLATFORM}.whl"
        about = f"segdag-{self.version}.dist-info"
        files = {f"segdag/{module.name}": module.read_bytes() for module in (TOP / "bindings/python/segdag").glob("*.*")}
        files.update((f"segdag_tools/{name}", (TOP / "tools/segdag_tools" / name).read_bytes()) for name in install.CLIENT)
        files["segdag/libsegdag.so"] = (self.library / "libsegdag.so").read_bytes()
        files[f"{about}/METADATA"] = METADATA.format(version=self.version).encode()
        files[f"{about}/WHEEL"] = f"Wheel-Version: 1.0\nGenerator: segdag\nRoot-Is-Purelib: false\nTag: py3-none-{PLATFORM}\n".encode()
        for name in ("LICENSE-MIT", "LICENSE-APACHE"):
            files[f"{about}/{name}"] = (TOP / name).read_bytes()
        files[f"{about}/NOTICES"] = (TOP / "out/NOTICES").read_bytes()
        record = "".join(f"{name},sha256={digest(content)},{len(content)}\n" for name, content in sorted(files.items()))
        files[f"{about}/RECORD"] = f"{record}{about}/RECORD,,\n".encode()
        with zipfile.ZipFile(made, "w", zipfile.ZIP_DEFLATED) as archive:
            for name, content in sorted(files.items()):
                archive.writestr(dated(name, self.epoch), content)
        return made

    def statement(self, files: list[Path]) -> Path:
        """What was proved, by what, and the sums of all."""
        made = self.folder / f"segdag-{self.version}.txt"
        sums = run("sh", "packaging/sums.sh")
        libraries = ["libsegdag", *(["libsegdag_postgres"] if self.has_postgres else [])]
        built = [("the program", self.program)]
        built += [(f"the library, {name}{kind}", self.library / f"{name}{kind}") for name in libraries for kind in (".a", ".so")]
        lines = [f"segdag {self.version}", "", f"commit: {self.commit}{' with changes that are not committed' if self.is_changed else ''}"]
        lines += [f"kit: {run(os.environ.get('RT', 'rt'), 'version')}", *sums.split("\n"), ""]
        lines += [f"the program is {self.kind_of_program()}", f"the library is {self.kind_of_library(sums)}"]
        lines += [f"the library for PostgreSQL is {self.kind_of_library(sums, 'libsegdag_postgres')}"] if self.has_postgres else []
        lines += [f"gate: {gate(sums)}", "", "SHA-256:"]
        lines += [f"{sum_of(path)}  {name}" for name, path in built]
        lines += [f"{sum_of(path)}  {path.name}" for path in files]
        made.write_text("\n".join(lines) + "\n")
        return made

    def kind_of_program(self) -> str:
        """Proved, where it is the one that the kit left behind its proofs, and no source is newer."""
        return "proved" if not self.options.program and install.proved_and_current() else "UNPROVED: built of this text without its proofs"

    def kind_of_library(self, sums: str, name: str = "libsegdag") -> str:
        """Proved, where `make lib` or `make postgres` left it and this text is the one that it was made of."""
        mark, archive = self.library / f"{name}.proved", self.library / f"{name}.a"
        is_proved = mark.exists() and mark.read_text().strip() == sums and mark.stat().st_mtime >= archive.stat().st_mtime
        return "proved" if is_proved else "UNPROVED: built of this text without its proofs"


def gate(sums: str) -> str:
    """What the gate left of its run over this text: its closing line, where what it put was kept as out/gate.log."""
    passed = TOP / "out/gate"
    if not passed.exists() or passed.read_text().strip() != sums:
        return "not run over this text in this checkout"
    kept = TOP / "out/gate.log"
    closing = re.findall(r"^\d+ passed, 0 failed$", kept.read_text(errors="replace"), re.MULTILINE) if kept.exists() else []
    return closing[-1] if closing else "passed"


def digest(content: bytes) -> str:
    """A sum as a wheel's RECORD has it."""
    return base64.urlsafe_b64encode(hashlib.sha256(content).digest()).rstrip(b"=").decode()


def dated(name: str, epoch: int) -> zipfile.ZipInfo:
    """An entry of a wheel, with the commit's time."""
    import time

    entry = zipfile.ZipInfo(name, time.gmtime(epoch)[:6])
    entry.external_attr, entry.compress_type = 0o100644 << 16, zipfile.ZIP_DEFLATED
    return entry


def packed(root: Path, name: str, epoch: int) -> bytes:
    """A folder as a tarball whose bytes depend on its files alone."""
    plain = io.BytesIO()
    with tarfile.open(fileobj=plain, mode="w", format=tarfile.GNU_FORMAT) as archive:
        for path in [root, *sorted(root.rglob("*"))]:
            entry = archive.gettarinfo(str(path), str(Path(name) / path.relative_to(root)))
            entry.uid = entry.gid = 0
            entry.uname = entry.gname = "root"
            entry.mtime = epoch
            if entry.isfile():
                with path.open("rb") as content:
                    archive.addfile(entry, content)
            else:
                archive.addfile(entry)
    return gzip.compress(plain.getvalue(), mtime=epoch)


def binaries(paths: list[Path]) -> list[Path]:
    """Those that are programs and shared libraries."""
    return [path for path in paths if path.suffix != ".a" and path.read_bytes()[:4] == b"\x7fELF"]


def libc_needed(paths: list[Path]) -> str:
    """The oldest C library that has what these programs call."""
    found = re.findall(r"GLIBC_(\d+)\.(\d+)", "".join(run("objdump", "-T", str(path)) for path in paths))
    return ".".join(map(str, max((int(one), int(two)) for one, two in found)))


def debianize(root: Path, part: str, release: Release) -> None:
    """Adds what Debian wants of a package: control files, pages and changes compressed, and the copyright."""
    about = root / "usr/share/doc" / part
    about.mkdir(parents=True, exist_ok=True)
    if part != "segdag":
        shutil.copy(TOP / "CHANGELOG.md", about)
    (about / "copyright").write_text("Copyright 2026 the segdag authors. MIT or Apache-2.0, at your choice:\n\n" + (TOP / "LICENSE-MIT").read_text()
                                     + "\n\nThe Apache licence is in /usr/share/common-licenses/Apache-2.0.\n\n" + (TOP / "out/NOTICES").read_text())
    for name in ("LICENSE-MIT", "LICENSE-APACHE"):
        (about / name).unlink(missing_ok=True)
    for path in [*sorted((root / "usr/share/man").rglob("*.[135]")), about / "CHANGELOG.md"]:
        path.with_name(("changelog" if path.name == "CHANGELOG.md" else path.name) + ".gz").write_bytes(gzip.compress(path.read_bytes(), mtime=0))
        path.unlink()
    files = sorted(path for path in root.rglob("*") if path.is_file() and not path.is_symlink())
    sums = "".join(f"{hashlib.md5(path.read_bytes()).hexdigest()}  {path.relative_to(root)}\n" for path in files)
    size = sum(path.stat().st_size + 1023 >> 10 for path in files)
    (root / "DEBIAN").mkdir()
    (root / "DEBIAN/md5sums").write_text(sums)
    (root / "DEBIAN/triggers").write_text("activate-noawait ldconfig\n")
    address = run("git", "log", "-1", "--format=%ae")
    control = CONTROL if part == "segdag" else POSTGRES
    (root / "DEBIAN/control").write_text(control.format(version=release.version, address=address, size=size, libc=libc_needed(binaries(files))))


def main() -> int:
    """Makes all files and tells what they are."""
    parser = argparse.ArgumentParser(description="Makes the files of a release.")
    parser.add_argument("folder", nargs="?", default=str(TOP / "out/dist"))
    parser.add_argument("--program", help="the program to pack, instead of the one that was built here")
    parser.add_argument("--library", help="the folder of the libraries to pack, instead of out")
    release = Release(parser.parse_args())
    release.folder.mkdir(parents=True, exist_ok=True)
    try:
        parts = install.PARTS if release.has_postgres else install.PARTS[:1]
        files = [release.tarball(), *map(release.debian, parts), release.wheel()]
    except subprocess.CalledProcessError as error:
        print(f"dist: {' '.join(error.cmd)} failed", file=sys.stderr)
        return 1
    print(release.statement(files).read_text(), end="")
    return 0


if __name__ == "__main__":
    sys.exit(main())
