#!/usr/bin/env python3
"""Makes packages of the built program, for machines that have no toolchain: out/package/verifactu_VERSION_amd64.deb,
verifactu-VERSION-x86_64-linux.tar.gz, and SHA256SUMS over both.

usage: tools/package.py

It refuses where the program isn't built or a source is newer, where the tree differs from its commit, and where `rt version` isn't the
second line of the program's --version: the toolchain under which the repository's gate last passed. Every file has the commit's date, so the
same program gives the same bytes.
"""
from __future__ import annotations

import gzip
import hashlib
import io
import os
import re
import shutil
import subprocess
import sys
import tarfile
import tempfile
import time
from collections.abc import Iterator

from crate_lists import sources
from lanes import ROOT, crates

PROGRAM = os.path.join(ROOT, "crates", "program", "out", "program")
PLACE = os.path.join(ROOT, "out", "package")
PARTS = os.path.join(ROOT, "package")
OWNER = os.path.join(PARTS, "owner")
DOC, UNITS = "share/doc/verifactu", "lib/systemd/system"
# What tries an adapter, beside each other: it finds the practice adapter in the examples, and the program on PATH.
TRY = ("examples/agency/try_adapter.py", "examples/agency/try_service.py", "bench/adapter.sh", "bench/adapter.py", "bench/kill_adapter.py", "bench/files.sh")
# The packages of Debian that have the libraries which a program names.
LIBRARIES = {"libc": "libc6", "libm": "libc6", "libpthread": "libc6", "libdl": "libc6", "librt": "libc6", "libgcc_s": "libgcc-s1"}
CONTROL = """Package: verifactu
Version: {version}
Architecture: amd64
Maintainer: {maintainer}
Installed-Size: {size}
Depends: {depends}
Suggests: python3
Section: misc
Priority: optional
Description: invoicing chain of a Spanish shop in VERI*FACTU mode
 Registers the sales of a shop's tills as one chain of linked records, in a
 file that survives a crash at any moment; hands them over to an agency by an
 adapter, and audits, exports, copies and sums them. It needs no network, no
 Python and no compiler.
 .
 Proved and built by {kit}
"""


class Refused(Exception):
    """Why no package is made."""


def output(*words: str) -> str:
    """What a command prints."""
    try:
        return subprocess.run(words, cwd=ROOT, stdin=subprocess.DEVNULL, stdout=subprocess.PIPE, check=True).stdout.decode()
    except (OSError, subprocess.CalledProcessError) as fault:
        raise Refused(f"{' '.join(words)}: {fault}") from fault


def newer_source() -> str | None:
    """A source that is newer than the program, if there is one."""
    built = os.stat(PROGRAM).st_mtime
    paths = [os.path.join(ROOT, "crates.txt"), *(path for crate in crates() for path in sources(ROOT, crate))]
    return next((os.path.relpath(path, ROOT) for path in paths if os.stat(path).st_mtime > built), None)


def versions() -> tuple[str, str]:
    """The program's version, and the toolchain's line that it says."""
    lines = output(PROGRAM, "--version").splitlines()
    found = re.fullmatch(r"verifactu (\d+\.\d+\.\d+)", lines[0]) if lines else None
    if found is None or len(lines) != 2:
        raise Refused("the program's --version isn't its version and the toolchain's line")
    return found[1], lines[1]


def check_tree() -> tuple[str, str]:
    """The two lines of --version, where all is as a package wants it."""
    if not os.access(PROGRAM, os.X_OK):
        raise Refused("no program is built: ./verifactu --build")
    if newer := newer_source():
        raise Refused(f"{newer} is newer than the program: ./verifactu --build")
    if output("git", "status", "--porcelain", "--untracked-files=no"):
        raise Refused("files differ from the commit: commit them first")
    version, kit = versions()
    here = output("rt", "version").strip()
    if here != kit:
        raise Refused(f"rt version is '{here}' here, and the gate last passed under '{kit}'")
    return version, kit


def needs(program: bytes) -> tuple[str, list[str]]:
    """The least version of glibc that has every symbol which the program takes of it, and the packages of its libraries."""
    wanted = [tuple(map(int, it.split(b"."))) for it in re.findall(rb"(?<=\0GLIBC_)[0-9]+(?:\.[0-9]+)+(?=\0)", program)]
    if not wanted:
        raise Refused("the program names no version of glibc")
    glibc = ".".join(map(str, max(wanted)))
    names = {it.decode() for it in re.findall(rb"(?<=\0)lib[A-Za-z0-9_+-]+(?=\.so[.0-9]*\0)", program)}
    if strange := sorted(names - set(LIBRARIES)):
        raise Refused(f"the program takes {', '.join(strange)}, whose package isn't known here")
    others = sorted({LIBRARIES[it] for it in names} - {"libc6"})
    return glibc, [f"libc6 (>= {glibc})", *others, "passwd"]


def text_of(path: str) -> bytes:
    with open(path, "rb") as file:
        return file.read()


def owner(line: str) -> str:
    """What a line of package/owner says."""
    found = re.search(rf"^{line}: (.+)$", text_of(OWNER).decode(), re.MULTILINE)
    if found is None:
        raise Refused(f"package/owner has no line {line}")
    return found[1]


def rights() -> bytes:
    """Debian's file of who made a package and how it may be handed on."""
    return f"""Format: https://www.debian.org/doc/packaging-manuals/copyright-format/1.0/
Upstream-Contact: {owner("Maintainer")}

Files: *
Copyright: {owner("Maintainer")}
License: {owner("License")}
""".encode()


def packed(text: bytes) -> bytes:
    """The text, compressed, with no date and no name in it."""
    made = io.BytesIO()
    with gzip.GzipFile("", "wb", 9, made, mtime=0) as file:
        file.write(text)
    return made.getvalue()


def man_page(version: str, date: int) -> bytes:
    """The man page of this version."""
    day = time.strftime("%Y-%m-%d", time.gmtime(date))
    return text_of(os.path.join(PARTS, "verifactu.1")).replace(b"@VERSION@", version.encode()).replace(b"@DATE@", day.encode())


def files_of(folder: str) -> Iterator[str]:
    """The paths below a folder of the repository that git knows, from that folder on."""
    for path in output("git", "ls-files", "-z", folder).split("\0"):
        if path:
            yield os.path.relpath(path, folder)


def file_of(path: str, may_run: bool = True) -> tuple[bytes, int]:
    """The bytes and the mode of a file of the repository."""
    path = os.path.join(ROOT, path)
    return text_of(path), 0o755 if may_run and os.access(path, os.X_OK) else 0o644


def tree(version: str, date: int) -> dict[str, tuple[bytes, int]]:
    """The bytes and the mode of each file that stands below /usr."""
    made = {
        "bin/verifactu": (text_of(PROGRAM), 0o755),
        "share/man/man1/verifactu.1.gz": (packed(man_page(version, date)), 0o644),
        "share/bash-completion/completions/verifactu": (text_of(os.path.join(PARTS, "verifactu.bash")), 0o644),
    }
    made[f"{DOC}/copyright"] = (rights(), 0o644)
    for page in ("README.md", "LEEME.md", "CHANGELOG.md"):
        made[f"{DOC}/{page}"] = (text_of(os.path.join(ROOT, page)), 0o644)
    folders = {"docs": f"{DOC}/docs", "examples": f"{DOC}/examples", "examples/agency": "share/verifactu/agency", "examples/systemd": UNITS}
    for folder, to in folders.items():
        for name in files_of(folder):
            if to == UNITS and name.startswith(("verifactu-hub", "verifactu-hosting", "verifactu-group")):  # of the hub's own package
                continue
            if "cases/" in name or os.path.basename(name).startswith("try_"):  # of try-adapter
                continue
            made[f"{to}/{name}"] = file_of(os.path.join(folder, name), to != UNITS)
    for name in TRY:
        made[f"{DOC}/try-adapter/{os.path.basename(name)}"] = file_of(name)
    for name in files_of("examples/agency/cases"):
        made[f"{DOC}/try-adapter/cases/{name}"] = file_of(os.path.join("examples/agency/cases", name))
    return made


def hub_files() -> dict[str, tuple[bytes, int]]:
    """What the hub's own package has, for the archive."""
    import package_hub  # which imports this file

    return package_hub.tree()


def make_tar(made: dict[str, tuple[bytes, int]], top: str, date: int, to: str) -> None:
    """An archive of the tree below a folder of this name."""
    plain = io.BytesIO()
    with tarfile.open(fileobj=plain, mode="w", format=tarfile.GNU_FORMAT) as archive:
        for name, (text, mode) in sorted(made.items()):
            entry = tarfile.TarInfo(f"{top}/{name}")
            entry.size, entry.mode, entry.mtime = len(text), mode, date
            entry.uname = entry.gname = "root"
            archive.addfile(entry, io.BytesIO(text))
    with open(to, "wb") as file:
        file.write(packed(plain.getvalue()))


def put(root: str, name: str, text: bytes, mode: int) -> None:
    path = os.path.join(root, name)
    os.makedirs(os.path.dirname(path), mode=0o755, exist_ok=True)
    with open(path, "wb") as file:
        file.write(text)
    os.chmod(path, mode)


def set_dates(root: str, date: int) -> None:
    """Gives every file and folder this date, and each folder the common mode."""
    for at, _, names in os.walk(root, topdown=False):
        for name in names:
            os.utime(os.path.join(at, name), (date, date))
        os.chmod(at, 0o755)
        os.utime(at, (date, date))


def make_deb(made: dict[str, tuple[bytes, int]], control: str, date: int, to: str) -> None:
    """The package by dpkg-deb, which takes dates from the files and its own from SOURCE_DATE_EPOCH."""
    with tempfile.TemporaryDirectory() as root:
        for name, (text, mode) in made.items():
            put(root, f"usr/{name}", text, mode)
        sums = "".join(f"{hashlib.md5(text).hexdigest()}  usr/{name}\n" for name, (text, _) in sorted(made.items()))
        put(root, "DEBIAN/control", control.encode(), 0o644)
        put(root, "DEBIAN/md5sums", sums.encode(), 0o644)
        for name in ("postinst", "prerm", "postrm"):
            put(root, f"DEBIAN/{name}", text_of(os.path.join(PARTS, name)), 0o755)
        set_dates(root, date)
        subprocess.run(["dpkg-deb", "--root-owner-group", "-Zgzip", "-z9", "--build", root, to], check=True, stdout=subprocess.DEVNULL,
                       env={**os.environ, "SOURCE_DATE_EPOCH": str(date)})


def package() -> list[str]:
    """Makes the packages and the list of their sums, and gives their paths."""
    version, kit = check_tree()
    date = int(output("git", "log", "-1", "--format=%ct"))
    glibc, depends = needs(text_of(PROGRAM))
    made = tree(version, date)
    shutil.rmtree(PLACE, ignore_errors=True)
    os.makedirs(PLACE)
    deb, tar = f"verifactu_{version}_amd64.deb", f"verifactu-{version}-x86_64-linux.tar.gz"
    make_tar({**made, **hub_files()}, f"verifactu-{version}", date, os.path.join(PLACE, tar))
    size = sum(len(text) for text, _ in made.values()) // 1024 + 1
    make_deb(made, CONTROL.format(version=version, maintainer=owner("Maintainer"), size=size, depends=", ".join(depends), kit=kit), date, os.path.join(PLACE, deb))
    with open(os.path.join(PLACE, "SHA256SUMS"), "w", encoding="ascii") as sums:
        for name in (deb, tar):
            sums.write(f"{hashlib.sha256(text_of(os.path.join(PLACE, name))).hexdigest()}  {name}\n")
    print(f"verifactu: {version}, glibc {glibc} or later, {kit}")
    return [os.path.relpath(os.path.join(PLACE, name)) for name in (deb, tar, "SHA256SUMS")]


def main() -> int:
    if sys.argv[1:]:
        print("usage: tools/package.py", file=sys.stderr)
        return 2
    try:
        print("\n".join(package()))
        return 0
    except (Refused, OSError, subprocess.CalledProcessError) as fault:
        print(f"verifactu: no package: {fault}", file=sys.stderr)
        return 1


if __name__ == "__main__":
    sys.exit(main())
