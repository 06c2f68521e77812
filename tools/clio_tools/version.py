"""Which clio this is: its version, and of the program its SHA-256, the sum of its sources and its toolchain."""
from __future__ import annotations

import hashlib
import pathlib
from collections.abc import Iterator

from clio_tools.program import FINDER, Refused, program

TOP = FINDER.parent.parent


def version() -> str:
    """The version of these tools and of the program in dist/."""
    try:
        return (TOP / "VERSION").read_text(encoding="utf-8").strip()
    except FileNotFoundError:
        raise Refused(f"{TOP} has no file VERSION") from None


def version_lines() -> Iterator[str]:
    """The lines that `clio-explain version` prints."""
    path = program()
    digest = hashlib.sha256(pathlib.Path(path).read_bytes()).hexdigest()
    yield from (f"clio {version()}", f"program {path}", f"sha-256 {digest}")
    kept = TOP / "dist"
    if (kept / "sum").exists() and (kept / "sum").read_text(encoding="utf-8").split()[:1] == [digest]:
        for name in "sources", "toolchain":
            yield f"{name} {(kept / name).read_text(encoding='utf-8').strip()}"
    else:
        yield f"sources unknown: this is not the program of {kept}"
