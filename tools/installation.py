"""Installs the program or the library below a folder, with the recorders, the farm and the documents, and removes them.

The files of a list that do not have a place of their own lie below share/wudzark as in the repository, so that their
paths in the documents hold there. All that was made is in share/wudzark/manifest: a line for each file, and one with a
`/` behind it for each folder that was not there before. Where DESTDIR is set all this is below it, for a package."""

from __future__ import annotations

import contextlib
import os
import re
import shutil
from dataclasses import dataclass
from pathlib import Path
from typing import Dict, List, Sequence, Union

import unproved

TOP = Path(__file__).resolve().parent.parent
TREE = "share/wudzark"
MANIFEST = f"{TREE}/manifest"
# the name by which programs find the shared library: it changes where a call does
SONAME = "libwudzark.so.0"
# of the recorders for C and C++
HEADERS = ("lfts.h", "lfts.hpp")
# what belongs to the program alone
OF_PROGRAM = {
    "docs/score.1": "share/man/man1/score.1",
    "completions/score.bash": "share/bash-completion/completions/score",
    "completions/_score": "share/zsh/site-functions/_score",
    "completions/score.fish": "share/fish/vendor_completions.d/score.fish",
}
# what is installed with both, as it lies here
OF_TREE = [
    "README.md",
    "CHANGELOG.md",
    "docs/*.md",
    "docs/*.png",
    "docs/*.json",
    "coverage/points.txt",
    "farm/*.*",
    "farm/slurm/*.*",
    "recorders/*/*.md",
    "recorders/c/example.[ct]*",
    "recorders/systemverilog/*.*",
    "recorders/python/*.py",
    "recorders/python/*.toml",
    "recorders/python/in_tree/*.py",
    "recorders/python/src/lfts/*.*",
    "examples/*.md",
    "examples/*.toml",
    "examples/*.lfts",
    "examples/*/*.*",
    "examples/*/Makefile",
    "examples/systemverilog/*/*.sv",
]


@dataclass(frozen=True)
class Link:
    """A symbolic link."""

    to: str


# a file to copy, a text to write, or a link
Item = Union[Path, str, Link]


def of_program(program: Path) -> Dict[str, Item]:
    return {"bin/score": program, **{to: TOP / source for source, to in OF_PROGRAM.items()}, **of_both()}


def of_library(archive: Path, shared: Path) -> Dict[str, Item]:
    """As an archive and as a shared library, with its header."""
    return {
        "lib/libwudzark.a": archive,
        f"lib/{SONAME}": shared,
        "lib/libwudzark.so": Link(SONAME),
        **headers("library", ["wudzark.h"]),
        f"{TREE}/library/example.c": TOP / "library/example.c",
        **package("wudzark"),
        **of_both(),
    }


def of_both() -> Dict[str, Item]:
    files = [file for pattern in OF_TREE for file in TOP.glob(pattern) if file.is_file()]
    return {
        **{f"{TREE}/{file.relative_to(TOP)}": file for file in files},
        **headers("recorders/c", HEADERS),
        **package("lfts"),
    }


def headers(folder: str, names: Sequence[str]) -> Dict[str, Item]:
    """Headers, and links to them from where they lie here."""
    above = "../" * (folder.count("/") + 3)
    items: Dict[str, Item] = {f"include/{name}": TOP / folder / name for name in names}
    return {**items, **{f"{TREE}/{folder}/{name}": Link(f"{above}include/{name}") for name in names}}


def package(name: str) -> Dict[str, Item]:
    """How pkg-config and CMake find it. The folder may be moved."""
    found = re.search(r'VERSION.*"([0-9.]+)', unproved.command_line())
    files = {
        f"{name}.pc": f"lib/pkgconfig/{name}.pc",
        f"{name}-config.cmake": f"lib/cmake/{name}/{name}-config.cmake",
        "config-version.cmake": f"lib/cmake/{name}/{name}-config-version.cmake",
    }
    version = found[1] if found else "0"
    return {
        to: (TOP / "packages" / source).read_text(encoding="utf-8").replace("@VERSION@", version)
        for source, to in files.items()
    }


def root_of(prefix: Path) -> Path:
    """The folder that the files go to."""
    return Path(os.environ.get("DESTDIR", "") + str(prefix.expanduser().resolve()))


def install(prefix: Path, items: Dict[str, Item]) -> Path:
    """Installs these beside what is installed there already. What was made is noted first, so that all of it can be
    removed where this is interrupted. Answers where the first of them is."""
    root = root_of(prefix)
    folders = {parent for it in items for parent in Path(it).parents if parent != Path(".")}
    made = {f"{folder}/" for folder in folders if not (root / folder).exists()}
    lines = {*noted(root), *made, *items, MANIFEST}
    put("".join(f"{line}\n" for line in sorted(lines)), root / MANIFEST)
    for to, item in items.items():
        put(item, root / to)
    return root / next(iter(items))


def uninstall(prefix: Path) -> str:
    """Removes what was installed, and the folders that were made for it and have nothing else in them."""
    root = root_of(prefix)
    lines = noted(root)
    if not lines:
        raise unproved.NotBuilt(f"nothing is installed below {prefix}: there is no {MANIFEST}", 2)
    # each before the folder that has it
    for line in sorted(lines, reverse=True):
        if line.endswith("/"):
            # Python keeps the modules of scripts there
            shutil.rmtree(root / line / "__pycache__", ignore_errors=True)
            with contextlib.suppress(OSError):
                (root / line).rmdir()
        else:
            (root / line).unlink(missing_ok=True)
    return f"removed from {root}"


def noted(root: Path) -> List[str]:
    """The lines of the manifest, if there is one. None of them leads out of the folder."""
    with contextlib.suppress(FileNotFoundError):
        lines = (root / MANIFEST).read_text(encoding="utf-8").splitlines()
        wrong = [line for line in lines if line.startswith("/") or ".." in line.split("/")]
        if wrong:
            raise unproved.NotBuilt(f"{root / MANIFEST} has the line {wrong[0]!r}", 2)
        return lines
    return []


def put(item: Item, to: Path) -> Path:
    """Puts a file in the place of one that may be in use, in one step."""
    to.parent.mkdir(parents=True, exist_ok=True)
    part = to.with_name(f".{to.name}.{os.getpid()}")
    try:
        if isinstance(item, Path):
            shutil.copy(item, part)
        elif isinstance(item, Link):
            part.symlink_to(item.to)
        else:
            part.write_text(item, encoding="utf-8")
        part.replace(to)
    finally:
        part.unlink(missing_ok=True)
    return to
