"""Makes the library for C of what was compiled of the crate library_c: one object that defines the calls alone, so that
no other name of it can meet one of the program, as an archive and as a shared library.

    library.py      builds it over what `rt ci` proved and left in crates/*/out/rlib, for the tests: the crate itself is
                    proved once more, and not those below it, as `./build --library` would. Where libraries of other
                    checks lie there, it is built without proof"""

from __future__ import annotations

import re
import sys
import tempfile
from functools import partial
from pathlib import Path
from typing import Dict, List

import installation
import unproved

CRATE = unproved.CRATES / "library_c"
ARCHIVE, SHARED = CRATE / "out/libwudzark.a", CRATE / "out/libwudzark.so"
# the object in the archive: `ar t` tells by its name whether it is proved
PROVED, NOT_PROVED = "wudzark.o", "wudzark_not_proved.o"
# all that the library calls by a name of its own toolchain: malloc, realloc and free under other names
SUPPORT = "c/liblibc_c.a"
# What is compiled without proof is a program that makes each call once, with these values of its arguments' types.
CALL = re.compile(r'pub extern "C" fn (\w+)\(([^)]*)\)')
ARGUMENTS = {"Global": "alloc", "&mut Board": "&mut board", "&[u8]": "&[]", "&mut [u8]": "&mut line"}
MAIN = """
fn main(rt: HostRuntime) {{
    let alloc = rt.alloc();
    let mut line = [0u8; 1];
    let mut board = board::Board {{ live: false, held: held::Held::nothing(alloc) }};
{calls}}}
"""


def pack(folder: Path, compiled: Path, member: str) -> None:
    """Makes both in this folder, of what was compiled, and puts each in its place in one step."""
    run = partial(unproved.run, folder)
    whole, archive, shared = folder / member, folder / ARCHIVE.name, folder / SHARED.name
    run("ld", "-r", "-o", whole, "--whole-archive", compiled, unproved.kit() / SUPPORT)
    run("objcopy", "--wildcard", "--keep-global-symbol=wudzark_*", whole)
    run("ar", "rcsD", archive, whole)
    run("ld", "-shared", "-soname", installation.SONAME, "-z", "noexecstack", "-o", shared, whole)
    installation.put(archive, ARCHIVE)
    installation.put(shared, SHARED)


def unproved_library(folder: Path) -> None:
    """Compiles it without proof, as `look` compiles the program."""
    texts = unproved.sources()
    top, exports = (Path("crates/library_c/src") / name for name in ("lib.rt", "exports.rt"))
    calls = CALL.findall(texts[exports].decode())
    main = MAIN.format(calls="".join(call_of(*found) for found in calls))
    texts[top.with_name("main.rt")] = texts.pop(top) + main.encode()
    texts[unproved.CRATE_LIST] = texts[unproved.CRATE_LIST].replace(b"library_c staticlib:", b"library_c:")
    unproved.lay(folder / "tree", texts)
    module, compiled, program = unproved.made_module(folder, CRATE.name), folder / "library.o", folder / "program.o"
    unproved.compile_quickly(unproved.kit(), module, program, "-ffunction-sections", "-fdata-sections")
    export(folder, program, compiled, [name for name, _ in calls])
    pack(folder, compiled, NOT_PROVED)


def export(folder: Path, program: Path, to: Path, names: List[str]) -> None:
    """Gives the calls of a program their names in C, and leaves out all that is not reached by them. Their arguments
    and answers are passed as in C."""
    run = partial(unproved.run, folder)
    renamed = [it for name in names for it in ("--redefine-sym", f"{CRATE.name}::exports::{name}={name}")]
    run("objcopy", *renamed, *(f"--globalize-symbol={name}" for name in names), program)
    run("ld", "-r", "--gc-sections", *(f"-u{name}" for name in names), "-o", to, program)
    run("objcopy", "--strip-unneeded", to)


def call_of(name: str, parameters: str) -> str:
    types = [it.partition(":")[2].strip() for it in parameters.split(",") if it.strip()]
    return f"    exports::{name}({', '.join(ARGUMENTS[it] for it in types)});\n"


def over_gate(folder: Path) -> None:
    """Proves the crate over the libraries that the gate built, and compiles it with all that it reaches of them."""
    kit, compiled, uses = unproved.kit(), folder / "liblibrary_c.a", unproved.crates_of(CRATE.name)
    words: List[unproved.Word] = [kit / "bin/rattle", "build", "--crate-name", CRATE.name, "src/lib.rt"]
    words += ["--crate-type", "staticlib"]
    for name in ["std", *uses[CRATE.name]]:
        words += ["--extern", f"{name}={rlib_of(name) if name in uses else kit / f'rlibs/{name}.rlib'}"]
    for folder_of in [*(rlib_of(name).parent for name in uses if name != CRATE.name), kit / "rlibs"]:
        words += ["-L", f"dependency={folder_of}"]
    words += ["--antt-project", kit / "rattle/logic/antt-project.json", "--logic-built", kit / "logic_built"]
    words += ["--links", f"{CRATE.name}=", "--jobs", "1", "--toolchain", kit / "toolchain", "--backend", "llvm"]
    unproved.run(folder, *words, "-o", compiled, at=CRATE)
    pack(folder, compiled, PROVED)


def rlib_of(crate: str) -> Path:
    return unproved.CRATES / crate / f"out/rlib/{crate}.rlib"


def is_of_gate(uses: Dict[str, List[str]]) -> bool:
    """Whether the gate built all libraries below it. Other checks stamp what they build."""
    below = [rlib_of(name) for name in uses if name != CRATE.name]
    return all(it.is_dir() and not it.with_name("stamp").exists() for it in below)


def main() -> None:
    make = over_gate if is_of_gate(unproved.crates_of(CRATE.name)) else unproved_library
    (CRATE / "out").mkdir(exist_ok=True)
    with tempfile.TemporaryDirectory(prefix="library-") as name:
        make(Path(name))
    print(ARCHIVE)


if __name__ == "__main__":
    with unproved.ending("library"):
        unproved.needs(["rt", "ld", "objcopy", "ar"])
        main()
