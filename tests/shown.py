"""Blocks of the pages that show commands with what they print.

    for block in blocks_of(page):
        if block.is_shown:
            expect_printed(block, typed)            typed(command) gives what the command prints

Below each command, which begins with `$ `, stands all that it prints. A line `...` stands for any lines.

    expect_score(page, program, folder)

does so of the commands of `score`, in a folder where the others were run."""

from __future__ import annotations

import re
from dataclasses import dataclass
from pathlib import Path
from typing import Callable, Iterator

from outside import Word, expect, run

BLOCK = re.compile(r"^```(\w*)\n(.*?)^```$", re.M | re.S)


@dataclass(frozen=True)
class Block:
    """A block of a page, the line that it begins at, and the heading above it."""

    language: str
    text: str
    line: int
    heading: str

    @property
    def is_shown(self) -> bool:
        """Whether it shows what its commands print."""
        return self.text.startswith("$ ")


def blocks_of(page: Path) -> Iterator[Block]:
    text = page.read_text(encoding="utf-8")
    for it in BLOCK.finditer(text):
        before = BLOCK.sub("", text[: it.start()])
        heading = re.findall(r"^#+ (.*)", before, re.M)[-1]
        yield Block(it[1], it[2], text.count("\n", 0, it.start()) + 1, heading)


def expect_printed(block: Block, typed: Callable[[str], str]) -> None:
    """Each command of the block prints what stands below it."""
    for part in re.split(r"^\$ ", block.text, flags=re.M)[1:]:
        command, _, due = part.partition("\n")
        printed = typed(command)
        pattern = re.escape(due.rstrip("\n")).replace(r"\.\.\.", ".*")
        if not re.fullmatch(pattern, printed.rstrip("\n"), re.S):
            expect(printed.rstrip("\n"), due.rstrip("\n"), f"line {block.line}: {command}")


def expect_score(page: Path, program: Path, folder: Path) -> None:
    """The page shows what `score` prints in the folder. Other commands are not run."""

    def typed(command: str) -> str:
        if not command.startswith("score "):
            return ""
        words: list[Word] = ["bash", "-c", f'score() {{ "$SCORE" "$@"; }}\n{command}']
        return run(words, cwd=folder, env={"SCORE": str(program)}, status=None).stdout

    for block in filter(lambda it: it.is_shown, blocks_of(page)):
        expect_printed(block, typed)
