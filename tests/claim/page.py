"""The page docs/statement.md, and the book of all text in its order."""
from __future__ import annotations

import hashlib
import re

from claim.claim import PROMISES, Claim, Part
from claim.house import Contract, reach
from claim.sources import Definition, without_comments

BEGINNING = """\
# The claim, in reading order

For reviewers: what the theorem says, and which files to read for it, in which order. Written by `tests/statement --write`; \
the gate refuses another text.
"""


def checksum(definitions: list[Definition]) -> str:
    """Of the text of definitions, without comments and layout."""
    words = " ".join(" ".join(without_comments(it.text).split()) for it in definitions)
    return hashlib.sha256(words.encode()).hexdigest()[:8]


def lines_of(definitions: list[Definition]) -> int:
    return sum(it.lines for it in definitions)


def anchor(number: int, title: str) -> str:
    return f"{number}-" + re.sub(r"[^\w\- ]", "", title.lower()).replace(" ", "-")


def statement_page(claim: Claim) -> str:
    parts = [BEGINNING, _counts(claim), _contracts(claim), _promises(claim), _chapters(claim), _outside(claim)]
    return "\n".join(parts)


def _counts(claim: Claim) -> str:
    made = claim.definitions
    files = len({it.at for it in made})
    wordless = sum(1 for it in made if not it.english)
    return (
        f"What `run` and the laws promise rests on {len(made):,} definitions, {lines_of(made):,} lines, in {files} files, "
        f"and on {len(claim.types)} types and numbers of the code. Who reads these files in this order meets each word before "
        "what is said with it. A file may have other definitions too: no promise rests on those. "
        "A sum changes exactly when a definition of its file that the claim rests on does. "
        f"{wordless} definitions have no line of English.\n"
    )


def _table(*heads: str) -> list[str]:
    return ["| " + " | ".join(heads) + " |", "|" + "---|" * len(heads)]


def _contracts(claim: Claim) -> str:
    out = ["## The contracts", "", f"The theorem is the contract of {claim.run.link}. The laws beside it:", ""]
    out += _table("Law", "What it says")
    out += [f"| {it.link} of `{it.crate}` | {it.english} |" for it in claim.laws]
    out += ["", "`run` is proved over whatever does as these traits say:", "", *_table("Trait", "What it is")]
    out += [f"| {it.link} | {it.english.split('. ')[0]} |" for it in claim.traits]
    return "\n".join(out) + "\n"


def _promises(claim: Claim) -> str:
    out = ["## One promise by itself", "", *_table("To judge", "Read behind it", "Lines")]
    for what, places in PROMISES:
        roots = [claim.house.by_path[crate, module, name] for crate, module, name in (it.split(".") for it in places)]
        reached = [it for it in reach(roots) if isinstance(it, Definition)]
        shown = ", ".join(f"[`{it.name}`](../{it.at})" for it in roots)
        out.append(f"| {what} | {shown}, {len(reached):,} definitions | {lines_of(reached):,} |")
    return "\n".join(out) + "\n"


def _row_of(part: Part) -> str:
    module, inside = part.module, part.definitions
    file = f"../crates/{module.crate}/specs/{module.name.replace('.', '/')}.antt"
    return f"| [`{module.crate}`: {module.name}]({file}) | {module.head} | {len(inside)} | {lines_of(inside)} | {checksum(inside)} |"


def _chapters(claim: Claim) -> str:
    out = ["## The chapters", "", *_table("Chapter", "Definitions", "Lines", "Of them for `run`")]
    for number, (chapter, parts) in enumerate(claim.chapters, 1):
        inside = [it for part in parts for it in part.definitions]
        link = f"[{number}. {chapter.title}](#{anchor(number, chapter.title)})"
        of_run = lines_of([it for it in inside if it in claim.of_run])
        out.append(f"| {link} | {len(inside)} | {lines_of(inside)} | {of_run} |")
    for number, (chapter, parts) in enumerate(claim.chapters, 1):
        out += ["", f"## {number}. {chapter.title}", "", chapter.about, ""]
        out += _table("File", "About", "Definitions", "Lines", "Sum")
        out += [_row_of(part) for part in parts]
    return "\n".join(out) + "\n"


def _outside(claim: Claim) -> str:
    outside: dict[str, set[str]] = {}
    for path, name in (it for one in claim.definitions for it in one.outside):
        outside.setdefault(path.split(".")[0], set()).add(name)
    out = ["## What others define", "", "These words are the toolchain's and its ported crates', which are trusted:", ""]
    out += _table("Library", "Words")
    for crate in sorted(outside, key=lambda it: (it != "std", it)):
        words = sorted(outside[crate])
        shown = f"{len(words)} words of lists, numbers, options" if crate == "std" else ", ".join(f"`{it}`" for it in words)
        out.append(f"| `{crate}` | {shown} |")
    return "\n".join(out) + "\n"


def _with_text(contract: Contract) -> list[str]:
    return [f"### {contract.link}", "", contract.english, "", "```", contract.text.strip("\n"), "```", ""]


def book(claim: Claim) -> str:
    """All text of the claim, to be read on paper."""
    out = ["# The claim of this repository, with its text", "", "## The contract of `run`", "", *_with_text(claim.run)]
    for number, (chapter, parts) in enumerate(claim.chapters, 1):
        out += [f"# {number}. {chapter.title}", "", chapter.about, ""]
        for part in parts:
            out += [f"## {part.module.crate}: {part.module.name}", "", part.module.head, ""]
            for it in part.definitions:
                name = it.name.replace(" ", "`, `") if it.kind == "block" else it.name.strip("◌")
                said = f": {it.english}" if it.english else ""
                out += [f"**`{name}`** ([{it.module}.antt:{it.line}](../{it.at}#L{it.line})){said}", "", "```", it.text, "```", ""]
    out += ["# The laws", ""]
    return "\n".join(out + [line for it in claim.laws for line in _with_text(it)])
