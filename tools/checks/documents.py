"""Checks that the documents are whole, and that sources are documented.

Each crate has a README.md, each link of a document leads to a file or a heading, each path that
HACKING.md names exists, and each module and public item of the sources has a comment that says what
it is.
"""

import re

from checks.report import TOP, judge

DOCUMENTS = sorted([*TOP.glob("*.md"), *TOP.glob("docs/*.md"), *TOP.glob("crates/*/README.md")])


def check_readmes():
    for folder in sorted(it.parent for it in TOP.glob("crates/*/src")):
        there = (folder / "README.md").exists()
        judge(f"{folder.relative_to(TOP)}/README.md", None if there else "is missing")


def anchors_of(page):
    """The anchors of the headings of a page, as a forge makes them."""
    headings = re.findall(r"^#+ (.+)$", page.read_text(), re.M)
    plain = (re.sub(r"\[([^]]*)\]\([^)]*\)", r"\1", heading).lower() for heading in headings)
    return {re.sub(r"[^\w\- ]", "", heading).strip().replace(" ", "-") for heading in plain}


def check_links():
    for document in DOCUMENTS:
        for target in re.findall(r"\]\(([^)\s]+)\)", document.read_text()):
            if "://" in target:
                continue
            file, _, anchor = target.partition("#")
            page = document.parent / file if file else document
            problem = None if page.exists() else "leads nowhere"
            if anchor and page.suffix == ".md" and page.exists():
                problem = None if anchor in anchors_of(page) else "names no heading"
            judge(f"{document.relative_to(TOP)}, link {target}", problem)


PATH = re.compile(r"`((?:gx_\w+|src|specs|proofs|must-fail|docs|tools|examples|bench)/[^`\s]*)`")
IN_CRATE = ("src", "specs", "proofs", "must-fail")
PLACEHOLDER = re.compile(r"[A-Z]{4,}|[*{]")


def check_paths():
    """Each path in backticks of HACKING.md exists.

    A path from `src/`, `specs/`, `proofs/` or `must-fail/` is one of the crate that its line names
    before it. A path with a word in capitals, as NAME, stands for many, and is not looked up.
    """
    for line in (TOP / "HACKING.md").read_text().splitlines():
        crate = None
        for path in PATH.findall(line):
            first = path.split("/")[0]
            folder = TOP
            if first.startswith("gx_"):
                crate, folder = first, TOP / "crates"
            elif first in IN_CRATE and crate:
                folder = TOP / "crates" / crate
            if PLACEHOLDER.search(path) or (first in IN_CRATE and crate is None):
                continue
            judge(f"HACKING.md, path {path}", None if (folder / path).exists() else "is not there")


ITEM = re.compile(r"\s*pub (?:const fn|fn|struct|enum|trait|const|static|type)\b|\s*pub \w+:")


def undocumented(lines):
    """The numbers of the lines that begin a public item with no `///` above it."""
    found = []
    for number, line in enumerate(lines):
        if not ITEM.match(line):
            continue
        above = number - 1
        while above >= 0 and lines[above].strip().startswith("#["):
            above -= 1
        if above < 0 or not lines[above].strip().startswith("///"):
            found.append(number + 1)
    return found


def check_sources():
    for source in sorted(TOP.glob("crates/*/src/**/*.rt")):
        lines = source.read_text().splitlines()
        name = source.relative_to(TOP)
        has_head = lines[0].startswith("//! ")
        judge(f"{name}, module documentation", None if has_head else "no `//!` at its head")
        missing = undocumented(lines)
        judge(f"{name}, public items", f"no `///` at lines {missing}" if missing else None)
