"""Makes and checks the maps of the crates: docs/crates.md, README.md and docs/architecture.md.

crates.txt gives the groups and their crates: a line `# NAME: SENTENCE` begins a group, and its
crates follow, each with what it depends on. What is proved of a crate is the paragraph of its
README.md that begins with `**In short:**`. Of both,

- docs/crates.md has, between the lines `<!-- map -->` and `<!-- end of map -->`, a row for each
  group and for each crate, and README.md a row for each group. tools/crate-map writes them;
- docs/architecture.md has there, by hand, a line that starts with `**NAME**` for each group; its
  crates are those named in backticks in it and in the lines up to the next group.

No crate cites the proofs of another: what the crates above cite stands in specs/.
"""

import re

from checks.report import TOP, judge

MARKED = re.compile(r"^<!-- map -->\n(.*?)^<!-- end of map -->$", re.S | re.M)
REMEDY = "run tools/crate-map"


class Group:
    """A group of crates, each with what it depends on, in the order of crates.txt."""

    def __init__(self, name, sentence):
        self.name, self.sentence, self.crates = name, sentence, {}


def groups_of(text):
    """The groups of crates.txt. Words may follow a crate's name, as in `NAME staticlib: DEP`."""
    groups, seen = [], set()
    for line in text.splitlines():
        if group := re.match(r"# ([a-z]+): (\S.*)", line):
            groups.append(Group(group[1], group[2]))
            continue
        crate, colon, depends = line.partition("#")[0].partition(":")
        if not colon:
            continue
        name = crate.split()[0]
        if not groups or name in seen:
            raise ValueError(f"{name} is in no group, or named twice")
        seen.add(name)
        groups[-1].crates[name] = depends.split()
    return groups


def sentence_of(crate):
    """What is proved of a crate, as its README.md says."""
    page = TOP / "crates" / crate / "README.md"
    found = re.search(r"^\*\*In short:\*\* (.+?)\.?\n\n", page.read_text(), re.S | re.M)
    if not found:
        raise ValueError(f"{page.relative_to(TOP)} has no paragraph **In short:**")
    return " ".join(found[1].split()).replace("|", "\\|")


def named(crates):
    return ", ".join(f"`{crate}`" for crate in crates)


def table_of_crates(groups):
    """The map of docs/crates.md."""
    lines = ["| crate | proved, by which contract | depends on |", "|---|---|---|"]
    for group in groups:
        lines.append(f"| **{group.name}** | {group.sentence} | |")
        for crate, depends in group.crates.items():
            link = f"[`{crate}`](../crates/{crate}/README.md)"
            last = f" {named(depends)}" if depends else ""
            lines.append(f"| {link} | {sentence_of(crate)} |{last} |")
    return "\n".join(lines) + "\n"


def table_of_groups(groups):
    """The map of README.md."""
    lines = ["| group | has | crates |", "|---|---|---|"]
    for group in groups:
        lines.append(f"| **{group.name}** | {group.sentence} | {named(group.crates)} |")
    return "\n".join(lines) + "\n"


MADE = {"docs/crates.md": table_of_crates, "README.md": table_of_groups}


def with_map(text, table):
    """A document with this table between its marks."""
    if len(MARKED.findall(text)) != 1:
        raise ValueError("no part between one line <!-- map --> and one line <!-- end of map -->")
    return MARKED.sub(lambda _: f"<!-- map -->\n{table}<!-- end of map -->", text)


def write_maps():
    groups = groups_of((TOP / "crates.txt").read_text())
    for name, table in MADE.items():
        page = TOP / name
        page.write_text(with_map(page.read_text(), table(groups)))


def layers_of(text, crates):
    """The groups of docs/architecture.md with their crates, by what may be the name of one."""
    found = {}
    for line in MARKED.search(text)[1].splitlines():
        if group := re.match(r"\*\*(\w+)\*\*", line):
            found[group[1]] = []
        for name in re.findall(r"`(\w+)`", line):
            if name in crates or name.startswith("gx_"):
                found[list(found)[-1]].append(name)
    return found


def other_layers(groups):
    """The first group of docs/architecture.md that is not as in crates.txt, if there is one."""
    text = (TOP / "docs/architecture.md").read_text()
    found = layers_of(text, {crate for group in groups for crate in group.crates})
    wanted = {group.name: list(group.crates) for group in groups}
    for here, there in zip([*found.items(), None], [*wanted.items(), None]):
        if here != there:
            return f"has {here}, and crates.txt has {there}"
    return None


def check_map():
    try:
        groups = groups_of((TOP / "crates.txt").read_text())
        for name, table in MADE.items():
            text = (TOP / name).read_text()
            is_made = text == with_map(text, table(groups))
            judge(f"{name}, map of the crates", None if is_made else f"is another: {REMEDY}")
        judge("docs/architecture.md, map of the crates", other_layers(groups))
    except ValueError as error:
        judge("map of the crates", str(error))


OF_PROOFS = re.compile(r"Rattle\.(\w+)\.proofs\b")


def check_citations():
    """Of each crate, the files that cite the proofs of another crate."""
    for folder in sorted(it.parent for it in TOP.glob("crates/*/src")):
        found = []
        for kind in ("src", "specs", "proofs"):
            for file in sorted(folder.glob(f"{kind}/**/*.*t")):
                others = {it for it in OF_PROOFS.findall(file.read_text()) if it.startswith("gx")}
                if others - {folder.name}:
                    found.append(str(file.relative_to(folder)))
        problem = f"cited in {', '.join(found)}" if found else None
        judge(f"{folder.relative_to(TOP)}, proofs of other crates", problem)
