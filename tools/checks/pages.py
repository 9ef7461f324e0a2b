"""Checks what the pages of docs/ say beside their console blocks.

- language.md: the table of all statements has each statement once. A block ```gx goes on from the
  first one of the page, which is a right script, and is refused as `not built` and for nothing
  else: a statement that runs has a session instead. The statements of these blocks, and no others,
  are said to run not yet; each other one begins a line of a script in examples/statements.
- from-sql.md: the first cell of each row of its table of habits is refused for the reason in the
  second cell, and the third is right. The second cell of each row of its table of queries is right
  too. All go on from the block ```gx of that page.
- cluster.md: each picture is the one that tools/log-svg draws of the section that it stands in.
"""

import re
import subprocess

from checks.report import GX, TOP, judge, run
from script_check.reading import statements_of, tokens_of, without_data
from script_check.slips import SPELLINGS


def said_of(script):
    """The line that gx has for a script whose first file is absent; nothing if it is right."""
    data = script.encode()
    data = without_data(data, statements_of(tokens_of(data)))
    ended = subprocess.run([GX, "run", "/dev/stdin"], input=data, capture_output=True, cwd=TOP)
    line = ended.stderr.decode().strip()
    return "" if line == "source:" else line


def blocks_of(text):
    return re.findall(r"^```gx\n(.*?)^```", text, re.S | re.M)


def words_of(script):
    """The first words of the statements of a script; of an action also the second."""
    found = set()
    for words in statements_of(tokens_of(script.encode())):
        if words:
            is_action = words[0].text in ("print", "count")
            found.add(" ".join(it.text for it in words[: 2 if is_action else 1]))
    return found


def cells_of(line):
    return [it.strip().replace("\\|", "|") for it in re.split(r"(?<!\\)\|", line)[1:-1]]


def table_of(text, head):
    """The cells of the rows under a head."""
    rows = text.partition(head + "\n")[2].partition("\n\n")[0].split("\n")[1:]
    return [cells_of(row) for row in rows]


def check_language():
    text = (TOP / "docs/language.md").read_text()
    first, *planned = blocks_of(text)
    judge("language.md, the first block of gx", said_of(first))
    for block in planned:
        said = said_of(first + block)
        is_planned = re.fullmatch(r"script: statement \d+: not built", said)
        judge(f"language.md, `{block.split(' = ')[0]}`", None if is_planned else f"`{said}`")
    rows = table_of(text, "| statement | makes | |")
    runs, later = set(), set()
    for spelling, _, state in rows:
        named = {words for part in re.findall(r"`([^`]+)`", spelling) for words in words_of(part)}
        (later if state == "not yet" else runs).update(named)
    missing = set(SPELLINGS) - {words.split()[0] for words in runs | later}
    judge("language.md, table of all statements", f"has no {missing}" if missing else None)
    scripts = [file.read_text() for file in TOP.glob("examples/statements/*.gx")]
    shown = set().union(*map(words_of, scripts))
    absent = runs - shown
    judge("language.md, statements that run", f"no script has {absent}" if absent else None)
    other = (set().union(*map(words_of, planned)) - runs) ^ later
    judge("language.md, statements that do not run", f"not both: {other}" if other else None)


def check_habits():
    text = (TOP / "docs/from-sql.md").read_text()
    [first] = blocks_of(text)
    judge("from-sql.md, the block of gx", said_of(first))
    for habit, reason, instead in table_of(text, "| habit | refused as | write |"):
        wrong, reason, right = (cell.strip("`") for cell in (habit, reason, instead))
        said = said_of(first + wrong)
        is_refused = said.startswith("script: ") and said.endswith(reason)
        judge(f"from-sql.md, `{wrong}`", None if is_refused else f"refused as `{said}`")
        judge(f"from-sql.md, `{right}`", said_of(first + right))


def check_queries():
    text = (TOP / "docs/from-sql.md").read_text()
    [first] = blocks_of(text)
    for _, instead in table_of(text, "| query | write |"):
        judge(f"from-sql.md, {instead}", said_of(first + instead.strip("`")))


def check_pictures():
    page = TOP / "docs/cluster.md"
    heading = ""
    for line in page.read_text().splitlines():
        heading = line.lstrip("# ") if line.startswith("#") else heading
        for name in re.findall(r"^!\[.+\]\((.+\.svg)\)$", line):
            drawn = run([TOP / "tools/log-svg", page, heading]).stdout
            is_drawn = drawn == (page.parent / name).read_bytes()
            judge(f"cluster.md, {name}", None if is_drawn else "is not what tools/log-svg draws")


def check_pages():
    check_language()
    check_habits()
    check_queries()
    check_pictures()
