"""Tries tools/gx-check: what it says of refused scripts, and that it opens no data file.

Each case of REFUSED is the fourth line of a script, with the place at which it is refused, why, and
a part of the help. The places and reasons are those of `gx`, which errors.md has too; the help is
this repository's alone.
"""

import os
import re
import sys
import tempfile
from pathlib import Path

from checks.report import TOP, judge, run

CHECKER = TOP / "tools/gx-check"

FIRST = """vertices a from "a.csv" (name: text, country: text, score: int);
edges e from "e.csv" (w: int);
graph g = a, e default ("", "", 0);
"""

UNEXPECTED = "not expected here"
NO_TOKEN = "not a token"

REFUSED = [
    ('filter t = a where country == "NG";', "4:28", UNEXPECTED, "`v.country`"),
    ("filter t = a where v.country == NG;", "4:35", UNEXPECTED, 'a text its quotes, as "NG"'),
    ("mapedges h = g (w: w + 1);", "4:22", UNEXPECTED, "`edge.w`"),
    ("mapvalues t = a (name: name);", "4:28", UNEXPECTED, "`v.name`"),
    ('filter t = a where v.country = "NG";', "4:30", UNEXPECTED, "write `==`"),
    ('filter t = a where v.country <> "NG";', "4:31", UNEXPECTED, "write `!=`"),
    ("filter t = a where v.country == 'NG';", "4:33", NO_TOKEN, "double quotes"),
    ("filter t = a where v.name == “NG”;", "4:30", NO_TOKEN, "straight double quotes"),
    ("filter t = a where v.größe > 1;", "4:24", NO_TOKEN, "ASCII"),
    ("filter t = a where v.score > 1 AND v.score < 9;", "4:32", UNEXPECTED, "write `and`"),
    ("filter t = a where v.score > 1 OR v.score < 9;", "4:32", UNEXPECTED, "write `or`"),
    ("filter t = a where NOT v.score > 1;", "4:24", UNEXPECTED, "write `not`"),
    ("filter t = a where !(v.score > 1);", "4:20", NO_TOKEN, "write `not`"),
    ("filter t = a where v.score > 1 || v.score < 9;", "4:32", NO_TOKEN, "write `or`"),
    ("filter t = a where v.score > 1 && v.score < 9;", "4:32", NO_TOKEN, "write `and`"),
    ('filter t = a where v.country in ("NG");', "4:30", UNEXPECTED, "there is no `in`"),
    ("filter t = a where v.score between 1 and 2;", "4:28", UNEXPECTED, "no `between`"),
    ("filter t = a where v.score is null;", "4:28", UNEXPECTED, "there is no `is`"),
    ("-- people\nprint table a;", "4:1", UNEXPECTED, "a comment begins with #"),
    ("filter t = a where v.score > 1 -- good\n;", "5:1", UNEXPECTED, "a comment begins with #"),
    ("// people\nprint table a;", "4:1", UNEXPECTED, "a comment begins with #"),
    ("filter t = a where v.score > 900.5;", "4:33", UNEXPECTED, "whole numbers alone"),
    ("filter t = a where 1 < v.score < 9;", "4:32", UNEXPECTED, "do not chain"),
    ("filter t = a where (v.score > 1;", "4:32", UNEXPECTED, "a `)` is missing"),
    ("print a;", "4:7", UNEXPECTED, "write `table`"),
    ("select name from a;", "4:1", UNEXPECTED, "begins with `select`"),
    ("fitler t = a where v.score > 1;", "4:1", UNEXPECTED, "`filter` does"),
    ("filter t = a where v.score > 1\nprint table t;", "5:1", UNEXPECTED, "lacks its `;`"),
    ("print table a", "4:14", UNEXPECTED, "lacks its `;`"),
    ('vertices b from "b.csv" (name: string);', "4:32", UNEXPECTED, "write `text`"),
    ('vertices b from "b.csv" (name);', "4:30", UNEXPECTED, "`name: int`"),
    ('vertices b = "b.csv" (name: text);', "4:12", UNEXPECTED, "vertices T from"),
    ("mapvalues t = a (v.score);", "4:19", UNEXPECTED, "needs its name"),
    ("mapvalues t = a (n: v.score as n);", "4:29", UNEXPECTED, "stands before it"),
    ("mapvalues t = a (n = v.score);", "4:20", UNEXPECTED, "write `:`"),
    ("aggregate s = g send { to dst (1) } merge (n: sum);", "4:17", UNEXPECTED, "without `send`"),
    ("subgraph h = g edges true vertices true;", "4:27", UNEXPECTED, "subgraph H = G vertices"),
    ('filter t = a where v.name == "a\\d";', "4:30", "text not closed", "for a backslash"),
    ('filter t = a where v.name == "a;', "4:30", "text not closed", "on its line"),
    ('filter t = a where a.name == "b";', "4:20", "side not readable here", "`filter` are v"),
    ("mapvalues t = a (x: text(v.scor));", "4:26", "column unknown", "`score` is a column"),
    ("mapvalues t = a (x: upper(v.name));", "4:21", "function unknown", "concat"),
    ('mapvalues t = a (x: 1 + v.score * "2");', "4:33", "wrong kind", "text(v.n)"),
    ('filter t = a where v.name == "b" or "c";', "4:34", "wrong kind", "a whole comparison"),
    ("filter a = a where v.score > 1;", "4:8", "name taken", "another name"),
    ("print table aa;", "4:13", "name unknown", "`a` is known"),
    ("print table g;", "4:1", "wrong sort", "`g` is a graph"),
    ("mapvertices h = g (n: 1, id: v.id);", "4:26", "column name not allowed", "without it"),
    ('graph h = a, e default ("");', "4:1", "columns differ", "one entry for each column"),
]


def checked(folder, script):
    """The exit status and the output of the checker over a script."""
    file = folder / "s.gx"
    file.write_bytes(script if isinstance(script, bytes) else script.encode())
    ended = run([sys.executable, CHECKER, "s.gx"], folder)
    return ended.returncode, (ended.stdout + ended.stderr).decode()


def check_refused(folder):
    for statement, place, why, part in REFUSED:
        status, said = checked(folder, FIRST + statement + "\n")
        head, _, rest = said.partition("\n")
        is_right = status == 1 and re.fullmatch(rf"s\.gx:{place}: (statement 4: )?{why}", head)
        is_right = is_right and part in rest.rpartition("help: ")[2]
        judge(f"gx-check `{statement}`", None if is_right else f"{status}, said {said!r}")


def check_places(folder):
    """The line with its caret, with other line ends, a byte order mark, tabs and letters."""
    wanted = 's.gx:2:{}: not expected here\n{}\n{}^\nhelp: write `==` for equal\n'
    lines = 'vertices a from "a.csv" (x: int);{}{}filter t = a where v.x = 1;'
    plain = "filter t = a where v.x = 1;"
    cases = [
        (lines.format("\r\n", ""), wanted.format(24, plain, " " * 23)),
        ("\ufeff" + lines.format("\n", ""), wanted.format(24, plain, " " * 23)),
        (lines.format("\n", "\t"), wanted.format(25, "\t" + plain, "\t" + " " * 23)),
        (
            'vertices a from "ü.csv" (x: text);\nfilter t = a where v.x = "é";',
            wanted.format(24, 'filter t = a where v.x = "é";', " " * 23),
        ),
        (
            "\ufeffprint é;",
            "s.gx:1:7: not a token\nprint é;\n      ^\nhelp: names have letters of ASCII\n",
        ),
    ]
    for script, text in cases:
        said = checked(folder, script)
        judge(f"gx-check {script!r}", None if said == (1, text) else f"said {said}")


def check_right(folder):
    """Right scripts. Their data are absent here, or would stop whoever opens them."""
    os.mkfifo(folder / "pipe.csv")
    loads = "".join(f'vertices a{i} from "pipe.csv" ();\n' for i in range(1000))
    cases = {script.name: script.read_bytes() for script in TOP.glob("examples/*/*.gx")}
    cases |= {"1,000 statements": loads, "nothing": "", "a byte order mark": "\ufeff" + FIRST}
    cases |= {"other line ends": FIRST.replace("\n", "\r\n"), "a comment": "# nothing\n"}
    for name, script in cases.items():
        said = checked(folder, script)
        judge(f"gx-check, {name}", None if said == (0, "s.gx: right\n") else f"said {said}")


def check_others(folder):
    more = 'vertices b from "pipe.csv" ();'
    cases = [
        (b"\xff\xfep\0", (1, "s.gx:1:1: not UTF-8\n??p?\n^\nhelp: the script is not UTF-8")),
        (more * 1001, (3, "s.gx: limit: statements 1000\n")),
        (b"\n" * 1048577, (3, "s.gx: limit: script bytes 1048576\n")),
    ]
    for script, (status, begin) in cases:
        ended, said = checked(folder, script)
        is_right = ended == status and said.replace("\ufffd", "?").startswith(begin)
        judge(f"gx-check {script[:20]!r}", None if is_right else f"{ended}, said {said!r}")
    for words, status in (([], 2), (["s.gx", "t.gx"], 2), (["none.gx"], 4), (["."], 4)):
        ended = run([CHECKER, *words], folder).returncode
        judge(f"gx-check {words}", None if ended == status else f"status {ended}")


def check_scripts():
    with tempfile.TemporaryDirectory() as name:
        folder = Path(name)
        check_right(folder)
        check_refused(folder)
        check_places(folder)
        check_others(folder)
