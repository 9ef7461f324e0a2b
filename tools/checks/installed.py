"""Tries tools/install, the man page and the completions, with the programs of this machine."""

import os
import shutil
import tempfile
from pathlib import Path

from checks.report import TOP, judge, note, run

SHARE = TOP / "share"


def check_install():
    """Installs into a folder, runs what is there from another one, and removes it."""
    with tempfile.TemporaryDirectory() as name:
        prefix = Path(name) / "a prefix"
        (prefix / "bin").mkdir(parents=True)
        (prefix / "bin/other").write_text("not ours\n")
        for _ in range(2):
            ended = run([TOP / "tools/install", prefix])
            judge("tools/install", f"{ended.stderr!r}" if ended.returncode else None)
        env = {**os.environ, "PATH": f"{prefix}/bin:{os.environ['PATH']}"}
        team = TOP / "examples/team"
        ended = run(["gx", "run", "team.gx"], team, env=env)
        is_right = ended.stdout == (team / "team.out").read_bytes()
        judge("the installed gx", None if is_right else f"{ended.stderr!r}")
        ended = run(["gx-check", "team.gx"], team, env=env)
        is_right = ended.stdout == b"team.gx: right\n"
        judge("the installed gx-check", None if is_right else f"{ended.stderr!r}")
        run([TOP / "tools/install", "--remove", prefix])
        left = sorted(str(file.relative_to(prefix)) for file in prefix.rglob("*"))
        judge("tools/install --remove", f"left {left}" if left != ["bin", "bin/other"] else None)
    for words in (["-x"], ["a", "b"], ["--remove", "-x"], [""]):
        status = run([TOP / "tools/install", *words]).returncode
        judge(f"tools/install {words}", None if status == 1 else f"status {status}")


def check_man_page():
    if not shutil.which("man"):
        return note("the man page is not tried, as there is no man")
    page = SHARE / "man/man1/gx.1"
    env = {**os.environ, "MANROFFSEQ": "", "MANWIDTH": "80", "LC_ALL": "C.UTF-8"}
    ended = run(["man", "--warnings", "-E", "UTF-8", "-l", "-Tutf8", "-Z", page], env=env)
    problem = f"status {ended.returncode}, {ended.stderr!r}"
    judge("gx.1", problem if ended.returncode or ended.stderr else None)


TRY_BASH = """source "$FILE"
try() {
  COMP_WORDS=("$@"); COMP_CWORD=$(($# - 1)); COMPREPLY=()
  "_${1/-/_}"; echo "${COMPREPLY[*]}"
}
try gx ''; try gx run p; try gx run people.gx --; try gx run --parts ''; try gx run --cut r
try gx run --cut 1d people.gx --; try gx-check ''; try gx-check people.gx ''
"""

TRY_ZSH = """compadd() { print compadd "$@" }
_arguments() { print arguments ${(F)@%%\\[*} }
try() { words=("$@"); CURRENT=$#; service=$1; source "$FILE" }
try gx ''; try gx run ''; try gx-check ''; try gx walk ''
"""

BASH_SAID = """run
people.gx
--parts --cut --workers
1 2 4 8 16 32 64
random rows
--parts --workers
people.gx

"""

ZSH_SAID = """compadd run
arguments 1:script:_files -g "*.gx"
--parts
--cut
--workers
arguments 1:script:_files -g "*.gx"
"""


def check_completions():
    for shell, words, file, wanted in (
        ("bash", ["--norc", "-c", TRY_BASH], "gx.bash", BASH_SAID),
        ("zsh", ["-f", "-c", TRY_ZSH], "_gx", ZSH_SAID),
    ):
        if not shutil.which(shell):
            note(f"the completions of {shell} are not tried, as there is no {shell}")
            continue
        env = {**os.environ, "FILE": SHARE / "completions" / file}
        ended = run([shell, *words], TOP / "examples/people", env=env)
        is_right = ended.stdout.decode() == wanted and not ended.stderr
        said = f"said {ended.stdout.decode()!r}, {ended.stderr!r}"
        judge(f"completions of {shell}", None if is_right else said)


def check_installed():
    check_install()
    check_man_page()
    check_completions()
