"""Tries the program that `./gx` runs.

Every example prints what its `.out` file says, every console block of README.md and docs/ prints
what it shows, and bad input ends with its status and its line on the error output.
"""

import re
import shutil
import subprocess
import tempfile
from pathlib import Path

from checks.report import GX, TOP, as_nobody, judge, output_of, run


def check_start():
    """Returns whether there is a program to try. It is built first if dist/ does not have it."""
    ended = run([GX, "run", "none.gx"])
    problem = f"`./gx run none.gx` ended with status {ended.returncode} for 4, {ended.stderr!r}"
    judge("the program", None if ended.returncode == 4 else problem)
    return ended.returncode == 4


def check_examples():
    for script in sorted(TOP.glob("examples/*/*.gx")):
        wanted = script.with_suffix(".out").read_bytes()
        ended = run([GX, "run", script.name], script.parent)
        problem = None
        if ended.returncode != 0:
            problem = f"status {ended.returncode}"
        elif ended.stdout != wanted:
            problem = f"printed {ended.stdout!r}"
        judge(f"example {script.relative_to(TOP)}", problem)


def check_console_blocks():
    """Runs each `$` line of a console block at the top and compares what follows it."""
    for document in (TOP / "README.md", *sorted((TOP / "docs").glob("*.md"))):
        for number, command, wanted in console_steps(document):
            printed = printed_by(command)
            problem = None if printed == wanted else f"printed {printed!r}"
            judge(f"{document.name}, console block {number}, `{command}`", problem)


def check_partitions():
    """Runs the examples, and the sessions of docs/worked.md that name no partitions of their own,
    under each cut with 1, 2 and 64 partitions and several numbers of workers. What is printed,
    and the line of a refusal, stay the same."""
    options = [
        f"--parts {parts} --cut {cut} --workers {workers}"
        for cut in ("1d", "2d", "random", "canonical", "rows")
        for parts, workers in ((1, 3), (2, 2), (64, 1))
    ]
    for script in sorted(TOP.glob("examples/*/*.gx")):
        wanted = script.with_suffix(".out").read_bytes()
        differing = [
            words
            for words in options
            if run([GX, "run", script.name, *words.split()], script.parent).stdout != wanted
        ]
        problem = f"other output with {differing}" if differing else None
        judge(f"example {script.relative_to(TOP)} in partitions", problem)
    for number, command, wanted in console_steps(TOP / "docs/worked.md"):
        if "gx run " in command and "--" not in command:
            differing = [
                words
                for words in options
                if printed_by(command.replace("gx run ", f"gx run {words} ")) != wanted
            ]
            problem = f"other output with {differing}" if differing else None
            judge(f"worked.md, console block {number}, `{command}` in partitions", problem)


def console_steps(document):
    """Gives the number of the block, the command and what follows it, for each `$` line."""
    blocks = re.findall(r"^```console\n(.*?)^```", document.read_text(), re.S | re.M)
    for number, block in enumerate(blocks, 1):
        for step in re.split(r"^\$ ", block, flags=re.M)[1:]:
            command, _, wanted = step.partition("\n")
            yield number, command, wanted


def printed_by(command):
    ended = run(["bash", "-c", "exec 2>&1\n" + command])
    return ended.stdout.decode(errors="replace")


def check_bad_input():
    """Each case has the arguments, the status of the run, and how its one line of errors begins."""
    with tempfile.TemporaryDirectory() as folder:
        here = Path(folder)
        here.chmod(0o755)
        (here / "ages.csv").write_text("id,age\n1,2\n")
        (here / "s.gx").write_text('vertices a from "ages.csv" (age: int); print table a;')
        (here / "absent.gx").write_text('vertices a from "none.csv" (age: int); print table a;')
        (here / "folder.gx").write_text('vertices a from "." (age: int); print table a;')
        (here / "nameless.gx").write_text('vertices a from "" (age: int); print table a;')
        noise = bytes((i * 167 + i // 251 * 89) % 256 for i in range(5000))
        (here / "random.gx").write_bytes(noise)
        (here / "zero.gx").write_bytes(b'vertices a from "a\0b" (age: int); print table a;')
        (here / "text.gx").write_bytes(b'vertices a from "\xff" (age: int); print table a;')
        (here / "empty.gx").write_bytes(b"")
        cases = [
            ([], 2, "usage: gx run SCRIPT "),
            (["run"], 2, "usage: "),
            (["show", "s.gx"], 2, "usage: "),
            (["run", "s.gx", "--parts"], 2, "usage: "),
            (["run", "s.gx", "--parts", "0"], 2, "usage: "),
            (["run", "s.gx", "--parts", "65"], 2, "usage: "),
            (["run", "s.gx", "--parts", "1", "--parts", "2"], 2, "usage: "),
            (["run", "s.gx", "--cut", "3d"], 2, "usage: "),
            (["run", "s.gx", "--workers", "+1"], 2, "usage: "),
            (["run", "s.gx", "--report"], 2, "usage: "),
            (["run", "s.gx", "t.gx"], 2, "usage: "),
            (["run", "-s.gx"], 2, "usage: "),
            (["run", "none.gx", "--workers", "64", "--parts", "064"], 4, "source: none.gx\n"),
            ([b"run", b"\xff\xfe"], 2, "usage: "),
            (["run", "none.gx"], 4, "source: none.gx\n"),
            (["run", "."], 4, "source: .\n"),
            (["run", ""], 4, "source: \n"),
            (["run", "absent.gx"], 4, "source: none.csv\n"),
            (["run", "folder.gx"], 4, "source: .\n"),
            (["run", "nameless.gx"], 4, "source: \n"),
            (["run", "zero.gx"], 4, "source: a\0b\n"),
            (["run", "random.gx"], 1, "script: byte "),
            (["run", "text.gx"], 1, "script: byte 17: not UTF-8\n"),
            (["run", "empty.gx"], 0, ""),
        ]
        for words, status, line in cases:
            ended = run([GX, *words], here)
            error = ended.stderr.decode()
            problem = None
            if ended.returncode != status:
                problem = f"status {ended.returncode} for {status}"
            elif ended.stdout:
                problem = f"printed {ended.stdout!r}"
            elif not error.startswith(line) or error.count("\n") != (1 if line else 0):
                problem = f"told {error!r} for {line!r}"
            judge(f"bad input {words}", problem)

        with open("/dev/full", "wb") as full:
            streams = {"stdout": full, "stderr": subprocess.PIPE}
            ended = subprocess.run([GX, "run", "s.gx"], cwd=here, **streams)
        end = (ended.returncode, ended.stderr)
        judge("output to a full device", None if end == (5, b"sink\n") else f"ended with {end}")

        (here / "s.gx").chmod(0)
        program = shutil.copy(output_of("tools/program"), here / "gx")
        status = run([*as_nobody(), program, "run", "s.gx"], here).returncode
        judge("a script that may not be read", None if status == 4 else f"status {status}")
