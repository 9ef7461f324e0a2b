"""Checks dist/, the built program that the repository carries, and the launcher that chooses it.

dist/gx must be of these sources and, under the toolchain that built it, have the bytes of the
program that the gate or the launcher built here. Another toolchain may write other bytes: that is a
note, and not a failure.
"""

import shutil
import subprocess
import tempfile
from pathlib import Path

from checks.report import TOP, as_nobody, judge, note, output_of, run

DIST = TOP / "dist"
REFRESH = "run .ci/run and then tools/release"


def recorded(name):
    file = DIST / name
    return file.read_text().strip() if file.exists() else "nothing"


def difference():
    """Why dist/gx is not the program that is built here, if it can be compared."""
    if not shutil.which("rt"):
        return note("dist/gx is not compared with a build, as rt is not on the PATH")
    toolchain = output_of("rt", "version")
    if toolchain != recorded("toolchain"):
        return note(f"dist/gx was built by {recorded('toolchain')} and not {toolchain}: {REFRESH}")
    built = output_of("tools/program", "built")
    if not built:
        return "there is no build to compare it with"
    if Path(built).read_bytes() == (DIST / "gx").read_bytes():
        return None
    return f"other bytes than {built}, of the same toolchain and sources: {REFRESH}"


def check_dist():
    """Returns whether dist/gx is of these sources and for this kind of machine."""
    is_whole = (DIST / "gx").exists()
    is_current = is_whole and recorded("sources.sha256") == output_of("tools/sources")
    problem = None if is_current else f"dist/gx is not of these sources: {REFRESH}"
    judge("dist/sources.sha256", problem)
    if recorded("machine") != output_of("uname", "-sm"):
        note(f"dist/gx is not compared with a build, as it is for {recorded('machine')}")
        return False
    if is_current:
        judge("dist/gx", difference())
    return is_current


def bare_clone(here):
    """Copies what the launcher needs, and gives it the commands that it may use, but not rt."""
    clone, commands = here / "clone", here / "commands"
    for name in ("tools", "dist", "examples"):
        shutil.copytree(TOP / name, clone / name)
    for sources in TOP.glob("crates/*/src"):
        shutil.copytree(sources, clone / sources.relative_to(TOP))
    for name in ("gx", "crates.txt"):
        shutil.copy2(TOP / name, clone / name)
    commands.mkdir()
    for name in ("bash", "dirname", "find", "mkdir", "readlink", "sha256sum", "sort", "uname"):
        (commands / name).symlink_to(shutil.which(name))
    (here / "link").symlink_to("clone/gx")
    here.chmod(0o755)
    return clone, {"PATH": str(commands)}


def check_launcher():
    """Runs `./gx` with no toolchain, through a link and in a clone that it may not write to."""
    with tempfile.TemporaryDirectory() as folder:
        clone, env = bare_clone(Path(folder))
        script = min(clone.glob("examples/*/*.gx"))
        command = [*as_nobody(), "../../../link", "run", script.name]

        for name in (".main.rt.swp", "main.rt~", ".#main.rt", "4913"):
            (clone / "crates/gx/src" / name).write_text("what an editor leaves\n")
        ended = run(command, script.parent, env=env)
        is_right = ended.stdout == script.with_suffix(".out").read_bytes() and not ended.returncode
        said = f"status {ended.returncode}, {ended.stderr!r}"
        judge("launcher with no toolchain", None if is_right else said)

        change_source(clone)
        ended = run(command, script.parent, env=env)
        is_right = b"put the toolchain's rt on the PATH" in ended.stderr and ended.returncode == 70
        said = f"status {ended.returncode}, {ended.stderr!r}"
        judge("launcher with no toolchain and a changed source", None if is_right else said)


def change_source(clone):
    with open(clone / "crates/gx/src/main.rt", "a") as source:
        source.write("\n")


# Stands for the toolchain: it takes a second, leaves a program, and notes each build.
RT = """#!/usr/bin/env bash
[ "$1" = version ] && echo "a toolchain" && exit
echo "$PWD" >>../../builds
sleep 1
cp ../../dist/gx out/gx
exit 2
"""


def check_lock():
    """Calls `./gx` three times at once after a change, with a stand-in for the toolchain."""
    with tempfile.TemporaryDirectory() as folder:
        clone, env = bare_clone(Path(folder))
        commands = Path(env["PATH"])
        for name in ("cp", "env", "flock", "rm", "sleep", "tail"):
            if not shutil.which(name):
                return note(f"calls at once are not tried, as there is no {name}")
            (commands / name).symlink_to(shutil.which(name))
        (commands / "rt").write_text(RT)
        (commands / "rt").chmod(0o755)
        change_source(clone)
        script = min(clone.glob("examples/*/*.gx"))
        command = [clone / "gx", "run", script.name]
        streams = {"stdout": subprocess.PIPE, "stderr": subprocess.PIPE}
        calls = [subprocess.Popen(command, cwd=script.parent, env=env, **streams) for _ in range(3)]
        wanted = script.with_suffix(".out").read_bytes()
        told = b""
        for call in calls:
            out, err = call.communicate()
            told += err
            is_right = out == wanted and call.returncode == 0
            said = f"status {call.returncode}, {err!r}"
            judge("launcher, several calls at once", None if is_right else said)
        names_log = told.count(b"out/build.log shows how far it is") == 1
        judge("the launcher names its log", None if names_log else f"said {told!r}")
        builds = (clone / "builds").read_text().count("\n")
        judge("builds of several calls at once", None if builds == 1 else f"{builds} builds")


def check_line_ends():
    """A clone whose git writes the line ends of Windows has the bytes of this repository."""
    if not shutil.which("git") or not (TOP / ".git").exists():
        return note("a clone with other line ends is not tried, as there is no repository")
    with tempfile.TemporaryDirectory() as folder:
        clone = Path(folder) / "clone"
        words = ["-c", "core.autocrlf=true", "-c", "core.eol=crlf", "clone", "-q", TOP, clone]
        ended = run(["git", *words])
        is_right = ended.returncode == 0 and b"\r" not in (clone / "gx").read_bytes()
        judge("a clone with other line ends", None if is_right else f"{ended.stderr!r}")
