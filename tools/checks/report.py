"""Counts the checks, and has what all of them use."""

import os
import shutil
import subprocess
import sys
from pathlib import Path

TOP = Path(__file__).resolve().parents[2]
GX = TOP / "gx"

passed = 0
failures = []


def judge(name, problem):
    """Counts a check, which failed if there is a problem."""
    global passed
    if problem:
        failures.append(f"{name}: {problem}")
    else:
        passed += 1


def note(text):
    """Says what a reader should know of a check that passed."""
    print(f"note: {text}")


def finish():
    for failure in failures:
        print(failure)
    print(f"{passed} passed, {len(failures)} failed")
    sys.exit(1 if failures else 0)


def run(command, cwd=TOP, **more):
    streams = {"capture_output": True, "stdin": subprocess.DEVNULL}
    return subprocess.run(command, cwd=cwd, timeout=3600, **streams, **more)


def output_of(*command):
    """The line that a command prints, or nothing if it failed. Its errors go to the reader."""
    ended = subprocess.run(command, cwd=TOP, stdout=subprocess.PIPE, stdin=subprocess.DEVNULL)
    return ended.stdout.decode().strip() if ended.returncode == 0 else ""


def as_nobody():
    """What precedes a command so that it may not read or write every file, as root may."""
    if os.geteuid() != 0:
        return []
    return [shutil.which("setpriv"), "--reuid=65534", "--regid=65534", "--clear-groups"]
