"""Builds gx_bench and its counterpart in plain Rust, and measures their tasks from outside.

A task is an operation, a shape and an input. A program does the operation ROUNDS times and keeps each
result until it ends, so the cost of one result is the growth from some rounds to more, divided by the
number of rounds more: what it takes to make the input is not in it.
"""

import os
import resource
import subprocess
import sys
import tempfile
from pathlib import Path

TOP = Path(__file__).resolve().parent.parent
GX_BENCH = TOP / "crates/gx_bench"
MORE_ROUNDS = {"gx": 10, "plain": 40}
# A walk keeps nothing and is soon done.
WALK_ROUNDS = {"gx": 100, "plain": 1000}

# Memory is seen at its peak alone, so what is kept has to be more than the peak of making the input:
# this many results, or that many of calls that share most of their rows.
KEPT_ROUNDS = 6
KEPT_LIGHT_ROUNDS = 50
LIGHT = {"filter", "minus", "diff", "filter_edges", "reverse", "ends"}


class Bench:
    """The two programs, in a folder of their own for what they need."""

    def __init__(self, folder, tries):
        self.folder = Path(folder)
        self.tries = tries
        self.programs = {"gx": gx_program(), "plain": plain_program(self.folder)}
        # The line that each task printed, by its words.
        self.lines = {}

    def run(self, program, task, rounds):
        """The processor seconds and the peak memory in bytes of one run."""
        words = [*map(str, task), str(rounds)]
        out = self.folder / "out"
        with open(out, "wb") as stream:
            child = subprocess.Popen([self.programs[program], *words], cwd=self.folder, stdout=stream)
            _, status, usage = os.wait4(child.pid, 0)
        code = os.waitstatus_to_exitcode(status)
        if code != 0:
            sys.exit(f"{program} {words} ended with status {code}")
        self.compare(program, task, rounds, out.read_text())
        return usage.ru_utime + usage.ru_stime, usage.ru_maxrss * 1024

    def compare(self, program, task, rounds, line):
        """Both programs must print the same totals, of rows whatever the number of rounds is."""
        totals = line.partition(": ")[2]
        key = (*task, rounds if task[0] == "rows" else 0)
        if self.lines.setdefault(key, totals) != totals:
            sys.exit(f"{program} {task} printed {totals!r}, and {self.lines[key]!r} before")

    def seconds(self, program, task):
        """The processor seconds that one result takes, by the least of several runs."""
        more = (WALK_ROUNDS if task[0] == "rows" else MORE_ROUNDS)[program]
        low, high = (
            min(self.run(program, task, rounds)[0] for _ in range(self.tries)) for rounds in (1, 1 + more)
        )
        return (high - low) / more

    def kept_bytes(self, program, task):
        """The bytes that one result keeps; `None` if this script itself takes as much memory."""
        rounds = KEPT_LIGHT_ROUNDS if task[0] in LIGHT else KEPT_ROUNDS
        low, high = (self.run(program, task, times)[1] for times in (rounds, 2 * rounds))
        # A program begins with the peak of what started it.
        if low <= 1.5 * resource.getrusage(resource.RUSAGE_SELF).ru_maxrss * 1024:
            return None
        return (high - low) / rounds


def output_of(command, **more):
    return subprocess.run(command, stdout=subprocess.PIPE, text=True, check=True, **more).stdout.strip()


def gx_program():
    """The program of these sources. It is proved and built first if a source has changed since."""
    out = GX_BENCH / "out"
    program, record, log = out / "gx_bench", out / "gx_bench.sources", out / "build.log"
    sources = output_of([TOP / "tools/sources"])
    if program.exists() and record.exists() and record.read_text() == sources:
        return program
    print("proving and building gx_bench, which takes some minutes", file=sys.stderr)
    out.mkdir(exist_ok=True)
    with open(log, "wb") as stream:
        streams = {"stdin": subprocess.DEVNULL, "stdout": stream, "stderr": stream}
        ended = subprocess.run(["rt", "run"], cwd=GX_BENCH, **streams)
    if ended.returncode != 0:
        sys.exit(f"gx_bench was not built; {log} says why")
    record.write_text(sources)
    return program


def plain_program(folder):
    program = folder / "plain"
    source = TOP / "bench/plain/main.rs"
    subprocess.run(["rustc", "--edition", "2021", "-O", "-o", program, source], check=True)
    return program


def run_bench(arguments, measure):
    """Calls `measure` with the programs."""
    with tempfile.TemporaryDirectory() as folder:
        measure(Bench(folder, arguments.tries), arguments)


def machine():
    """Which machine this is and how busy it is, for the head of a table."""
    names = [line for line in Path("/proc/cpuinfo").read_text().splitlines() if line.startswith("model name")]
    name = names[0].partition(": ")[2] if names else "unknown processor"
    return f"{len(names)} processors, {name}; load {os.getloadavg()[0]:.2f}"


def head(*cells):
    return "| " + " | ".join(cells) + " |\n" + "|" + "---|" * len(cells)


def row(*cells):
    return "| " + " | ".join(cells) + " |"


def ratio(gx, plain):
    """How many times; nothing if the measure of plain Rust is too small to divide by."""
    return f"{gx / plain:.1f}" if plain > 0 else "-"


def ms(seconds):
    return f"{1000 * seconds:.1f}"


def bytes_a_row(size, rows):
    # A sum with 0, so that no figure is shown as -0.0.
    return "-" if size is None else str(round(size / rows, 1) + 0.0)
