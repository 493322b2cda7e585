#!/usr/bin/env python3
"""Runs the gate and prints what each of its phases took.

    tools/gate_time.py [--write] COMMAND ..
    tools/gate_time.py --from LOG

The output of the command passes through, and its status is this program's. A phase is the proof of
a crate, the proof of its tests, or the trying of its mutants. The wall time of a phase goes from its
first process to its last. Its processor time is the sum of all its processes, read from /proc until
each has ended. With `--write` a run that passes writes its times, beside the budget of each crate,
into docs/GATE.md. With `--from` the page gets the times that a run has printed into a log, and says so
if that run did not pass. The page has seconds of the fastest machine: those of the run are divided by
what the proofs of `SCALE` took in it for each second that they took there.

It sets RT_JOBS, unless it is set: `rt ci` then runs so many checks side by side, with one process each.
"""
import os
import re
import resource
import subprocess
import sys
import threading
import time

PERIOD = 0.25
TICK = os.sysconf("SC_CLK_TCK")
PAGE = "docs/GATE.md"
BEGIN, END = "<!-- tools/gate_time.py writes from here -->", "<!-- to here -->"
# What proof, tests and mutants of a crate may take together, in seconds of processor time of the fastest
# machine: 100 minutes in all.
BUDGETS = {
    "raft_base": 200,
    "raft_members": 700,
    "raft_progress": 990,
    "raft_state": 950,
    "steps_handlers": 1120,
    "safety_laws": 40,
    "trace_checker": 280,
    "trace_lines": 10,
    "trace_judge": 330,
    "steps_safety": 270,
    "raft_script": 280,
    "trace_program": 60,
    "example_cluster": 420,
    "tests_support": 50,
    "example_first": 30,
    "example_node": 150,
    "everything else": 120,
}
# What the proofs of crates that hardly change took on the fastest machine.
SCALE = {"raft_base": 124, "raft_members": 450, "raft_script": 137}
# The tests of a library are in a crate with the prefix `tests_` and, if not the library's own, this word.
TESTED = {"safety_laws": "laws", "steps_safety": "safety", "tests_support": ""}


def jobs():
    """How many checks may run side by side: one for each core, and for each 8 GB of memory."""
    memory = os.sysconf("SC_PAGE_SIZE") * os.sysconf("SC_PHYS_PAGES")
    try:
        with open("/sys/fs/cgroup/memory.max", encoding="utf-8") as file:
            memory = min(memory, int(file.read()))
    except (OSError, ValueError):
        pass
    return max(1, min(len(os.sched_getaffinity(0)), memory // 8_000_000_000))


def processes():
    """Each process by its number: its parent, its processor time, its words and its folder."""
    found = {}
    for name in filter(str.isdigit, os.listdir("/proc")):
        try:
            with open(f"/proc/{name}/stat", encoding="utf-8", errors="replace") as file:
                fields = file.read().rpartition(")")[2].split()
            with open(f"/proc/{name}/cmdline", encoding="utf-8", errors="replace") as file:
                words = file.read().split("\0")
            where = os.readlink(f"/proc/{name}/cwd")
        except OSError:
            continue
        # The time of children that have ended is a parent's, once it has waited for them.
        spent = sum(int(fields[at]) for at in (11, 12, 13, 14)) / TICK
        found[int(name)] = int(fields[1]), spent, words, where
    return found


def phase_of(words, where):
    """The phase that a process works for, if its arguments say so."""
    if "--crate-name" not in words:
        return None
    kind = "mutants" if "/mutants-" in where else "tests" if "--test" in words else "proof"
    return words[words.index("--crate-name") + 1], kind


class Times:
    """What each phase has taken so far."""

    def __init__(self, root):
        self.root, self.began = root, time.time()
        self.spent, self.first, self.last = {}, {}, {}

    def look(self):
        """Reads the processes below the root once."""
        now, found = time.time(), processes()
        below = {self.root}
        for _ in range(6):
            below |= {it for it, (parent, *_) in found.items() if parent in below}
        for number in below & found.keys() - {self.root}:
            parent, spent, words, where = found[number]
            phase = phase_of(words, where)
            if phase:
                self.first.setdefault(phase, now)
                self.last[phase] = now
                # The time of a forked copy comes to its parent when it ends.
                if parent not in found or phase_of(*found[parent][2:]) != phase:
                    self.spent[phase, number] = spent

    def table(self):
        """The phases in their order, with wall and processor time in seconds."""
        rows, whole = [f"{'phase':28} {'from':>6} {'wall':>6} {'processor':>10}"], time_of_children()
        rest = whole
        for phase in sorted(self.first, key=self.first.get):
            from_, wall = self.first[phase] - self.began, self.last[phase] - self.first[phase]
            took = sum(spent for (its, _), spent in self.spent.items() if its == phase)
            rest -= took
            rows.append(f"{' '.join(phase):28} {from_:6.0f} {wall:6.0f} {took:10.0f}")
        rows.append(f"{'everything else':28} {'':6} {'':6} {rest:10.0f}")
        rows.append(f"{'all':28} {0:6.0f} {time.time() - self.began:6.0f} {whole:10.0f}")
        return "\n".join(rows)


def time_of_children():
    """The processor time of all processes that this one has started, once they have ended."""
    used = resource.getrusage(resource.RUSAGE_CHILDREN)
    return used.ru_utime + used.ru_stime


def by_crate(spent, whole):
    """The phases by crate, as lines for the page. The tests of a library are in a crate beside it."""
    lines = ["| crate | proof | its tests | its mutants | together | budget |", "|---|---|---|---|---|---|"]
    counted = 0
    for crate, budget in BUDGETS.items():
        beside = "tests_" + TESTED.get(crate, crate.partition("_")[2])
        parts = [[(crate, "proof")], [(crate, "tests"), (beside, "proof"), (beside, "tests")], [(crate, "mutants"), (beside, "mutants")]]
        times = [round(sum(spent.get(phase, 0) for phase in phases)) for phases in parts]
        together = sum(times) if crate != "everything else" else round(whole) - counted
        counted += together
        name = f"`{crate}`" if " " not in crate else crate
        lines.append(f"| {name} | {' | '.join(str(it or '') for it in times)} | {together} | {budget} |")
    lines.append(f"| all | | | | {counted} | {sum(BUDGETS.values())} |")
    return lines


def write_page(table):
    """Writes the times of a run into the page, from the table and the line that the run has printed."""
    rows = re.findall(r"^\W*(\w+) (proof|tests|mutants) +\d+ +\d+ +(\d+)$", table, re.M)
    spent = {(crate, kind): int(seconds) for crate, kind, seconds in rows}
    wall, whole = map(int, re.search(r"^\W*all +0 +(\d+) +(\d+)$", table, re.M).groups())
    scale = sum(spent.get((crate, "proof"), 0) for crate in SCALE) / sum(SCALE.values())
    if not scale:
        sys.exit("the run has not proved the crates that give the scale of its machine")
    spent = {phase: seconds / scale for phase, seconds in spent.items()}
    passed = re.search(r"^\W*passed on (.*) with (\d+) cores$", table, re.M)
    run, cores = (f"A whole run on {passed[1]}", f" on {passed[2]} cores.") if passed else (
        "A run that did not pass", ".\nWhat it did not reach is not counted."
    )
    said = [
        f"{run} took {whole / 60:.0f} minutes of processor time, and {wall / 60:.0f} minutes{cores}",
        f"The fastest machine is {scale:.2f} times as fast, and would have taken {whole / scale / 60:.0f} minutes of processor time.",
        "The table has seconds of processor time of the fastest machine.",
    ]
    with open(PAGE, encoding="utf-8") as file:
        before, _, rest = file.read().partition(BEGIN)
    with open(PAGE, "w", encoding="utf-8") as file:
        file.write("\n".join([before + BEGIN, *said, "", *by_crate(spent, whole / scale), END + rest.partition(END)[2]]))


def main(command):
    """Runs the command, looks at its processes as they run, and prints the table behind its output."""
    if command[:1] == ["--from"] and len(command) == 2:
        with open(command[1], encoding="utf-8", errors="replace") as file:
            return write_page(file.read())
    is_written = command[:1] == ["--write"]
    command = command[is_written:]
    if not command:
        sys.exit(__doc__)
    gate = subprocess.Popen(command, env={"RT_JOBS": str(jobs()), **os.environ})
    times = Times(gate.pid)
    ended = threading.Event()

    def watch():
        while not ended.wait(PERIOD):
            times.look()

    watching = threading.Thread(target=watch)
    watching.start()
    try:
        status = gate.wait()
    finally:
        ended.set()
        watching.join()
    day, cores = time.strftime("%-d %B %Y"), len(os.sched_getaffinity(0))
    printed = f"{times.table()}\n{'failed' if status else 'passed'} on {day} with {cores} cores"
    print(printed, file=sys.stderr)
    if is_written and status == 0:
        write_page(printed)
    return status


if __name__ == "__main__":
    sys.exit(main(sys.argv[1:]))
