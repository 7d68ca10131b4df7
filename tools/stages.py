"""Runs stages, reports how each ended, and sums them up: a table, a file for tools that read JUnit's XML, and a last line."""
import dataclasses
import os
import subprocess
import sys
import threading
import time
import xml.etree.ElementTree as xml
from concurrent.futures import ThreadPoolExecutor

PASSED, FAILED, SKIPPED, NOT_RUN = "passed", "failed", "skipped", "not run"
# How much of what a failed stage printed is shown.
SHOWN = 4000
# The status of a command that can't run here.
CANT_RUN = 77


class Skipped(Exception):
    """Why a stage can't run here."""


class Wrong(Exception):
    """Why a stage failed."""


@dataclasses.dataclass
class Outcome:
    """How a stage ended."""

    name: str
    status: str
    seconds: float
    said: str

    def line(self):
        """The last line of a passed stage, or why the stage didn't pass."""
        lines = [it for it in self.said.strip().splitlines() if it.strip()]
        if not lines:
            return ""
        return lines[0 if self.status in (SKIPPED, NOT_RUN) else -1].strip()[:150]


@dataclasses.dataclass
class Stage:
    """A name, what runs, and the stages that have to pass before."""

    name: str
    run: object
    after: tuple = ()


def command(*words, **how):
    """A stage that is a command: it passes if the status is 0, and is skipped if the status is 77."""

    def run():
        done = subprocess.run(words, stdin=subprocess.DEVNULL, stdout=subprocess.PIPE, stderr=subprocess.STDOUT, text=True, errors="replace", check=False, **how)
        if done.returncode == CANT_RUN:
            raise Skipped(done.stdout.strip().splitlines()[-1] if done.stdout.strip() else "it can't run here")
        if done.returncode:
            raise Wrong(f"{done.stdout.strip()}\nstatus {done.returncode}")
        return done.stdout

    return run


def outcome_of(stage):
    """Runs a stage."""
    began = time.monotonic()
    try:
        status, said = PASSED, stage.run() or ""
    except Skipped as why:
        status, said = SKIPPED, str(why)
    except Exception as why:  # A stage that breaks is one that failed, and the others still run.
        status, said = FAILED, str(why) or type(why).__name__
    return Outcome(stage.name, status, time.monotonic() - began, said)


class Runner:
    """Runs stages side by side, each after those that it waits for."""

    def __init__(self, stages, lanes):
        self.stages, self.lanes, self.outcomes = stages, lanes, {}
        self.printing, self.began = threading.Lock(), time.monotonic()

    def report(self, outcome):
        """Prints how a stage ended, and its output if it failed."""
        with self.printing:
            self.outcomes[outcome.name] = outcome
            count = f"[{len(self.outcomes)}/{len(self.stages)}]"
            print(f"{count} {outcome.status}: {outcome.name} ({outcome.seconds:.0f} s) {outcome.line()}", flush=True)
            if outcome.status == FAILED:
                print(outcome.said[-SHOWN:], flush=True)

    def work(self, stage):
        self.report(outcome_of(stage))

    def ready(self, stage):
        return all(it in self.outcomes for it in stage.after)

    def run(self):
        """Runs all stages, and returns how they ended, in their order."""
        left, running = list(self.stages), {}
        with ThreadPoolExecutor(self.lanes) as pool:
            while left or running:
                for stage in [it for it in left if self.ready(it)]:
                    lacking = [it for it in stage.after if self.outcomes[it].status != PASSED]
                    if not lacking and len(running) >= self.lanes:
                        continue
                    left.remove(stage)
                    if lacking:
                        self.report(Outcome(stage.name, NOT_RUN, 0, f"{lacking[0]} didn't pass"))
                    else:
                        running[stage.name] = pool.submit(self.work, stage)
                time.sleep(0.05)
                running = {name: it for name, it in running.items() if not it.done()}
        return [self.outcomes[it.name] for it in self.stages]


def table(outcomes):
    """The lines of the summary."""
    width = max(len(it.name) for it in outcomes)
    return [f"{it.status:8}{it.seconds:7.0f} s  {it.name:{width}}  {it.line()}".rstrip() for it in outcomes]


def write_junit(outcomes, name, path):
    """Writes the outcomes as JUnit's XML."""
    counts = {status: sum(it.status == status for it in outcomes) for status in (FAILED, SKIPPED, NOT_RUN)}
    words = {"name": name, "tests": str(len(outcomes)), "failures": str(counts[FAILED]), "skipped": str(counts[SKIPPED] + counts[NOT_RUN])}
    suite = xml.Element("testsuite", time=f"{sum(it.seconds for it in outcomes):.1f}", **words)
    for it in outcomes:
        case = xml.SubElement(suite, "testcase", classname=name, name=it.name, time=f"{it.seconds:.1f}")
        # XML has no place for most control characters.
        said = "".join(c if c in "\t\n" or " " <= c else "?" for c in it.said[-SHOWN:])
        if it.status == FAILED:
            xml.SubElement(case, "failure", message=it.line()).text = said
        elif it.status in (SKIPPED, NOT_RUN):
            xml.SubElement(case, "skipped", message=f"{it.status}: {it.line()}")
    os.makedirs(os.path.dirname(path), exist_ok=True)
    xml.ElementTree(suite).write(path, encoding="utf-8", xml_declaration=True)


def sum_up(outcomes, name, path):
    """Prints the table and the last line, writes the file, and returns the status."""
    write_junit(outcomes, name, path)
    count = lambda *statuses: sum(it.status in statuses for it in outcomes)
    print("\n" + "\n".join(table(outcomes)))
    if count(SKIPPED):
        print(f"{count(SKIPPED)} skipped: a program that they need isn't installed")
    failed = count(FAILED, NOT_RUN)
    print(f"{count(PASSED)} passed, {failed} failed", flush=True)
    return 1 if failed or not count(PASSED) else 0


def lanes():
    """How many stages may run side by side: one a processor, each with memory for a build."""
    with open("/proc/meminfo", encoding="ascii") as file:
        free = next(int(it.split()[1]) for it in file if it.startswith("MemAvailable:"))
    return max(1, min(len(os.sched_getaffinity(0)), free // 2_200_000))


if __name__ == "__main__":
    sys.exit(__doc__)
