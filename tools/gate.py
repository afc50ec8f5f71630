#!/usr/bin/env python3
"""Runs the gate, and tells what each crate of it took of processor time.

    gate.py [COMMAND..]

COMMAND is what runs the gate; left out, it is .ci/run. What it prints goes to standard error. Once a second each check
that runs is looked at; what it had used then counts, so the last second of each is missing. A line for each crate has
the processor seconds of its proof, of its tests, of the check that its edits begin with (one of all of it from nothing,
and one over what that kept), and of its edits with their number; then its memory at the most, in GB.
"""
import os, re, subprocess, sys, time
from collections import defaultdict
from dataclasses import dataclass

TICK, PAGE = os.sysconf("SC_CLK_TCK"), os.sysconf("SC_PAGE_SIZE")


@dataclass
class Check:
    crate: str
    kind: str
    seconds: float = 0.0
    memory: int = 0


def check_of(folder, words):
    """The check that these words run in this folder, if they run one."""
    line = " ".join(words)
    name = re.search(r"--crate-name (\S+)", line)
    if not name or words[0].rpartition("/")[2] != "rattle":
        return None
    if "/rt-edit-" in folder:
        over = re.search(r"--incremental (\S+)", line)
        return Check(name[1], "edit" if over and not over[1].endswith("/seed") else "before")
    return Check(name[1], "tests" if "--test" in words else "proof")


def look(checks):
    """Takes what each running check has used so far."""
    for number in filter(str.isdigit, os.listdir("/proc")):
        try:
            with open(f"/proc/{number}/stat") as file:
                fields = file.read().rpartition(")")[2].split()
            key = number, fields[19]
            if key not in checks:
                with open(f"/proc/{number}/cmdline", "rb") as file:
                    words = file.read().decode(errors="replace").split("\0")
                checks[key] = check_of(os.readlink(f"/proc/{number}/cwd"), words)
            if checks[key]:
                checks[key].seconds = (int(fields[11]) + int(fields[12])) / TICK
                checks[key].memory = max(checks[key].memory, int(fields[21]) * PAGE)
        except OSError:
            # it ended meanwhile
            continue


def tell(checks):
    seconds, edits, memory = defaultdict(lambda: defaultdict(float)), defaultdict(int), defaultdict(int)
    for check in filter(None, checks.values()):
        seconds[check.crate][check.kind] += check.seconds
        edits[check.crate] += check.kind == "edit"
        memory[check.crate] = max(memory[check.crate], check.memory)
    kinds = ["proof", "tests", "before", "edit"]
    total = {kind: sum(of[kind] for of in seconds.values()) for kind in kinds}
    print("| crate | proof | tests | before edits | edits | GB |\n|---|---|---|---|---|---|")
    for crate in sorted(seconds, key=lambda crate: -sum(seconds[crate].values())):
        cells = [f"{seconds[crate][kind]:.0f}" if seconds[crate][kind] else "" for kind in kinds]
        cells[3] += f" ({edits[crate]})" if edits[crate] else ""
        print(f"| `{crate}` | {' | '.join(cells)} | {memory[crate] / 1e9:.1f} |")
    print(f"| all | {' | '.join(f'{total[kind]:.0f}' for kind in kinds)} ({sum(edits.values())}) | |")
    print(f"{sum(total.values()) / 60:.0f} processor minutes")


def main():
    gate = subprocess.Popen(sys.argv[1:] or ["bash", ".ci/run"], stdout=sys.stderr, stdin=subprocess.DEVNULL)
    checks = {}
    while gate.poll() is None:
        look(checks)
        time.sleep(1)
    tell(checks)
    return gate.returncode


if __name__ == "__main__":
    sys.exit(main())
