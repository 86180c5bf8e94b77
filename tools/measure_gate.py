#!/usr/bin/env python3
"""Runs the gate, and prints the processor minutes that it took, crate by crate.

    python3 tools/measure_gate.py [COMMAND..]      COMMAND is `rt ci` where it is left out

What the command prints goes to standard error. The prover's processes are looked at five times a second,
and each is counted for the crate that it names, as a proof, as a build of a proved program, as tests or as
edits; a compiler that it starts is counted with it. What no look saw is told as the rest. A run with other work beside it takes more processor time: measure on an idle machine.
"""
import os
import re
import resource
import subprocess
import sys
import time

SECONDS_BETWEEN_LOOKS = 0.2
TICKS = os.sysconf("SC_CLK_TCK")
KINDS = ("proof", "builds", "tests", "edits")


def processes():
    """Each process with its parent and the processor seconds that it took itself."""
    for name in os.listdir("/proc"):
        if name.isdigit():
            try:
                with open(f"/proc/{name}/stat") as stat:
                    fields = stat.read().rpartition(")")[2].split()
            except OSError:
                continue
            yield int(name), int(fields[1]), (int(fields[11]) + int(fields[12])) / TICKS


def label_of(process):
    """The crate and the kind of work of a process of the prover, None of any other process."""
    try:
        with open(f"/proc/{process}/cmdline", "rb") as line:
            words = line.read().decode(errors="replace").split("\0")
        folder = os.readlink(f"/proc/{process}/cwd")
    except OSError:
        return None
    if "--crate-name" not in words:
        return None
    crate = words[words.index("--crate-name") + 1]
    if re.search(r"rt-(edits?|seed)", " ".join([folder, *words])):
        return crate, "edits"
    if "--crate-checked" in words:
        return crate, "builds"
    return crate, "tests" if "--test" in words else "proof"


def look(root, seconds, labels):
    """Notes what each process below the root has taken so far."""
    parents, taken = {}, {}
    for process, parent, spent in processes():
        parents[process], taken[process] = parent, spent
    for process, spent in taken.items():
        above = process
        while above in parents and above != root:
            above = parents[above]
        if above == root:
            label = labels.get(process) or label_of(process) or labels.get(parents[process])
            if label:
                labels[process] = label
                seconds[process, label] = spent


def run(command):
    """Runs the command, and gives its status, its minutes by crate and kind, and all its processor minutes."""
    seconds, labels = {}, {}
    started = subprocess.Popen(command, stdout=sys.stderr)
    while started.poll() is None:
        look(started.pid, seconds, labels)
        time.sleep(SECONDS_BETWEEN_LOOKS)
    usage = resource.getrusage(resource.RUSAGE_CHILDREN)
    minutes = {}
    for (_, (crate, kind)), spent in seconds.items():
        minutes.setdefault(crate, dict.fromkeys(KINDS, 0.0))[kind] += spent / 60
    return started.returncode, minutes, (usage.ru_utime + usage.ru_stime) / 60


def gate():
    """The command of the gate that takes nothing of earlier runs: some kits keep proofs, and have a word against it."""
    told = subprocess.run(["rt", "help"], capture_output=True, text=True)
    return ["rt", "ci"] + ["--anew"] * ("--anew" in told.stdout + told.stderr)


def main(command):
    begun = time.monotonic()
    status, minutes, whole = run(command or gate())
    wall = (time.monotonic() - begun) / 60
    print("| Crate | Proof | Builds | Tests | Edits | All |\n|---|---|---|---|---|---|")
    for crate, spent in sorted(minutes.items(), key=lambda it: -sum(it[1].values())):
        cells = " | ".join(f"{spent[kind]:.1f}" if spent[kind] else "" for kind in KINDS)
        print(f"| `{crate}` | {cells} | {sum(spent.values()):.1f} |")
    seen = {kind: sum(spent[kind] for spent in minutes.values()) for kind in KINDS}
    rest = whole - sum(seen.values())
    print(f"| all | {' | '.join(f'{seen[kind]:.1f}' for kind in KINDS)} | {sum(seen.values()):.1f} |")
    print(f"\n{whole:.1f} processor minutes in {wall:.1f} minutes; {rest:.1f} of them the rest; status {status}")
    return status


if __name__ == "__main__":
    sys.exit(main(sys.argv[1:]))
