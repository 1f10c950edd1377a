#!/usr/bin/env python3
"""Runs `rt ci` and prints the processor minutes of each crate: its proof, its tests and its must-fail edits.

usage: bench/gate.py [--out FILE] [words for rt ci]

It looks at the provers that run once a second, so a prover of less than a second may be missed. What an earlier run on this
machine has kept is not proved again and costs nothing, so figures from nothing need a machine where nothing is kept."""
import collections, os, subprocess, sys, time

TICK = os.sysconf("SC_CLK_TCK")


def provers():
    """Yields (process, crate, kind, processor seconds so far) of each prover."""
    for name in os.listdir("/proc"):
        if not name.isdigit():
            continue
        try:
            words = open(f"/proc/{name}/cmdline", "rb").read().decode(errors="replace").split("\0")
            if len(words) < 3 or os.path.basename(words[0]) != "rattle":
                continue
            fields = open(f"/proc/{name}/stat").read().rsplit(")", 1)[1].split()
        except OSError:
            continue
        crate = words[words.index("--crate-name") + 1] if "--crate-name" in words else "?"
        kind = "tests" if "--test" in words else "proof" if words[1] == "build" else "edits"
        yield (name, fields[19]), crate, kind, (int(fields[11]) + int(fields[12])) / TICK


def main():
    words, out = sys.argv[1:], None
    if words[:1] == ["--out"]:
        out, words = words[1], words[2:]
    spent, began = {}, time.time()
    log = open(out + ".log", "w") if out else None
    run = subprocess.Popen(["rt", "ci", *words], stdout=log, stderr=subprocess.STDOUT if log else None)
    while run.poll() is None:
        for process, crate, kind, seconds in provers():
            spent[process] = crate, kind, seconds
        time.sleep(1)
    table = collections.defaultdict(collections.Counter)
    for crate, kind, seconds in spent.values():
        table[crate][kind] += seconds / 60
    lines = ["| Crate | Proof | Tests | Edits |", "|---|---|---|---|"]
    for crate, kinds in [*table.items(), ("all", sum(table.values(), collections.Counter()))]:
        lines.append(f"| `{crate}` | {kinds['proof']:.1f} | {kinds['tests']:.1f} | {kinds['edits']:.1f} |")
    lines.append(f"\nstatus {run.returncode}, {(time.time() - began) / 60:.0f} minutes")
    print("\n".join(lines), file=open(out, "w") if out else sys.stdout)
    sys.exit(run.returncode)


main()
