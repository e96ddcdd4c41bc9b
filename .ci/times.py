#!/usr/bin/env python3
"""Watches the checks that are started below the process of this number, until SIGTERM or that process's end, and
prints the processor time that they took: for each crate its proof, its must-fail edits and its tests' proof; then
all of each kind, the longest chain of crates that stand on one another, and the wall time."""
import collections
import os
import signal
import sys
import time

TICKS = os.sysconf("SC_CLK_TCK")
INTERVAL = 0.5
KINDS = ("proof", "edits", "tests")
CRATES = os.path.join(os.path.dirname(os.path.abspath(__file__)), os.pardir, "crates.txt")

Process = collections.namedtuple("Process", "parent began ticks")


class Ended(Exception):
    """SIGTERM came."""


def processes():
    """Each process, with its parent, when it began, and its time and that of its children that have ended."""
    found = {}
    for name in filter(str.isdigit, os.listdir("/proc")):
        try:
            with open("/proc/%s/stat" % name) as file:
                # A program's name may have spaces and brackets.
                fields = file.read().rpartition(")")[2].split()
        except OSError:
            continue
        found[int(name)] = Process(int(fields[1]), int(fields[19]), sum(map(int, fields[11:15])))
    return found


def check_of(number):
    """The crate and the kind of a process that checks one, or None."""
    try:
        with open("/proc/%d/cmdline" % number, "rb") as file:
            words = file.read().decode(errors="replace").split("\0")
    except OSError:
        return None
    if os.path.basename(words[0]) != "rattle" or "--crate-name" not in words:
        return None
    crate = words[words.index("--crate-name") + 1]
    # An edit is only checked; a crate and its tests are also built.
    is_built = "-o" in words
    return crate, "tests" if "--test" in words else "proof" if is_built else "edits"


def ticks_below(number, all_processes, children):
    """The time of this process and of all below it."""
    below = (ticks_below(child, all_processes, children) for child in children[number])
    return all_processes[number].ticks + sum(below)


def look(top, seen):
    """Notes the time of each check that runs now below top."""
    now = processes()
    children = collections.defaultdict(list)
    for number, process in now.items():
        children[process.parent].append(number)
    left = list(children[top])
    while left:
        number = left.pop()
        check = check_of(number)
        if check:
            seen[number, now[number].began] = check, ticks_below(number, now, children)
        else:
            left += children[number]


def watch(top, seen):
    """Looks until SIGTERM or the end of top, and once more then: what runs at the end counts too."""

    def end(*_):
        raise Ended

    signal.signal(signal.SIGTERM, end)
    try:
        while os.path.isdir("/proc/%d" % top):
            look(top, seen)
            time.sleep(INTERVAL)
    except Ended:
        signal.signal(signal.SIGTERM, signal.SIG_IGN)
        look(top, seen)


def libraries():
    """Each crate of crates.txt, with those of the repository that it stands on."""
    found = {}
    with open(CRATES) as file:
        for line in file:
            name, is_crate, below = line.partition("#")[0].partition(":")
            if is_crate:
                found[name.split()[0]] = below.split()
    return {crate: [it for it in below if it in found] for crate, below in found.items()}


def longest_chain(crates, below):
    """The crates of the longest chain, lowest first, and its time: the proofs of all but the last, and what the
    last one's proof or its tests took, which run side by side."""
    chains = {}

    def behind(crate):
        if crate not in chains:
            longest = max(map(behind, below[crate]), key=lambda it: it[1], default=([], 0))
            chains[crate] = longest[0] + [crate], longest[1] + crates[crate]["proof"]
        return chains[crate]

    def whole(crate):
        names, took = behind(crate)
        return names, took + max(0, crates[crate]["tests"] - crates[crate]["proof"])

    return max(map(whole, below), key=lambda it: it[1])


def lines(seen, wall):
    """The lines that tell the seconds of each crate, the longest first, and of all."""
    crates = collections.defaultdict(collections.Counter)
    for (crate, kind), ticks in seen.values():
        crates[crate][kind] += ticks / TICKS
    yield "processor seconds of the checks of this run (what an earlier run kept isn't checked again)"
    row = "%-20s %8.0f %8.0f %8.0f %8.0f"
    yield "%-20s %8s %8s %8s %8s" % ("crate", *KINDS, "all")
    for crate, took in sorted(crates.items(), key=lambda it: -sum(it[1].values())):
        yield row % (crate, *(took[kind] for kind in KINDS), sum(took.values()))
    whole = [sum(took[kind] for took in crates.values()) for kind in KINDS]
    yield row % ("all", *whole, sum(whole))
    chain, took = longest_chain(crates, libraries())
    yield "the longest chain of crates: %.0f processor seconds: %s" % (took, " ".join(chain))
    yield "wall time: %.0f seconds" % wall


def main():
    top, seen, began = int(sys.argv[1]), {}, time.monotonic()
    watch(top, seen)
    print(*lines(seen, time.monotonic() - began), sep="\n", flush=True)


main()
