#!/usr/bin/env python3
"""Watches the provers of this machine, and prints how long each crate took.

    tools/proof_minutes.py SECONDS       beside `rt ci`

A row: minutes from the first to the last moment of the crate's provers, minutes of processors that
they took together, and the folder.
"""
import collections, os, sys, time

TICK = os.sysconf("SC_CLK_TCK")


def provers():
    for number in filter(str.isdigit, os.listdir("/proc")):
        try:
            name, rest = open(f"/proc/{number}/stat").read().rsplit(") ", 1)
            if name.split("(")[1] in ("rattle", "antt-kernel"):
                spent = rest.split()
                seconds = (int(spent[11]) + int(spent[12])) / TICK
                yield (number, spent[19]), os.readlink(f"/proc/{number}/cwd"), seconds
        except (OSError, IndexError):
            continue  # it ended meanwhile


spent, seen, end = collections.defaultdict(dict), {}, time.time() + float(sys.argv[1])
while time.time() < end:
    for process, folder, seconds in provers():
        spent[folder][process] = seconds
        seen[folder] = (seen.get(folder, (time.time(),))[0], time.time())
    time.sleep(0.5)
for folder, its in sorted(spent.items(), key=lambda row: -sum(row[1].values())):
    first, last = seen[folder]
    print(f"{(last - first) / 60:7.1f} {sum(its.values()) / 60:7.1f}  {folder}")
