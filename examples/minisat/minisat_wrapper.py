#!/usr/bin/env python3
"""Runs minisat once. It is called as
minisat_wrapper.py INSTANCE SPECIFICS CUTOFF LENGTH SEED -NAME VALUE -NAME VALUE ..
"""
import re
import signal
import subprocess
import sys

ENDS = {10: "SAT", 20: "UNSAT", -signal.SIGPROF: "TIMEOUT"}


def switch(name, value):
    """A setting in minisat's spelling."""
    if value == "on":
        return name
    if value == "off":
        return "-no" + name
    return f"{name}={value}"


def run(instance, cutoff, seed, switches):
    """How minisat ended, and its own processor time in seconds. A timer ends it once it has had
    as much processor time as the cutoff, and setpriv where this wrapper is killed."""
    done = subprocess.run(
        ["setpriv", "--pdeathsig", "KILL", "minisat", f"-rnd-seed={seed + 1}", *switches, instance],
        capture_output=True,
        text=True,
        preexec_fn=lambda: signal.setitimer(signal.ITIMER_PROF, cutoff),
    )
    end = ENDS.get(done.returncode, "CRASHED")
    if end == "CRASHED":
        sys.stderr.write(done.stdout + done.stderr)
    time = re.search(r"^CPU time *: *(\S+) s", done.stdout, re.MULTILINE)
    return end, time[1] if time else "0"


instance, _specifics, cutoff, _length, seed, *settings = sys.argv[1:]
switches = [switch(*setting) for setting in zip(settings[::2], settings[1::2])]
end, time = run(instance, float(cutoff), int(seed), switches)
print(f"Result for ParamILS: {end}, {time}, 0, 0, {seed}")
