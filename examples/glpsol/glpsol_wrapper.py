#!/usr/bin/env python3
"""Runs glpsol once. It is called as
glpsol_wrapper.py INSTANCE SPECIFICS CUTOFF LENGTH SEED -NAME VALUE -NAME VALUE ..
"""
import resource
import signal
import subprocess
import sys


def switch(name, value):
    """A setting as a switch of glpsol, or None where it takes none."""
    if value == "on":
        return "-" + name
    if name == "-cuts":
        return "--cuts" if value == "all" else None
    return None if value == "off" else "--" + value


def children_time():
    """The processor time of this process's children so far, in seconds. glpsol itself prints only
    tenths of a second."""
    used = resource.getrusage(resource.RUSAGE_CHILDREN)
    return used.ru_utime + used.ru_stime


def run(instance, cutoff, switches):
    """How glpsol ended. A timer ends it once it has had as much processor time as the cutoff, and
    setpriv where this wrapper is killed."""
    done = subprocess.run(
        ["setpriv", "--pdeathsig", "KILL", "glpsol", "--lp", instance, *filter(None, switches)],
        capture_output=True,
        text=True,
        preexec_fn=lambda: signal.setitimer(signal.ITIMER_PROF, cutoff),
    )
    if done.returncode == -signal.SIGPROF:
        return "TIMEOUT"
    if "INTEGER OPTIMAL SOLUTION FOUND" in done.stdout:
        return "SUCCESS"
    sys.stderr.write(done.stdout + done.stderr)
    return "CRASHED"


instance, _specifics, cutoff, _length, seed, *settings = sys.argv[1:]
switches = [switch(*setting) for setting in zip(settings[::2], settings[1::2])]
before = children_time()
end = run(instance, float(cutoff), switches)
time = children_time() - before
print(f"Result for ParamILS: {end}, {time:.6f}, 0, 0, {seed}")
