"""Runs a program, and writes what the run took: seconds, those of processor time, the most bytes of memory, the status.

Usage: launch.py DESCRIPTOR PROGRAM WORD..

It is a process of its own, which imports little, since the most memory of a run is at least that of the process that
started it. The program has its input, output and errors, and what it writes itself goes to the descriptor, as JSON.
"""
import os
import sys
import time

descriptor, *words = sys.argv[1:]
start = time.perf_counter()
child = os.posix_spawnp(words[0], words, os.environ)
# The usage of this child alone: that of all children would keep the most that any has had.
_, status, usage = os.wait4(child, 0)
seconds = time.perf_counter() - start
took = [seconds, usage.ru_utime + usage.ru_stime, 1024 * usage.ru_maxrss, os.waitstatus_to_exitcode(status)]
os.write(int(descriptor), str(took).encode())
