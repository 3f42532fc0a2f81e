"""The program that is timed, and what its runs cost."""
import collections
import json
import os
import pathlib
import subprocess
import sys
import tempfile
import time

HERE = pathlib.Path(__file__).resolve().parent.parent
sys.dont_write_bytecode = True
sys.path.append(str(HERE / "tools"))
import toolbox

# What a run took: seconds, seconds of processor time, and the most bytes of memory. And how it ended.
Run = collections.namedtuple("Run", "seconds processor memory status")


def chosen(words=sys.argv[1:]):
    """The program that the first of these words names, or without one the program that is built."""
    if len(words) > 1 or words[:1] in (["-h"], ["--help"]):
        sys.exit(sys.modules["__main__"].__doc__)
    return toolbox.program_of(words[0] if words else None)


def run(words, given, taken, said=None, env=None):
    """Runs these words over open files, for input, output and errors."""
    with tempfile.TemporaryFile() as told:
        launch = [sys.executable, "-I", "-S", HERE / "bench" / "launch.py", str(told.fileno()), *words]
        subprocess.run(launch, stdin=given, stdout=taken, stderr=said, env=env, pass_fds=[told.fileno()], check=True)
        told.seek(0)
        return Run(*json.load(told))


def processor(ran):
    return ran.processor


def seconds(ran):
    return ran.seconds


def cost(program, text, turns=5, of=processor):
    """The least of some runs over a text, whose output isn't kept, by default of processor time, and what the last one said."""
    least = float("inf")
    with tempfile.TemporaryFile() as given, open(os.devnull, "wb") as none:
        given.write(text)
        for _ in range(turns):
            given.seek(0)
            with tempfile.TemporaryFile() as said:
                ran = run([program, "run"], given, none, said)
                said.seek(0)
                words = said.read().decode()
            least = min(least, of(ran))
    return least, ran.status, words.strip()


def spent(program, script, turns=5, of=processor):
    """The least of some runs over a script, which have to end with status 0: as `cost`."""
    least, status, said = cost(program, script.encode(), turns, of)
    if status != 0:
        sys.exit(f"status {status}, {said}")
    return least


def copied(act, turns=5):
    """The least seconds of processor time of some calls of `act` here, which copies bytes."""
    least = float("inf")
    for _ in range(turns):
        start = time.process_time()
        act()
        least = min(least, time.process_time() - start)
    return least
