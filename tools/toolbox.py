"""What tools share: a tool as a module of another, the program that they try, what they read, count and say, and how they end."""
import importlib.machinery
import importlib.util
import os
import pathlib
import subprocess
import sys

TOP = pathlib.Path(__file__).resolve().parent.parent


def module(name):
    """The tool of this name, which has no ending, as a module; one for all who ask."""
    known = name.replace("-", "_")
    if known not in sys.modules:
        loader = importlib.machinery.SourceFileLoader(known, str(pathlib.Path(__file__).resolve().parent / name))
        sys.modules[known] = importlib.util.module_from_spec(importlib.util.spec_from_loader(known, loader))
        loader.exec_module(sys.modules[known])
    return sys.modules[known]


def listed(words, last):
    """Words with commas, and `last` before the last."""
    *words, end = map(str, words)
    return f"{', '.join(words)} {last} {end}" if words else end


def text_of(name, most):
    """The bytes of a file, or of standard input for `-`; of a longer one, which may have no end, one more than `most`."""
    with open(0 if name == "-" else name, "rb") as file:
        return file.read(most + 1)


def is_word(name):
    """Is this word of a command line no file, nor `-` for standard input? What begins so lies behind ./ where it is one."""
    return name.startswith("-") and name != "-"


def modules_proved(folder):
    """What the prover wrote of each module of the crates that `rt ci` proved under a folder. Of a crate that is gone there may be an out/ still.
    What `rt check` leaves has a stamp, and proofs in it, which aren't read here."""
    paths = sorted(pathlib.Path(folder).glob("crates/*/out/rlib/*/toolchain/checked.a"))
    paths = [path for path in paths if (path.parents[4] / "src").is_dir() and not (path.parents[2] / "stamp").exists()]
    if not paths:
        sys.exit(f"there is no crate in {folder} that rt ci proved, and rt check didn't prove after it")
    for path in paths:
        yield from path.read_bytes().split(b"--@ antt-checked")[1:]


def built():
    """The proved program, after bin/vgpu has built it and run the shortest script."""
    proved = {**os.environ, "VGPU_PROVED": "1"}
    done = subprocess.run([TOP / "bin" / "vgpu", "run"], input=b"display 1 1", stdout=subprocess.DEVNULL, env=proved)
    if done.returncode:
        sys.exit(f"bin/vgpu ended with status {done.returncode}")
    return str(TOP / "crates" / "vgpu" / "out" / "vgpu")


def program_of(name):
    """The program that is named, or without a name this checkout's, which is built first."""
    program = os.path.abspath(name) if name else built()
    if not (os.path.isfile(program) and os.access(program, os.X_OK)):
        sys.exit(f"{program} can't be run")
    return program


def ended(main, *given):
    """Ends a tool as its main says. Where what it prints can't be written, or a file isn't there, that is said, and the status is 5."""
    try:
        if sys.stdout is None:
            raise OSError("there is no standard output")
        status = main(*given)
        sys.stdout.flush()
    except (OSError, subprocess.CalledProcessError) as fault:
        print(f"{os.path.basename(sys.argv[0])}: {fault}", file=sys.stderr)
        # What is left to be written goes nowhere.
        os.dup2(os.open(os.devnull, os.O_WRONLY), 1)
        status = 5
    sys.exit(status)


class Counts:
    """How many things were as wanted, and what wasn't."""

    def __init__(self):
        self.passed = self.failed = 0

    def judge(self, what, found, wanted):
        if found == wanted:
            self.passed += 1
        else:
            self.failed += 1
            print(f"{what}\n  expected: {str(wanted)[:2000]}\n  is:       {str(found)[:2000]}", flush=True)

    def status(self):
        """Tells them. Where nothing was looked at, nothing has passed."""
        print(f"{self.passed} passed, {self.failed} failed")
        return 1 if self.failed or not self.passed else 0
