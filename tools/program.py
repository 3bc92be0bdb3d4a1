"""Which program a script runs, and how: nothing is built without a word, and what a script has started ends with the script."""
import contextlib
import os
import pathlib
import shutil
import signal
import subprocess
import sys

ROOT = pathlib.Path(__file__).resolve().parent.parent
BUILT, NODE = ROOT / ".build" / "homeo", ROOT / ".build" / "node"
# The seconds that a group has to end by itself.
PATIENCE = 5


def listing():
    """What ./homeo lists of the files that the program is made of."""
    rt = shutil.which("rt")
    files = [*([rt] if rt else []), "crates.txt", "crates"]
    words = ["find", "-H", *files, "-regex", "crates/[^/]*/out", "-prune", "-o", "!", "-type", "d", "-printf", r"%p %i %s %T@ %C@\n"]
    return (f"{rt}\n" if rt else "").encode() + subprocess.run(words, cwd=ROOT, capture_output=True).stdout


def is_current(built=BUILT):
    """Whether a program that was built is there, and the files that it was made of are as they were."""
    try:
        return os.access(built, os.X_OK) and (ROOT / ".build" / "listing").read_bytes() == listing()
    except OSError:
        return False


def chosen(given=None, variable="HOMEO", built=BUILT, words=("homeo", "steps"), text=b"workload 1 sites 1 end"):
    """The program that is given, or else that of $HOMEO, or else .build/homeo, which is built first where it isn't current."""
    found = given or os.environ.get(variable)
    if found:
        if not shutil.which(found):
            sys.exit(f"{pathlib.Path(sys.argv[0]).name}: there is no program {found}")
        return found
    if not is_current(built):
        say = f"the program isn't there, or its sources have changed: ./{words[0]} looks, and builds it where it has to, in some two minutes"
        print(f"{pathlib.Path(sys.argv[0]).name}: {say} (or give a program by --program PATH)", file=sys.stderr, flush=True)
        ran = run([str(ROOT / words[0]), *words[1:]], input=text, stdout=subprocess.DEVNULL)
        if ran.returncode:
            sys.exit(ran.returncode)
    return str(built)


def chosen_node(given=None):
    """The node that is given, or else that of $NODE, or else .build/node, which is built first where it isn't current."""
    return chosen(given, "NODE", NODE, ["node"], b"workload 1 sites 1\nend\n")


def end(started):
    """Ends a group of processes: asked first, and then made to."""
    for way in (signal.SIGTERM, signal.SIGKILL):
        with contextlib.suppress(ProcessLookupError):
            os.killpg(started.pid, way)
        with contextlib.suppress(subprocess.TimeoutExpired):
            started.wait(PATIENCE)


def run(words, input=None, timeout=None, **how):
    """As `subprocess.run`, in a group of its own, which ends where this process is ended, or after so many seconds."""
    for each in (signal.SIGTERM, signal.SIGHUP):
        if signal.getsignal(each) == signal.SIG_DFL:
            signal.signal(each, lambda number, _: sys.exit(128 + number))
    with subprocess.Popen(words, stdin=subprocess.PIPE, start_new_session=True, **how) as started:
        try:
            output, complaint = started.communicate(input, timeout)
        except BaseException:
            end(started)
            raise
    return subprocess.CompletedProcess(words, started.returncode, output, complaint)
