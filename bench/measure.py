"""Runs a program on a file, and tells the processor time and the peak memory that it took."""
import collections
import itertools
import math
import os
import pathlib
import resource
import shutil
import signal
import statistics
import subprocess
import sys
import tempfile

TOP = pathlib.Path(__file__).resolve().parent.parent
# A run that takes longer is killed.
SECONDS = 600
# GNU time tells a program's peak. What the system tells of a child of this script is never less than this script's own.
TIME = shutil.which('time')
MIB = 1024 * 1024

Run = collections.namedtuple('Run', 'status seconds peak output errors')


def program(name='projplay'):
    """The built program: what the variable of its name in capitals says, or that of this repository, built first where it
    is stale."""
    named = os.environ.get(name.upper())
    if named:
        return named
    built = subprocess.run([TOP / 'bin' / name], stdin=subprocess.DEVNULL, stdout=subprocess.DEVNULL)
    if built.returncode != 0:
        sys.exit(f'{name} does not run')
    return str(TOP / 'crates' / name / 'out' / name)


def run(command, script):
    """One run with the file as standard input: its status, its seconds of processor time, its peak in bytes (0 where
    it can't be told), its output, and what it wrote to standard error."""
    with tempfile.TemporaryDirectory() as folder:
        note = os.path.join(folder, 'peak')
        output = os.path.join(folder, 'output')
        errors = os.path.join(folder, 'errors')
        timed = [TIME, '-f', '%M', '-o', note] if TIME else []
        before = resource.getrusage(resource.RUSAGE_CHILDREN)
        with open(script, 'rb') as source, open(output, 'wb') as sink, open(errors, 'wb') as complaints:
            child = subprocess.Popen([*timed, *command], stdin=source, stdout=sink, stderr=complaints,
                                     start_new_session=True)
            try:
                status = child.wait(SECONDS)
            except subprocess.TimeoutExpired:
                os.killpg(child.pid, signal.SIGKILL)
                status = child.wait()
        after = resource.getrusage(resource.RUSAGE_CHILDREN)
        seconds = after.ru_utime + after.ru_stime - before.ru_utime - before.ru_stime
        peak = int(pathlib.Path(note).read_text().split()[-1]) * 1024 if TIME and status >= 0 else 0
        return Run(status, seconds, peak, pathlib.Path(output).read_bytes(), pathlib.Path(errors).read_text())


def median(runs):
    """Several runs as one: the median of their seconds, their greatest peak, and the rest of the last one."""
    seconds = statistics.median(each.seconds for each in runs)
    return runs[-1]._replace(seconds=seconds, peak=max(each.peak for each in runs))


def nanoseconds(errors):
    """What projtime told of its times: lines of a layer's name, a number and `ns`."""
    return {layer: int(number) for layer, number, _ in map(str.split, errors.splitlines())}


def exponent(points):
    """How seconds grow with size, 1 where they grow alike: the median slope between two of the points, each a size and its
    seconds, both axes being logarithms."""
    return statistics.median(math.log(seconds / other_seconds) / math.log(size / other_size)
                             for (size, seconds), (other_size, other_seconds) in itertools.combinations(points, 2)
                             if size != other_size)


def heading():
    """Prints what the numbers are."""
    print('Times are processor time, user and system, of the whole run.')
    if not TIME:
        print('skipped: peaks of memory, since the command time is missing')
    print()


def bar(met, text):
    """Prints a bar, and whether it is met."""
    print('ok    ' if met else 'MISSED', text)
    return met
