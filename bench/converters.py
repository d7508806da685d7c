"""The converters that the comparisons of conversions run, and what one run of a converter takes."""
import os
import resource
import shutil
import signal
import subprocess
from collections import namedtuple

HERE = os.path.dirname(os.path.abspath(__file__))

# the processor time in seconds, the greatest memory in kilobytes, and what was written
Run = namedtuple("Run", "spent memory output")


def built(folder, name, *libraries):
    program = os.path.join(folder, name)
    source = os.path.join(HERE, "programs", name + ".cc")
    subprocess.run(["g++", "-O2", "-o", program, source, *libraries, "-lgmpxx", "-lgmp"], check=True)
    return program


def peers(folder):
    """The other converters by name (Debian: g++ ppl-dev libppl-dev libgmp-dev libnormaliz-dev)."""
    found = shutil.which("ppl_lcdd")
    ppl = found or built(folder, "ppl_convert", "-lppl")
    return {"PPL": [ppl], "Normaliz": [built(folder, "normaliz_convert", "-lnormaliz", "-leanticxx")]}


def with_lrs(others):
    """The other converters, and lrs where it is installed (Debian: lrslib)."""
    lrs = shutil.which("lrs")
    return {**others, "lrs": [lrs]} if lrs else others


def ours(polycalc, path):
    return [os.path.abspath(polycalc), "ext2ine" if path.endswith(".ext") else "ine2ext"]


def run(command, path, limit=None):
    """One run on the file: all of the process, with reading and printing; nothing where it took more seconds of the
    processor than the limit."""
    def limited():
        resource.setrlimit(resource.RLIMIT_CPU, (limit, limit))

    with open(path) as file:
        pipes = {"stdin": file, "stdout": subprocess.PIPE, "stderr": subprocess.DEVNULL}
        # without a limit no Python runs in the new process, whose time would count
        process = subprocess.Popen(command, preexec_fn=limited if limit else None, **pipes)
        output = process.stdout.read()
        _, status, usage = os.wait4(process.pid, 0)
        process.returncode = os.waitstatus_to_exitcode(status)
    if process.returncode == -signal.SIGKILL:
        return None
    return Run(usage.ru_utime + usage.ru_stime, usage.ru_maxrss, output.decode())


def rows_of(output):
    """How many rows a written file has, or nothing where it is none. lrs writes asterisks for their number."""
    lines = [line.strip() for line in output.splitlines()]
    if "begin" not in lines:
        return None
    first = lines.index("begin") + 1
    count = lines[first].split()[0]
    return int(count) if count.isdigit() else lines.index("end") - first - 1
