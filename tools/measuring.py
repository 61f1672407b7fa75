"""Runs the program on a document, and says what that took, by /usr/bin/time.

The program is the one that ./wpds builds, or the one whose path stands in the environment as WPDS.
"""
import os
import signal
import subprocess
import tempfile

ROOT = os.path.dirname(os.path.dirname(os.path.realpath(__file__)))
PROGRAM = os.environ.get("WPDS", os.path.join(ROOT, "crates/wpds/out/wpds"))


class Taken:
    """The status (nothing where it did not end in time), what was written, seconds of processor time, and megabytes at most."""

    def __init__(self, status, written, seconds, megabytes):
        self.status, self.written, self.seconds, self.megabytes = status, written, seconds, megabytes


def ended(command, document, report, limit):
    """The status, or nothing where it did not end within so many seconds."""
    process = subprocess.Popen(command, stdin=document, stdout=report, stderr=subprocess.DEVNULL, start_new_session=True)
    try:
        return process.wait(timeout=limit)
    except subprocess.TimeoutExpired:
        os.killpg(process.pid, signal.SIGKILL)
        process.wait()
        return None


def measured(words, text, limit=600, before=()):
    """`before` are words of a program that runs it."""
    with tempfile.TemporaryFile() as document, tempfile.TemporaryFile() as report, tempfile.NamedTemporaryFile() as times:
        document.write(text.encode("ascii"))
        document.seek(0)
        timed = ["/usr/bin/time", "--quiet", "-f", "%U %S %M", "-o", times.name]
        status = ended([*timed, *before, PROGRAM, *words], document, report, limit)
        if status is None:
            return Taken(None, "", limit, 0)
        report.seek(0)
        user, system, kilobytes = times.read().split()
        return Taken(status, report.read().decode("ascii"), float(user) + float(system), int(kilobytes) / 1024)


def instructions(words, text):
    """How many instructions a run takes, in millions, as valgrind counts them."""
    with tempfile.TemporaryDirectory() as folder:
        log = os.path.join(folder, "log")
        before = ["valgrind", "--tool=callgrind", f"--callgrind-out-file={folder}/out", f"--log-file={log}"]
        measured(words, text, limit=3600, before=before)
        with open(log, encoding="ascii", errors="replace") as file:
            counted = [line.split()[-1] for line in file if "Collected" in line]
        return int(counted[0]) / 1e6
