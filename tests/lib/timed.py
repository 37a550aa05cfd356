"""Measures a run of a program."""
import subprocess
import sys
import tempfile

# Runs the words and tells seconds and peak kilobytes. A process of its own, which is small: what the peak of a run begins with is that
# of the process that starts it.
STARTED = """
import os, sys, time
begun = time.perf_counter()
_, status, used = os.wait4(os.posix_spawnp(sys.argv[1], sys.argv[1:], os.environ), 0)
print(time.perf_counter() - begun, used.ru_maxrss, file=sys.stderr)
sys.exit(os.waitstatus_to_exitcode(status))
"""


def timed(words, file):
    """Seconds, peak megabytes (of 2^20 bytes), and what was written."""
    with open(file, "rb") as given, tempfile.TemporaryFile() as written:
        run = subprocess.run([sys.executable, "-S", "-c", STARTED, *words], stdin=given, stdout=written, stderr=subprocess.PIPE, text=True)
        if run.returncode:
            sys.exit(f"{words}: status {run.returncode}: {run.stderr}")
        seconds, peak = run.stderr.split()[-2:]
        written.seek(0)
        return float(seconds), int(peak) / 1024, written.read()
