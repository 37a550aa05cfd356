"""tests/lib/refusing.c as a library that is laid before a program."""

import functools
import os
import subprocess
import sys
import tempfile

from conversations import TOP

folder = tempfile.TemporaryDirectory()


@functools.cache
def library():
    """Where it lies, once it is compiled."""
    at = f"{folder.name}/refusing.so"
    compiler = [os.environ.get("CC", "cc"), "-O2", "-shared", "-fPIC", "-o", at, str(TOP / "tests" / "lib" / "refusing.c"), "-ldl"]
    if subprocess.run(compiler).returncode:
        sys.exit("tests/lib/refusing.c could not be compiled")
    return at
