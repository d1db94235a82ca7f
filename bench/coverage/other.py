"""Another program of the same words, which is a Python module: it is run here, as `python3 -m` its name would run it, since to start Python for
each of many inputs takes longer than they do.
"""
import io
import os
import runpy
import sys


class Other:
    """The program whose folder this is."""

    def __init__(self, folder):
        where, self.name = os.path.split(os.path.abspath(folder))
        sys.path.insert(0, where)

    def run(self, words, given):
        """The status and what it writes."""
        kept = sys.stdin, sys.stdout, sys.argv
        sys.stdin, sys.stdout = (io.TextIOWrapper(io.BytesIO(some)) for some in (given, b""))
        sys.argv = [self.name, *words]
        try:
            runpy.run_module(self.name, run_name="__main__")
            status = 0
        except SystemExit as ended:
            status = ended.code or 0
        finally:
            sys.stdout.flush()
            written = sys.stdout.buffer.getvalue()
            sys.stdin, sys.stdout, sys.argv = kept
        return status, written
