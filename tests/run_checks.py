"""Runs tests, prints what failed and how many passed."""
import os
from concurrent.futures import ThreadPoolExecutor

from program import Wrong


def report(name, test):
    """Runs one test and returns 1 if it passed, 0 if it failed and None if it wasn't for this run."""
    try:
        return None if test() is False else 1
    except (Wrong, OSError, ValueError, LookupError) as what:
        print(f"FAIL {name}\n    {what}", flush=True)
        return 0


def judged(tests):
    """Runs tests with their names, prints the last line, and returns the status."""
    with ThreadPoolExecutor(min(4, os.cpu_count() or 1)) as pool:
        results = list(pool.map(lambda test: report(*test), tests))
    passed, failed = results.count(1), results.count(0)
    print(f"{passed} passed, {failed} failed")
    return 0 if passed and not failed else 1
