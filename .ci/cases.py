"""Runs the cases of a test of this folder that has one program, whose path is its one word."""
import concurrent.futures
import subprocess
import sys


def passes(case, program):
    try:
        case(program)
        return True
    except (AssertionError, OSError, subprocess.SubprocessError) as wrong:
        print(f"{case.__name__}: {wrong!r}", file=sys.stderr)
        return False


def at_once(cases, usage, head=""):
    """Runs them all at once. What goes wrong, and at last 'N passed, M failed' behind the head, goes to standard error; the test ends
    with status 1 where something went wrong."""
    if len(sys.argv) != 2:
        sys.exit(f"usage: {usage}")
    with concurrent.futures.ThreadPoolExecutor(len(cases)) as pool:
        outcomes = list(pool.map(lambda case: passes(case, sys.argv[1]), cases))
    passed = outcomes.count(True)
    print(f"{head}{passed} passed, {len(outcomes) - passed} failed", file=sys.stderr)
    sys.exit(passed != len(outcomes))
