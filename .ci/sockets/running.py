"""Which cases there are, by subject, and how they are run and counted."""
import os
import signal
import subprocess

from sockets import aborts, bulk, client, closing, hosts, interrupts, locks, log, mapping, names, records, rules, starting, waits, workers
from sockets.server import end_all, programs

SUBJECTS = {
    subject.__name__.split(".")[-1]: subject
    for subject in (records, locks, aborts, interrupts, bulk, workers, closing, waits, hosts, starting, client, log, mapping, names, rules)
}
CASE_SECONDS = 900


def cases_of(subject, without_sanitizer=True):
    """Its cases, with those that no address sanitizer lives through only where there is none."""
    return [*subject.CASES, *(getattr(subject, "PLAIN_CASES", ()) if without_sanitizer else ())]


def taken(words, option):
    """The word behind an option, if it is among the words, of which both are taken."""
    if option not in words[:-1]:
        return None
    place = words.index(option)
    del words[place]
    return words.pop(place)


def at_paths(words, *names):
    """Has the cases use the programs of these paths."""
    programs.update(zip(names, ([os.path.abspath(word)] for word in words)))


def watch(what, seconds):
    """Ends the test where this takes longer."""

    def hang(*_):
        print(f"HUNG: {what} took more than {seconds} seconds", flush=True)
        end_all()
        os._exit(1)

    signal.signal(signal.SIGALRM, hang)
    signal.alarm(seconds)


def passes(case):
    watch(case.__name__, CASE_SECONDS)
    try:
        case()
        print(f"passed {case.__name__}", flush=True)
        return True
    except (AssertionError, OSError, subprocess.SubprocessError) as error:
        print(f"FAILED {case.__name__}: {error}", flush=True)
        return False
    finally:
        end_all()


def status_of(cases, head=""):
    """Runs the cases, prints how many passed behind the head, and returns the status with which the test ends."""
    failed = [case for case in cases if not passes(case)]
    signal.alarm(0)
    print(f"{head}{len(cases) - len(failed)} passed, {len(failed)} failed")
    return 1 if failed else 0
