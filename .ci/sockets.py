#!/usr/bin/env python3
"""Tests the server `vxgate` and the client `vxcall` over real sockets of this host.

    sockets.py SERVER CLIENT    tests the two programs of these paths
    sockets.py                  has `rt try` build both without proof, with an address sanitizer, and tests those, but for
                                want of memory
    sockets.py .. --only SUBJECT
                                runs the tests of one file of `sockets/` alone
    sockets.py --soak MINUTES SERVER CLIENT
                                runs a mixed load for so long and prints a line of figures a minute; no gate runs it

The second form shows that the same sources do over sockets what they should; that they are proved is for `rt ci` to say.
It prints a line a case and at last 'N passed, M failed', and ends with status 1 where a case failed or something hung.
What a case wants that this machine refuses, it leaves out and says so.

The cases stand in `sockets/`, a file a subject. Each starts a server of its own, so links are numbered from 1. What is compared is
whole records, composed from their words by RFC 5531 (headers), RFC 4506 (values) and VXI-11 1.0 (arguments and results).
"""
import sys
import tempfile

from sockets.building import build
from sockets.running import SUBJECTS, at_paths, cases_of, status_of, taken, watch
from sockets.server import end_all
from sockets.soak import soak

BUILD_SECONDS = 1800


def main(words):
    only, minutes = taken(words, "--only"), taken(words, "--soak")
    if len(words) != 2 and (words or minutes) or only not in (None, *SUBJECTS):
        sys.exit(f"usage: sockets.py [[--soak MINUTES] SERVER CLIENT] [--only {'|'.join(SUBJECTS)}]")
    at_paths(words, "server", "client")
    if minutes:
        return soak(float(minutes))
    with tempfile.TemporaryDirectory() as folder:
        if not words:
            watch("the build", BUILD_SECONDS)
            build(folder)
        subjects = [SUBJECTS[only]] if only else SUBJECTS.values()
        return status_of([case for subject in subjects for case in cases_of(subject, without_sanitizer=bool(words))])


if __name__ == "__main__":
    try:
        sys.exit(main(sys.argv[1:]))
    finally:
        end_all()
