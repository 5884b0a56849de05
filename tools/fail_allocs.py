"""Runs tests of the channel with each of their requests for memory refused in turn.

    python3 tools/fail_allocs.py

at the root, once `rt test` in crates/test_channel_calls or the gate has built the program of its tests. `tools/refusing.py` refuses the
requests; `rt try --fail-alloc` would build the program anew for each.

A test first makes its channel. A refusal up to there may end the test with out of memory. From the first number on with which it
passes it has to pass with each, until a run makes fewer requests than the number says. A test tells the calls that answered out of
memory, and each of them has to do so at least once where `TELLS` names it. The script says for each test how many requests were refused
and which calls answered out of memory, and ends with status 1 where one of these runs went wrong.
"""
import os
import re
import sys
import tempfile

from refusing import build_refuser, run_refused

PROGRAM = "crates/test_channel_calls/out/test_channel_calls_tests"
TESTS = [
    "call_tests::two_jobs_call_by_call",
    "call_tests::untimely_calls",
    "call_tests::refusals_come_before_memory",
    "refusal_tests::each_refusal_loses_nothing",
    "refusal_tests::another_goes_on_after_a_refusal",
]
# The calls that have to answer out of memory in these tests, each at least once.
TELLS = {
    "call_tests::two_jobs_call_by_call": ["start", "turn", "finish"],
    "call_tests::untimely_calls": ["start", "turn", "ready"],
    "call_tests::refusals_come_before_memory": ["start", "turn"],
    "refusal_tests::each_refusal_loses_nothing": ["work"],
    "refusal_tests::another_goes_on_after_a_refusal": ["work of one of two workers"],
}
MOST = 100_000
SHORT = re.compile(r"^out of memory: (.*)$", re.MULTILINE)
CALL = re.compile(r"([a-z ]+) ([0-9]+)(?:, )?")
OUT_OF_MEMORY = ("AllocError", "AllocFailed", "OutOfMemory", "out of memory")


def count_calls(said, calls):
    """Adds the calls that a test says were out of memory."""
    for line in SHORT.findall(said):
        for call, number in CALL.findall(line):
            calls[call] = calls.get(call, 0) + int(number)


def tell(test, requests, early, passed, calls):
    """Says what came of a test."""
    short = ", ".join(f"{call} {number}" for call, number in calls.items())
    print(f"{test}: {requests} requests, each refused in turn: {early} before the channel stood, and it passed with {passed}; out of memory: {short}")


def try_all(refuser, test):
    """Returns whether the test went well with each request refused."""
    early, passed, calls = 0, 0, {}
    for number in range(1, MOST):
        ran = run_refused(refuser, [PROGRAM, test], request=number)
        said = ran.output + ran.errors
        if ran.status == 0 and ran.requests is not None:
            if ran.requests < number:
                tell(test, number - 1, early, passed, calls)
                return passed > 0 and all(calls.get(call, 0) > 0 for call in TELLS[test])
            passed += 1
            count_calls(said, calls)
        elif ran.requests is not None and not passed and any(it in said for it in OUT_OF_MEMORY):
            early += 1
        else:
            print(f"{test}: with request {number} refused it ended with {ran.status}:\n{said}")
            return False
    print(f"{test}: more than {MOST} requests")
    return False


def main():
    if not os.path.isfile(PROGRAM):
        sys.exit(f"{PROGRAM} isn't there: run rt test in crates/test_channel_calls, or the gate")
    with tempfile.TemporaryDirectory() as folder:
        refuser = build_refuser(folder)
        went_well = [try_all(refuser, test) for test in TESTS]
    sys.exit(0 if all(went_well) else 1)


main()
