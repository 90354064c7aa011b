"""A suite whose tests run in as many processes as there are processors. At its end it prints `N
passed, M failed`, and writes the same to the file that the environment variable RESULTS names, as
JSON, with the tests that were skipped and why."""
import atexit
import collections
import concurrent.futures
import json
import multiprocessing
import os
import queue
import sys
import time
import traceback
import unittest

# A line reports progress after this many seconds.
SECONDS = 10

# The tests of the suite that runs, which its processes inherit.
running = []


class Outcomes(unittest.TestResult):
    """The outcomes of a test, in a form that another process can read:
    the name of a method of a result, and a text."""

    def __init__(self):
        super().__init__()
        self.found = []

    def addSuccess(self, test):
        self.found.append(("addSuccess", ""))

    def addSkip(self, test, reason):
        self.found.append(("addSkip", reason))

    def addFailure(self, test, err):
        self.found.append(("addFailure", str(err[1])))

    def addError(self, test, err):
        self.found.append(("addError", "".join(traceback.format_exception(*err))))

    def addSubTest(self, test, subtest, err):
        if err:
            of_kind = (self.addFailure
                       if issubclass(err[0], test.failureException) else self.addError)
            of_kind(test, (err[0], f"{subtest._subDescription()}: {err[1]}", err[2]))


def outcomes_of(number):
    """Runs a test, with what its class and its module set up for it. Returns its outcomes."""
    outcomes = Outcomes()
    unittest.TestSuite([running[number]])(outcomes)
    return outcomes.found or [("addError", "the test ended without an outcome")]


def report(result, test, found):
    """Adds the outcomes of a test that ran in another process to a result."""
    result.startTest(test)
    for method, text in found:
        if method == "addSuccess":
            result.addSuccess(test)
        elif method == "addSkip":
            result.addSkip(test, text)
        else:
            getattr(result, method)(test, (AssertionError, AssertionError(text), None))
    result.stopTest(test)


def count(result):
    """Prints the counts of all tests, as the last line of the process,
    and writes them to the file RESULTS."""
    failed = len(result.failures) + len(result.errors) + len(result.unexpectedSuccesses)
    counts = {"passed": result.testsRun - failed - len(result.skipped), "failed": failed,
              "skipped": {test.id(): reason for test, reason in result.skipped}}
    atexit.register(lambda: print(
        f"{counts['passed']} passed, {failed} failed, {len(result.skipped)} skipped", flush=True))
    if os.environ.get("RESULTS"):
        with open(os.environ["RESULTS"], "w", encoding="utf-8") as file:
            json.dump(counts, file)


def flat(suite):
    """The tests of a suite and of those in it."""
    for it in suite:
        if isinstance(it, unittest.TestSuite):
            yield from flat(it)
        else:
            yield it


class SideBySide(unittest.TestSuite):
    """The tests that take longest, by their attribute `seconds`, begin first; otherwise their order
    is arbitrary. What a class or a module sets up is set up for each of its tests."""

    def run(self, result, debug=False):
        if debug:
            return super().run(result, debug)
        running[:] = sorted(flat(self), key=lambda test: -getattr(test, "seconds", 0))
        processes = min(len(os.sched_getaffinity(0)), len(running)) or 1
        ended = queue.SimpleQueue()
        pool = concurrent.futures.ProcessPoolExecutor(processes,
                                                      multiprocessing.get_context("fork"))
        try:
            number_of = {pool.submit(outcomes_of, number): number for number in range(len(running))}
            for future in number_of:
                future.add_done_callback(ended.put)
            for future in in_turn(ended, number_of):
                error = future.exception()
                if isinstance(error, SystemExit):
                    raise error
                found = ([("addError", f"its process ended: {error!r}")]
                         if error else future.result())
                report(result, running[number_of[future]], found)
                if result.shouldStop:
                    break
        finally:
            pool.shutdown(cancel_futures=True)
        for test, reason in result.skipped:
            print(f"\nskipped: {test.id()}: {reason}", file=sys.stderr, end="")
        count(result)
        return result


def side_by_side(_loader, tests, _pattern):
    """The `load_tests` of a module whose tests run in several processes also if it is run alone."""
    return SideBySide(tests)


def what_runs(futures):
    """The modules whose tests run now, each with how many of them."""
    counts = collections.Counter(type(running[number]).__module__
                                 for future, number in futures.items() if future.running())
    return ", ".join(f"{module} ({number})" if number > 1 else module
                     for module, number in sorted(counts.items()))


def in_turn(ended, futures):
    """Yields the futures as they end, and reports every few seconds how many have ended,
    and what runs."""
    began = said = time.monotonic()
    for number in range(len(futures)):
        while True:
            if time.monotonic() - said >= SECONDS:
                said = time.monotonic()
                print(f"\n{number} of {len(futures)} tests, {said - began:.0f} s: "
                      f"{what_runs(futures)}", file=sys.stderr, flush=True)
            try:
                yield ended.get(timeout=max(0, said + SECONDS - time.monotonic()))
                break
            except queue.Empty:
                pass
