"""Runs the tests of modules of `unittest` beside each other, each in a process of its own: for tests/test_drive.py."""

import itertools
import multiprocessing
import multiprocessing.connection
import os
import pathlib
import sys
import unittest

from base import build_shims, is_case, settings

FORK = multiprocessing.get_context("fork")
MOST = max(4, os.cpu_count())


def tests_of(suite):
    """Give the tests of a suite one by one."""
    for it in suite:
        yield from tests_of(it) if isinstance(it, unittest.TestSuite) else [it]


def run_one(test, sender):
    """Run a test in this process; send whether it passed, or None where it was skipped, and what is to be printed."""
    result = unittest.TestResult()
    unittest.TestSuite([test]).run(result)
    told = [f"FAILED: {it.id()}\n{fault}" for it, fault in (*result.errors, *result.failures)]
    told += [f"FAILED: {it.id()}\nit passed, and has to fail\n" for it in result.unexpectedSuccesses]
    told += [f"skipped: {it.id()}: {reason}\n" for it, reason in result.skipped]
    is_skipped = result.wasSuccessful() and result.skipped
    sender.send((None if is_skipped else result.wasSuccessful(), "".join(told)))
    sys.stdout.flush()
    sys.stderr.flush()
    os._exit(0)  # whatever threads the test has left


def end_of(test, process, receiver):
    """Give what a test's process sends, or that it has ended without."""
    try:
        return receiver.recv()
    except (EOFError, OSError):
        process.join()
        return False, f"FAILED: {test.id()}\nits process ended with status {process.exitcode}, before the test did\n"
    finally:
        process.join()
        receiver.close()


def run_beside(tests):
    """Run tests, MOST at once; give whether each passed, and print the failures and what was skipped."""
    waiting, running, results = iter(tests), {}, []
    while True:
        for test in itertools.islice(waiting, MOST - len(running)):
            receiver, sender = FORK.Pipe(duplex=False)
            process = FORK.Process(target=run_one, args=(test, sender))
            process.start()
            sender.close()
            running[receiver] = test, process
        if not running:
            return results
        for receiver in multiprocessing.connection.wait(running):
            result, told = end_of(*running.pop(receiver), receiver)
            results.append(result)
            print(told, end="", flush=True)


def main(usage, modules, arguments):
    """Run all tests of the modules of these names, and return the status."""
    if len(arguments) > 2 or any(it.startswith("-") for it in arguments):
        print(usage, file=sys.stderr)
        return 2
    places = [pathlib.Path(it).resolve() for it in arguments]
    settings["program"] = places[0] if places else settings["program"]
    settings["shims"] = places[1] if places[1:] else build_shims()
    tests, results = [], []
    for name in modules:
        found = list(tests_of(unittest.defaultTestLoader.loadTestsFromName(name)))
        tests += found
        if not found:
            results.append(False)
            print(f"FAILED: {name}: it has no tests", flush=True)
    # Tests in cases are the longest.
    results += run_beside(sorted(tests, key=is_case, reverse=True))
    print(f"{results.count(True)} passed, {results.count(False)} failed")
    return int(False in results)
