"""What the tests of the printer share: checks that are counted, and programs that are run."""

import subprocess
import sys

UNSOUND = b"UNSOUND\n"
passed = 0
failures = []


def check(holds, what):
    global passed
    if holds:
        passed += 1
    else:
        failures.append(what)
        if len(failures) <= 20:
            print(f"FAILED {what}")
    return holds


def equal(found, wanted, what):
    return check(found == wanted, f"{what}: {short(found)} instead of {short(wanted)}")


def short(value):
    text = repr(value)
    return text if len(text) <= 300 else text[:300] + "..."


def ran(words, given=b"", **more):
    """Exit status, standard output and standard error."""
    done = subprocess.run(words, input=given, capture_output=True, timeout=120, **more)
    return done.returncode, done.stdout, done.stderr


def ended(name):
    """The last line, and the exit status of the test."""
    if failures:
        print(f"{name}: {len(failures)} of {passed + len(failures)} checks FAILED")
        sys.exit(1)
    assert passed, "no check was made"
    print(f"{name}: {passed} checks passed")
