"""What the tests of the desk count: same(what, got, expected) compares, end() prints 'N passed, M failed' and leaves."""
import sys

passed = failed = 0


def same(what, got, expected):
    global passed, failed
    passed, failed = passed + (got == expected), failed + (got != expected)
    if got != expected:
        print(f"{what}: {got!r}, expected {expected!r}")


def end():
    print(f"{passed} passed, {failed} failed")
    sys.exit(failed != 0)
