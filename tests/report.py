"""What a script here prints: a line for each case that failed, and last 'N passed, M failed'."""


def report(cases):
    """Takes (name, whether it is good, what was seen) of each case; gives the status, 0 if none
    failed."""
    passed, failed = 0, 0
    for name, good, detail in cases:
        passed, failed = passed + good, failed + (not good)
        if not good:
            print(f"{name}: {detail}")
    print(f"{passed} passed, {failed} failed")
    return 1 if failed else 0
