"""How the tests here end: what they found wrong, how many checks they made, and their closing line."""


def enough(name, count, least):
    """The check that a group made as many checks as there are, so that what is no longer tried is seen."""
    return f"{name}: {least} checks at least", [] if count >= least else [f"{count} were made"]


def pinned(what, found, wanted):
    """The check that as many were read as there are."""
    return f"there are {wanted} {what}", [] if found == wanted else [f"{found} were read"]


def counted(name, checks, least):
    """The checks of a group, and that it made as many as there are."""
    count = 0
    for check in checks:
        count += 1
        yield check
    yield enough(name, count, least)


def tally(checks):
    """Tells what checks found wrong, each given with its name, and how many passed and failed. Answers the status."""
    passed = failed = 0
    for name, found in checks:
        failed += bool(found)
        passed += not found
        for fault in found:
            print(f"FAILED: {name}: {fault}", flush=True)
    print(f"{passed} passed, {failed} failed")
    return 1 if failed else 0
