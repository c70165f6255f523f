"""How a test fails."""


def check(good, *what):
    """Fails with what was being looked at. (A plain assert would vanish under -O.)"""
    if not good:
        raise AssertionError(" ".join(repr(part) for part in what))


def same(found, wanted, *what):
    check(found == wanted, found, "is not", wanted, *what)
