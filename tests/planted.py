"""Planted differences: each test that compares has to find one, by the comparison that it makes of real runs."""

import sys


class Difference(Exception):
    """Something that is not as expected; its text is how."""


def must_find(title, compare, *given):
    """Makes a comparison with a planted difference, and ends the test if none is raised."""
    try:
        compare(*given)
    except Difference:
        return
    sys.exit(f"{title}: a planted difference was not found")


def turned(value):
    """The value with one bit turned: of a number the lowest, of a string or list the lowest of its last element.

    A missing number counts as 0, and an empty string or list gets an element.
    """
    if value is None or isinstance(value, int):
        return (value or 0) ^ 1
    return type(value)([*value[:-1], turned(value[-1] if value else None)])


# What a run of a program gave, changed in its output's last line, its exit status or its standard error
ALTERATIONS = (
    lambda output, status, errors: (turned(output[:-1]) + output[-1:], status, errors),
    lambda output, status, errors: (output, turned(status), errors),
    lambda output, status, errors: (output, status, turned(errors)),
)
