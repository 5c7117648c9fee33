"""Cells of a table for a spreadsheet."""

import re

# What a cell begins with that a spreadsheet takes for a formula, or from which an apostrophe was taken away if this isn't told.
FORMULA = re.compile(r"\s*[=+\-@\uff1d\uff0b\uff0d\uff20']|[\t\r\n]")


def cell_of(text):
    """A text as a cell: what would be a formula has an apostrophe before it, and so has what begins with one."""
    return f"'{text}" if FORMULA.match(text) else text
