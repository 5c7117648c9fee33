"""Answers of the program as rows: of each line, or of the lines about one list, what stands in which column."""

import re
from collections import namedtuple

from reporting.names import unescaped

# What answers have: its columns but for the path and the owner, those by which rows are counted, and how its rows are read.
Form = namedtuple("Form", "columns counted rows")
# The letters of `who` at the beginning of a line, three or fourteen.
LETTERS = rb"[r-][w-][x-](?:[p-][d-][D-][a-][A-][R-][W-][c-][C-][o-][s-])?"
WHO = re.compile(rb"(" + LETTERS + rb") ([^ ]+) (.+)", re.DOTALL)
GRANTED = re.compile(rb"([^ ]+) (.+)", re.DOTALL)
# The entries by which `who --via` says that something is granted, and its lines with letters and without.
ENTRIES = rb"(-|(?:owner|user|group(?::[0-9]+)?|other|mask|[0-9]+)(?:,(?:user|group(?::[0-9]+)?|other|mask|[0-9]+))*)"
WHO_VIA = re.compile(rb"(" + LETTERS + rb") ([^ ]+) " + ENTRIES + rb" (.+)", re.DOTALL)
GRANTED_VIA = re.compile(rb"([^ ]+) " + ENTRIES + rb" (.+)", re.DOTALL)
DIFFER = re.compile(rb"(differ) ([^ ]+) ([0-9]+) ([0-9,]+|-) ([^ ]+) ([^ ]+) (.+)", re.DOTALL)
BECAME = re.compile(rb"(new|gone) (.+)", re.DOTALL)
CHANGED = re.compile(rb"(changed) ([a-z,]+) (.+)", re.DOTALL)
# Of `why`: the first line, the one before what is said of a list, and that.
DECISION = re.compile(rb"granted|denied")
ASKED = re.compile(rb"(folder|file|delete|delete-child|add|sticky) (.+) (granted|denied|-)", re.DOTALL)
OWNER = re.compile(rb"(owner) ([0-9]+) (.+)", re.DOTALL)
CLASS = re.compile(rb"class (\w+)")
MASK = re.compile(rb"mask (\S+)")
ENTRY = re.compile(rb"entry (.+)|([rwaxdD] (?:[0-9]+|-) .+)")


class NoRow(Exception):
    """A line that isn't one of the answer: its number, and itself."""

    def __str__(self):
        return f"line {self.args[0]} is none of such an answer: {self.args[1][:200].decode(errors='backslashreplace')}"


class IsVia(Exception):
    """A first line that is of `who --via`, or of a path that begins as if it were: itself."""

    def __str__(self):
        line = self.args[0][:200].decode(errors="backslashreplace")
        return f"line 1 is of who --via, or its path begins like that: give --via, or else --no-via: {line}"


def letters_of(raw):
    """Permissions without the signs of those that are denied."""
    return raw.replace(b"-", b"")


def entries_of(raw):
    """Entries with blanks between them; none for the sign of none."""
    return b"" if raw == b"-" else raw.replace(b",", b" ")


def who_rows(lines):
    """The rows of `who`: letters, user and path."""
    for number, line in lines:
        found = WHO.fullmatch(line)
        if not found:
            raise NoRow(number, line)
        yield {"user": unescaped(found[2]), "permissions": letters_of(found[1]), "path": unescaped(found[3])}


def granted_rows(permissions):
    """Reads rows of `who` with permissions that were asked for: user and path."""

    def rows(lines):
        for number, line in lines:
            found = GRANTED.fullmatch(line)
            if not found:
                raise NoRow(number, line)
            yield {"user": unescaped(found[1]), "permissions": permissions, "path": unescaped(found[2])}

    return rows


def who_via_rows(lines):
    """The rows of `who --via`: letters, user, entries and path."""
    for number, line in lines:
        found = WHO_VIA.fullmatch(line)
        if not found:
            raise NoRow(number, line)
        yield {"user": unescaped(found[2]), "permissions": letters_of(found[1]), "via": entries_of(found[3]), "path": unescaped(found[4])}


def granted_via_rows(permissions):
    """Reads rows of `who --via` with permissions that were asked for: user, entries and path."""

    def rows(lines):
        for number, line in lines:
            found = GRANTED_VIA.fullmatch(line)
            if not found:
                raise NoRow(number, line)
            yield {"user": unescaped(found[1]), "permissions": permissions, "via": entries_of(found[2]), "path": unescaped(found[3])}

    return rows


def impact_rows(lines):
    """The rows of `impact`. A user who isn't named is somebody of this uid, in these groups."""
    for number, line in lines:
        if found := DIFFER.fullmatch(line):
            what, name, uid, gids, lost, gained, path = found.groups()
            row = {"what": what, "user": b"" if name == b"-" else unescaped(name), "uid": uid, "lost": letters_of(lost)}
            yield {**row, "gids": b"" if gids == b"-" else gids.replace(b",", b" "), "gained": letters_of(gained), "path": unescaped(path)}
        elif found := BECAME.fullmatch(line):
            yield {"what": found[1], "path": unescaped(found[2])}
        elif found := CHANGED.fullmatch(line):
            yield {"what": found[1], "changed": found[2].replace(b",", b" "), "path": unescaped(found[3])}
        else:
            raise NoRow(number, line)


def why_rows(lines):
    """The rows of `why`: the answer, and each list with what decides in it; of an owner the uid stands in place of entries."""
    row, entries = None, []
    for number, line in lines:
        if row is None and DECISION.fullmatch(line):
            row = {"what": b"answer", "decision": line}
        elif row and (found := ASKED.fullmatch(line)):
            yield {**row, "entries": b"; ".join(entries)}
            row, entries = {"what": found[1], "path": unescaped(found[2]), "decision": found[3]}, []
        elif row and (found := OWNER.fullmatch(line)):
            yield {**row, "entries": b"; ".join(entries)}
            row, entries = {"what": found[1], "path": unescaped(found[3])}, [found[2]]
        elif row and (found := CLASS.fullmatch(line)):
            row["class"] = found[1]
        elif row and (found := MASK.fullmatch(line)):
            row["mask"] = found[1]
        elif row and (found := ENTRY.fullmatch(line)):
            entries.append(found[1] or found[2])
        else:
            raise NoRow(number, line)
    if row:
        yield {**row, "entries": b"; ".join(entries)}


WHO_FORM = Form(("user", "permissions"), ("user", "permissions"), who_rows)
VIA_FORM = Form(("user", "permissions", "via"), ("user", "permissions", "via"), who_via_rows)
IMPACT_FORM = Form(("what", "user", "uid", "gids", "lost", "gained", "changed"), ("what", "user", "lost", "gained", "changed"), impact_rows)
WHY_FORM = Form(("what", "decision", "class", "entries", "mask"), (), why_rows)
# By what the first line is: the form of the answer.
FORMS = ((WHO, WHO_FORM), (DIFFER, IMPACT_FORM), (BECAME, IMPACT_FORM), (CHANGED, IMPACT_FORM), (DECISION, WHY_FORM))


def granted_form(permissions, has_via=False):
    """The form of an answer to `who` with permissions that were asked for."""
    return VIA_FORM._replace(rows=granted_via_rows(permissions)) if has_via else WHO_FORM._replace(rows=granted_rows(permissions))


def is_via(form, line):
    """Whether a first line of this form may be of `who --via`."""
    shape = None if form.columns != WHO_FORM.columns else WHO_VIA if form is WHO_FORM else GRANTED_VIA
    return bool(shape and shape.fullmatch(line))


def lines_of(answer):
    """The lines of an answer, without their ends, by their numbers. One without an end was cut."""
    for number, line in enumerate(answer, 1):
        if not line.endswith(b"\n"):
            raise NoRow(number, line)
        yield number, line[:-1]


def form_of(line):
    """The form of the answer that begins with this line."""
    found = next((form for shape, form in FORMS if shape.fullmatch(line)), None)
    if not found:
        raise NoRow(1, line)
    return found


def folder_at(path, depth):
    """The folder in which a path is, so many steps deep at most: `.` or `/` without a step."""
    start = b"/" if path.startswith(b"/") else b""
    steps = [it for it in path.split(b"/") if it not in (b"", b".")]
    return start + b"/".join(steps[:-1][:depth]) or b"."


def counted(rows, form, depth):
    """By the folder, so many steps deep, and by what its rows have in the columns that are counted: how many paths."""
    counts = {}
    for row in rows:
        key = (folder_at(row["path"], depth), *(row.get(it, b"") for it in form.counted))
        counts[key] = counts.get(key, 0) + 1
    return counts
