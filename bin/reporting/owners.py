"""For each owner of a folder a page and a table of who reaches what is in it, to keep or to remove."""

import csv
from html import escape
from pathlib import Path
from urllib.parse import quote

from reporting.cells import cell_of
from reporting.html import head_of_page, moment, named, number, path_text, rest, row, several, shown, text, text_of
from reporting.matrix import LETTERS
from reporting.names import unescaped
from reporting.sums import Users
from reporting.through import plain_ways

# How many rows a page has at most; the table has all.
MOST_ROWS = 5000
COLUMNS = ("folder", "user", "permissions", "through", "files read", "files written", "files", "keep or remove", "date", "signature")
HEADS = ("Who", "On the folder", "Through", "Files read", "Files written", "Keep", "Remove")
ASKED = """Please mark for each row whether it shall stay, and hand the page back with date and signature. A row has the
letters of a user on the folder itself: <b>r</b> lists what is in it, <b>w</b> creates files there, <b>x</b> passes
through; through which groups or entries of lists the user has them or reaches files; and how many of the files in it and below the user can
read and write, by way of all folders above them. <i>Anyone</i>
is somebody who is in no group and whom no list names; who has the same as anyone has no row, and neither has root."""
SIGNED = "<p class=signed><span>Date</span><span>Signature</span></p>"


def reached(folder, users, order):
    """Who reaches something of a folder besides its owner: the users' names and numbers, and their cells."""
    anyone = folder.cell(Users.ANYBODY)
    if any(anyone):
        yield None, Users.ANYBODY, anyone
    for user in order:
        cell = folder.cell(user)
        if any(cell) and cell != anyone and unescaped(users.names[user]) != folder.owner:
            yield users.names[user], user, cell


def of_owners(tree):
    """The folders of each owner, in the order of the listing."""
    found = {}
    for folder in tree.in_order():
        if folder.owner:
            found.setdefault(folder.owner, []).append(folder)
    return found


def table_rows(folders, sums, order):
    """The rows of the table of an owner."""
    for folder in folders:
        for name, number, (bits, reads, writes) in reached(folder, sums.users, order):
            user = "(anyone)" if name is None else text_of(unescaped(name))
            ways = plain_ways(sums, folder.ways_of(number))
            cells = text_of(unescaped(folder.name)), user, LETTERS[bits].replace("-", ""), ways, reads, writes, folder.files
            yield [*(cell_of(it) if isinstance(it, str) else it for it in cells), "", "", ""]


def page_rows(folders, sums, order):
    """The rows of the page of an owner: of each folder its own, and one of each who reaches something."""
    for folder in folders:
        files = f"<small>{several(folder.files, 'file', 'files')}</small>"
        head = f"<tr class=folder><th scope=rowgroup colspan={len(HEADS)}>{path_text(folder.name)}{files}"
        rows = [*reached(folder, sums.users, order)]
        yield head if rows else f"{head}<small>nobody else reaches anything</small>"
        for name, user, (bits, reads, writes) in rows:
            who, counts = "<i>anyone</i>" if name is None else named(name), (("n", number(it) if it else "") for it in (reads, writes))
            ways = escape(plain_ways(sums, folder.ways_of(user)))
            yield row(("u", who), ("m", LETTERS[bits]), ("by", ways), *counts, ("box", ""), ("box", ""))


def page_of(owner, folders, found, order):
    """The page of an owner, as text."""
    rows = [*page_rows(folders, found.sums, order)]
    heads = "".join(f"<th scope=col>{it}" for it in HEADS)
    table = f"<table class=asked><thead><tr>{heads}</thead><tbody>{''.join(rows[:MOST_ROWS])}</tbody></table>"
    top = f"<p class=over>Who reaches the folders of</p><h1>{shown(owner)}</h1><p class=made>{found.name}, listing of {moment(found.made_at)}</p>"
    more = rest(len(rows) - MOST_ROWS, "more rows, which are in the table beside this page")
    body = f"<header>{top}</header><section>{text(ASKED)}{table}{more}{SIGNED}</section>"
    return f"{head_of_page(f'Folders of {shown(owner)}', 6)}<body class=owner><main>{body}</main></body></html>\n"


def file_name(owner):
    """What the files of an owner are called."""
    return quote(owner, safe="").replace(".", "%2E", 1) if owner.startswith(b".") else quote(owner, safe="")


def write(found, into):
    """Writes the page and the table of each owner into a folder, which is made if it isn't there. Returns how many owners there are."""
    into, users = Path(into), found.users
    into.mkdir(exist_ok=True)
    order = sorted(users.numbers.values(), key=lambda it: (text_of(unescaped(users.names[it])).casefold(), it))
    owners = of_owners(found.tree)
    for owner, folders in owners.items():
        name = file_name(owner)
        (into / f"{name}.html").write_text(page_of(owner, folders, found, order), encoding="utf-8", errors="backslashreplace")
        with open(into / f"{name}.csv", "w", encoding="utf-8", newline="") as out:
            cells = csv.writer(out)
            cells.writerow(COLUMNS)
            cells.writerows(table_rows(folders, found.sums, order))
    return len(owners)
