"""The table of folders by users."""

import re
from html import escape

from reporting.html import name_text, named, number, several, shown, text
from reporting.sums import Users
from reporting.through import Cells

# How many cells a page has at most: it has some 5 MB then. A row's head is as long as three cells.
MOST_CELLS = 100_000
OF_HEAD = 3
# The letters of a folder, by their bits.
LETTERS = ["".join(it if bits & bit else "-" for it, bit in (("r", 4), ("w", 2), ("x", 1))) for bits in range(8)]
# How deep rows are set in, at most.
DEEPEST = 9
# Where the name of a user may go on in the next line.
JOINT = re.compile(r"(?<=[._@\\-])(?=.)")
MEANING = """Each row is a folder and each column a user. A cell has the letters of the folder itself: <b>r</b> lists
what is in it, <b>w</b> creates files there, <b>x</b> passes through. Beside its name stand its files and its owner. Below
the letters stands how many of the files in
it and below the user can read (r) and write (w), by way of all folders above them. An empty cell is nothing at all. Under the
pointer, and where a filter leaves one or two users, a cell says through which groups and entries that is."""
COLOURS = """<span class=w>The folder or most files can be written</span> <span class=v>some files can be
written</span> <span class=r>something can be read</span> <span class=x>passing through</span>"""
SUMMED_UP = """A page holds some {cells} cells. So folders below level {level} have no rows of their own: they are
summed up in those above them."""
ANYONE = "<i>Anyone</i> is somebody who is in no group and whom no list names."


def level_of(tree, columns):
    """The deepest level of which each folder has a row, and whether there are deeper ones."""
    counts = {}
    for folder in tree.in_order():
        counts[folder.level] = counts.get(folder.level, 0) + 1
    rows, level = 0, -1
    while level + 1 in counts and (rows + counts[level + 1]) * (columns + OF_HEAD) <= MOST_CELLS:
        level += 1
        rows += counts[level]
    return max(level, 0), level + 1 in counts


def counted(letter, count, files):
    """How many files are read or written; the blank isn't one at which lines are cut."""
    return f" {letter}\u00a0{'all' if count == files else count}" if count else ""


def cell(folder, user):
    """The cell of a folder and a user."""
    bits, reads, writes = folder.cell(user)
    if not (bits or reads or writes):
        return "<td>"
    is_open = bits & 2 or 2 * writes > folder.files
    kind = "w" if is_open else "v" if writes else "r" if bits & 4 or reads else "x"
    letters = f"<b>{LETTERS[bits]}</b>" if folder.level else ""
    return f"<td class={kind}>{letters}{counted('r', reads, folder.files)}{counted('w', writes, folder.files)}"


def name_of(folder, over):
    """The name of a folder, as the row in that above it tells it."""
    if not folder.level:
        return "The whole listing"
    front = over.name + b"/"
    inner = folder.name[len(front) :] if over.level and folder.name.startswith(front) else folder.name
    return named(inner)


def owner_of(folder):
    """Whose a folder is."""
    return f"<em>{shown(folder.owner)}</em>" if folder.owner else ""


def row(folder, over, users, cells):
    """The row of a folder."""
    level = min(folder.level, DEEPEST)
    files = f"<small>{several(folder.files, 'file', 'files')}</small>{owner_of(folder)}"
    head = f"<tr data-l={folder.level}{cells.of_row(folder, users)}><th scope=row class=l{level}><span>{name_of(folder, over)}</span>{files}"
    return head + "".join(cell(folder, it) for it in users)


def first_of(tree):
    """The folder of the first row: the only one that all is in, or the whole listing."""
    whole = tree.whole
    return whole.inner[0] if len(whole.inner) == 1 and whole.inner[0].files == whole.files else whole


def rows(tree, users, deepest, cells):
    """The rows of the folders down to a level."""
    waiting = [(first_of(tree), tree.whole)]
    while waiting:
        folder, over = waiting.pop()
        yield row(folder, over, users, cells)
        if folder.level < deepest:
            waiting.extend((it, folder) for it in reversed(folder.inner))


def head_of(name):
    """The head of a user's column."""
    told = name_text(name)
    title = f' title="{escape(told)}"' if len(told) > 9 else ""
    return f"<th scope=col{title}>" + "<wbr>".join(escape(it) for it in JOINT.split(told))


def head(users, names, like_anyone):
    """The first row: who the columns are. The filter finds that of anyone by the names of those who are like that, too."""
    also = escape(" ".join(name_text(names[it]) for it in like_anyone))
    anyone = f'<th scope=col data-also="{also}"><i>anyone</i>'
    return f"<thead><tr><th scope=col>Folder{anyone}{''.join(head_of(names[it]) for it in users)}</thead>"


def divided(tree, users):
    """The users by their names: those who have a column, and those whose cells are all those of anyone."""
    order = sorted(users.numbers.values(), key=lambda it: (name_text(users.names[it]).casefold(), it))
    unlike = set()
    for folder in tree.in_order():
        of_anybody = folder.cell(Users.ANYBODY)
        unlike.update(it for it in order if it not in unlike and folder.cell(it) != of_anybody)
    return [it for it in order if it in unlike], [it for it in order if it not in unlike]


def like_text(names, like_anyone):
    """Who is like anyone."""
    if not like_anyone:
        return text(ANYONE)
    who = ", ".join(named(names[it]) for it in like_anyone)
    words = f"{several(len(like_anyone), 'user has', 'users have')} the same in each row, and no column"
    return text(f"{ANYONE} {words}: {who}." if len(like_anyone) <= 40 else f"{ANYONE} {words}.")


def matrix(sums):
    """The table, what it means, and what of it the page has no room for."""
    tree, users, cells = sums.tree, sums.users, Cells(sums)
    own, like_anyone = divided(tree, users)
    columns = [Users.ANYBODY, *own]
    deepest, is_cut = level_of(tree, len(columns))
    parts = [text(MEANING), f"<p class=colours>{COLOURS}</p>", like_text(users.names, like_anyone)]
    if is_cut:
        parts.append(f"<p class=note>{SUMMED_UP.format(cells=number(MOST_CELLS), level=deepest)}</p>")
    body = [*rows(tree, columns, deepest, cells)]
    ways = "&#10;".join(cells.texts)
    parts.append(f'<div class=scroll><table id=folders data-ways="{ways}">{head(own, users.names, like_anyone)}<tbody>')
    parts.extend(body)
    parts.append("</tbody></table></div>\n")
    return "".join(parts), len(columns)
