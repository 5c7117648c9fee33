"""The page: what is on it, in which order."""

from collections import namedtuple
from pathlib import Path

from reporting.html import head_of_page, moment, named, number, path_text, place_text, rest, row, section, several, shown, table, text
from reporting.matrix import matrix
from reporting.sums import Opened, Users
from reporting.through import through

HERE = Path(__file__).resolve().parent
# How many users stand among those who can write most, how many folders that anyone can read or write, how many ids without an
# account, and how many users and folders of which something changed.
MOST_WRITERS = 10
MOST_FOLDERS = 10
MOST_STRANGERS = 100
MOST_CHANGED = 200

# What the page tells of: the listing's name and time, whose accounts, the survey, the sums of its tree and users, the paths that anyone
# can write, what users with the ids of removed accounts could write, what changed, since when, and what the program said.
Found = namedtuple("Found", "name made_at accounts survey tree users sums opened heirs changes before said")

UNKNOWN = """This page doesn’t know the folders above those of the listing, root (uid 0), who may do nearly everything,
or who may delete and rename a file, which the letters of its folder and its sticky bit decide; what changed is
compared only for the users in the accounts. Its numbers are sums of proved answers: <code>aclctl who --reach</code>
answers what Linux decides for each user and file by its list and those of the folders above it, and
<code>aclctl impact --reach</code> where two such answers differ. A script that is tested, and not proved, adds them up."""
FOLDERS = """The listing doesn’t say which paths are folders. A folder here is a path with another below it, with a
default list or entries that are inherited, or with the sticky bit; an empty folder that has none counts as a file."""
STICKY = "By POSIX lists who can write in a folder without the sticky bit can delete there what others own."
# What is said of the paths that anyone can write, the worst first.
OPENED = (
    (Opened.FOLDERS, "folder", "folders", "without the sticky bit that anyone can write"),
    (Opened.OTHERS, "other path", "other paths", "that anyone can write"),
    (Opened.BOXES, "drop box", "drop boxes", "with the sticky bit that anyone can write"),
)
CHANGED = """What users reach is compared, by way of all folders above: if a folder was opened or closed, each file below
it counts too. Each number counts paths: those where a user gains or loses something, and those where that is
writing; new ones where a user may do something, and gone ones where a user could."""
HEIRS = """A new account that gets such an id could write this, by way of all folders above and without any group; where a ? stands that
wasn’t asked."""
UNCHANGED = "No user reaches more or less than before, by way of all folders above, and no path is new or gone."


def cards(found):
    """The numbers at the head of the page: each with its words, its class, and what a filter changes of it."""
    folders, reaching = len(found.tree.at), len(found.users.numbers)
    lost = sum(found.said.unanswered.values())
    yield number(folders), "folder" if folders == 1 else "folders", "", " data-of=folders"
    yield number(found.tree.whole.files), "file" if found.tree.whole.files == 1 else "files", "", ""
    yield number(reaching), f"of {several(len(found.accounts.users), 'user reaches', 'users reach')} something", "", " data-of=users"
    mistakes = found.opened.count() - found.opened.counts[Opened.BOXES]
    for count, one, more, words in ((mistakes, "path", "paths", "that anyone can write"), (lost, "block", "blocks", "not answered")):
        yield number(count), f"{one if count == 1 else more} {words}", "bad" if count else "good", ""
    if found.changes:
        counts = found.changes.counts
        yield number(sum(counts.values())), "paths changed, new or gone", "", ""


def top(found):
    """The head of the page."""
    boxes = "".join(f"<div class='card {kind}'{of}><b>{count}</b><span>{words}</span></div>" for count, words, kind, of in cards(found))
    since = f" It is compared with that of {found.before}." if found.before else ""
    made = f"<p class=made>Listing of {moment(found.made_at)}.{since}</p>"
    return f"<header><p class=over>Who reaches what</p><h1>{found.name}</h1>{made}<div class=cards>{boxes}</div></header>\n"


def paths(raws, count):
    """A list of paths, and how many more there are."""
    rows = "".join(f"<li class=p>{path_text(it)}" for it in raws)
    return f"<ul class=paths>{rows}</ul>{rest(count - len(raws), 'more')}"


def folded(summary, inside, is_open=False):
    """Something that is folded and unfolded by a click."""
    return f"<details{' open' if is_open else ''}><summary>{summary}</summary>{inside}</details>"


def anybody(found):
    """What a user in no group may do."""
    cells = [(it, *it.cell(Users.ANYBODY)) for it in found.tree.in_order()]
    _, _, reads, writes = cells[0]
    can = f"can read {several(reads, 'file', 'files')} and write {several(writes, 'file', 'files')}"
    words = f"Somebody who is in no group, and whom no list names, {can}."
    of_folders = [it for it in cells[1:] if it[0].level <= 2 and (it[2] or it[3])]
    of_folders.sort(key=lambda it: (-it[3], -it[2]))
    most = of_folders[:MOST_FOLDERS]
    rows = [row(("p", path_text(it.name)), ("n", number(reads)), ("n", number(writes))) for it, _, reads, writes in most]
    parts = [text(words)]
    if rows:
        parts.append(table((("", "Folder"), ("n", "Files read"), ("n", "Files written")), rows))
    if found.opened.counts[Opened.FOLDERS]:
        parts.append(text(STICKY))
    for kind, one, more, words in OPENED:
        if count := found.opened.counts[kind]:
            parts.append(folded(f"{several(count, one, more)} {words}", paths(found.opened.named[kind], count), kind != Opened.BOXES))
    return section("anyone", "What everybody can do", *parts)


def writers(found):
    """Who can write most."""
    written = {it: [0, *found.tree.whole.cell(it)[1:]] for it in found.users.numbers.values()}
    for folder in found.tree.in_order():
        for user, bits in enumerate(folder.letters):
            if bits & 2 and user in written:
                written[user][0] += 1
    order = sorted(written, key=lambda it: (-written[it][2], -written[it][0], found.users.names[it]))
    able = [it for it in order if written[it][2] or written[it][0]]
    if not able:
        return section("writers", "Who can write most", text("Nobody whom the accounts have can write anything."))
    rows = []
    for user in able[:MOST_WRITERS]:
        folders, reads, writes = written[user]
        counts = (("n", number(it)) for it in (writes, folders, reads))
        rows.append(row(("u", named(found.users.names[user])), *counts))
    more = rest(len(able) - MOST_WRITERS, "users besides who can write something")
    heads = (("", "User"), ("n", "Files written"), ("n", "Folders written"), ("n", "Files read"))
    return section("writers", "Who can write most", table(heads, rows), more)


def heir_text(counts):
    """What a user who gets an id could write, by the counts of folders and of files."""
    if not counts:
        return "?"
    told = ((counts[0], "folder", "folders"), (counts[1], "file", "files"))
    return ", ".join(several(*it) for it in told if it[0]) or "nothing"


def strangers(found):
    """The ids without an account."""
    known = found.survey.strangers
    if not known:
        return section("strangers", "Ids without an account", text("Each id that the listing has is that of an account."))
    words = {"owner": "owner", "group": "group", "user": "user in an entry"}
    rows = []
    for (role, it), (count, path) in found.survey.first_strangers(MOST_STRANGERS):
        could = heir_text(found.heirs.counts.get(it)) if role != "group" and it else ""
        rows.append(row(("", words[role]), ("n", str(it)), ("n", number(count)), ("", could), ("p", path_text(path))))
    more = rest(len(known) - MOST_STRANGERS, "more ids")
    heads = (("", "Is"), ("n", "Id"), ("n", "Named by"), ("", "Could write"), ("", "The first of them"))
    return section("strangers", "Ids without an account", text(HEIRS), table(heads, rows), more)


def unanswered(found):
    """The blocks that weren't answered, as the program tells of them."""
    said = found.said
    if not said.lines:
        return section("unanswered", "What wasn’t answered", text("Every block was answered."))
    lost = ((several(count, "block", "blocks"), shown(name)) for name, count in said.unanswered.items())
    counts = "".join(text(f"{blocks} of {name}: who may do what there isn’t known.") for blocks, name in lost)
    lines = "\n".join(shown(it) for it in said.lines)
    more = text(f"And {number(said.more)} more lines.") if said.more else ""
    return section("unanswered", "What wasn’t answered", counts, folded("What the program says", f"<pre>{lines}</pre>{more}"))


def changed_users(changes):
    """What changed, by user."""
    order = sorted(changes.users.items(), key=lambda it: (-it[1].gained_write, -it[1].gained, it[0]))
    rows = []
    for name, it in order[:MOST_CHANGED]:
        cells = (it.gained, it.gained_write, it.lost, it.lost_write, it.new, it.gone)
        rows.append(row(("u", named(name)), *(("n", number(count) if count else "") for count in cells)))
    more = rest(len(order) - MOST_CHANGED, "more users")
    heads = ("gains", "gains writing", "loses", "loses writing", "new", "gone")
    return f"<div>{table((('', 'User'), *(('n', it) for it in heads)), rows)}{more}</div>" if rows else ""


def changed_folders(changes):
    """What changed, by folder."""
    order = sorted(changes.folders.items(), key=lambda it: (-it[1].differ, -it[1].new - it[1].gone, it[0]))
    rows = []
    for place, it in order[:MOST_CHANGED]:
        cells = (it.differ, it.new, it.gone, len(it.names))
        rows.append(row(("p", place_text(place or b".")), *(("n", number(count) if count else "") for count in cells)))
    more = rest(len(order) - MOST_CHANGED, "more folders")
    heads = ("changed", "new", "gone", "users concerned")
    return f"<div>{table((('', 'In folder'), *(('n', it) for it in heads)), rows)}{more}</div>" if rows else ""


def changed_paths(changes):
    """The first changes, one by one: those who lose and gain the same have one row."""
    rows = []
    for path, lines in changes.named["differ"]:
        alike = {}
        for name, *change in lines:
            alike.setdefault(tuple(map(shown, change)), []).append(named(name))
        rows += (row(("p", path_text(path)), ("u", ", ".join(who)), ("", lost), ("", gained)) for (lost, gained), who in alike.items())
    count = changes.counts["differ"]
    if not rows:
        return ""
    heads = (("", "Path"), ("", "Users"), ("", "loses"), ("", "gains"))
    shown_count = len(changes.named["differ"])
    what = f"{several(count, 'changed path', 'changed paths')}" + (f", of which the first {shown_count}" if shown_count < count else "")
    return folded(what, table(heads, rows))


def changed(found):
    """What changed since the listing before."""
    changes = found.changes
    if not changes:
        return ""
    if not any(changes.counts.values()):
        return section("changes", "What changed", text(UNCHANGED))
    beside = f"<div class=beside>{changed_users(changes)}{changed_folders(changes)}</div>"
    parts = [text(CHANGED), beside, changed_paths(changes)]
    for kind in ("new", "gone"):
        if changes.counts[kind]:
            named = [path for path, _ in changes.named[kind]]
            what = f"{several(changes.counts[kind], 'path that is', 'paths that are')} {kind}"
            parts.append(folded(what, paths(named, changes.counts[kind])))
    return section("changes", "What changed", *parts)


BAR = """<div id=bar hidden><label>User <input id=user type=search placeholder="part of a name"></label>
<label>Path <input id=path type=search placeholder="part of a path"></label><button id=unfold type=button>Unfold all</button>
<button id=fold type=button>Fold</button><output id=count></output></div>
"""


def page_of(found):
    """The page as text."""
    folders, columns = matrix(found.sums)
    script = (HERE / "page.js").read_text()
    notes = section("notes", "What this page doesn’t know", text(UNKNOWN), text(FOLDERS))
    glance = f"<div class=glance>{anybody(found)}{writers(found)}</div>"
    reach = section("reach", "Folders by users", folders)
    body = (top(found), glance, changed(found), BAR, reach, through(found.sums), strangers(found), unanswered(found), notes)
    head = head_of_page(f"Who reaches what: {found.name}", columns, script)
    return f"{head}<body><main>{''.join(body)}</main><script>{script}</script></body></html>\n"
