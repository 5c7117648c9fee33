"""Through which entries of lists users reach what: through which group, as owner, by name, or as anyone may."""

from html import escape

from reporting.entries import WORDS
from reporting.folders import READ
from reporting.html import named, number, rest, row, section, several, table, text, text_of

# How many users and ways have a row, how many ways a row or a cell names, and how many different cells there are.
MOST_ROWS = 200
MOST_WAYS = 6
MOST_CELLS = 5000
MEANING = """A file’s list grants something to its <i>owner</i>, <i>by name</i> to a user, to a <i>group</i> (the file’s, or one that an entry
names), or to <i>anyone</i>; of two groups beside a + each grants a part. With each stand the files that are read (r) and written (w) that
way. Who leaves a group may still pass the folders above, and may then be one of the others."""
DIGITS = "0123456789abcdefghijklmnopqrstuvwxyz"


def plain_way(words):
    """The text of a way."""
    groups = [text_of(it) for is_group, it in words if is_group]
    told = [f"group{'s' if len(groups) > 1 else ''} {' + '.join(groups)}"] if groups else []
    return " + ".join([*(WORDS[it] for is_group, it in words if not is_group), *told]) or "no entry"


def way_text(words):
    """The same as text of a page."""
    return escape(plain_way(words))


def ordered(sums, ways):
    """These ways, those of most files first."""
    return sorted(ways, key=lambda it: (-sums.files.get(it, 0), it))


def plain_ways(sums, ways):
    """The text of some ways."""
    order = ordered(sums, ways)
    more = [f"{len(order) - MOST_WAYS} more ways"] if len(order) > MOST_WAYS else []
    return ", ".join([*(plain_way(sums.entries.words[it]) for it in order[:MOST_WAYS]), *more])


def files_text(files):
    """How many files are read and written, which stand in one number."""
    counts = (("r", files // READ), ("w", files % READ))
    return "\u00a0".join(f"{letter}\u00a0{number(count)}" for letter, count in counts if count)


class Cells:
    """What the cells of a table say of ways: each text once, and of each cell its number."""

    def __init__(self, sums):
        self.sums, self.numbers, self.texts = sums, {}, []

    def number(self, ways):
        """The number of the text of some ways, in digits of base 36; none of none."""
        if not ways:
            return ""
        ways = frozenset(ways)
        found = self.numbers.get(ways)
        if found is None:
            if len(self.texts) >= MOST_CELLS:
                ways = frozenset()
            if ways not in self.numbers:
                self.texts.append(escape(plain_ways(self.sums, ways)) if ways else "many ways")
                at = len(self.texts) - 1
                self.numbers[ways] = (DIGITS[at // 1296 % 36] + DIGITS[at // 36 % 36] + DIGITS[at % 36]).lstrip("0") or "0"
            found = self.numbers[ways]
        return found

    def of_row(self, folder, users):
        """The numbers of a row, as an attribute of it."""
        told = " ".join(self.number(folder.ways_of(it)) for it in users).rstrip()
        return f' data-v="{told}"' if told else ""


def by_user(sums):
    """By the number of a user, the files that the user reads and writes, by ways."""
    found = {}
    for (user, way), files in sums.of_ways.items():
        if user and files:
            found.setdefault(user, {})[way] = files
    return found


def of_users(sums):
    """The table of users: through what each reaches files."""
    found, names = by_user(sums), sums.users.names
    order = sorted(found, key=lambda it: (-sum(found[it].values()) // READ, names[it]))
    rows = []
    for user in order[:MOST_ROWS]:
        ways = sorted(found[user].items(), key=lambda it: (-it[1], it[0]))
        told = [f"{way_text(sums.entries.words[way])} <small>{files_text(files)}</small>" for way, files in ways[:MOST_WAYS]]
        told += [f"{several(len(ways) - MOST_WAYS, 'way', 'ways')} more"] if len(ways) > MOST_WAYS else []
        rows.append(row(("u", named(names[user])), ("by", ", ".join(f"<span>{it}</span>" for it in told))))
    return f"<div>{table((('', 'User'), ('', 'Reaches files through')), rows)}{rest(len(order) - MOST_ROWS, 'more users')}</div>"


def of_ways(sums):
    """The table of ways: how many users reach how many files in each."""
    users = {way: (of >> 1).bit_count() if hasattr(of, "bit_count") else bin(of >> 1).count("1") for way, of in sums.tree.whole.ways.items()}
    order = [it for it in ordered(sums, sums.files) if users.get(it)]
    rows = [
        row(("", way_text(sums.entries.words[it])), ("n", number(users[it])), ("n", number(sums.files[it])))
        for it in order[:MOST_ROWS]
    ]
    heads = (("", "Through"), ("n", "Users"), ("n", "Files"))
    return f"<div>{table(heads, rows)}{rest(len(order) - MOST_ROWS, 'more ways')}</div>"


def through(sums):
    """The section."""
    if not any(by_user(sums).values()):
        return section("through", "Through which groups and entries", text("Nobody whom the accounts have reaches a file."))
    return section("through", "Through which groups and entries", text(MEANING), f"<div class=beside>{of_users(sums)}{of_ways(sums)}</div>")
