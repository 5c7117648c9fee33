"""The command: its words, the questions to the program, and the page on standard output."""

import argparse
import os
import subprocess
import tempfile
import time

from reporting import owners
from reporting.accounts import accounts_of
from reporting.answers import Unread
from reporting.asking import NoPage, as_file, ask
from reporting.changes import Changes
from reporting.folders import Tree
from reporting.html import moment, named, several, shown
from reporting.listing import Survey
from reporting.page import MOST_STRANGERS, Found, page_of
from reporting.program import COMPARISON, NoProgram, program_of, tell
from reporting.sums import Heirs, Opened, Sums
from reporting.thinning import NotKept, Thinned, blocks_asked

# How often a list is decided at most for users with the ids of accounts that are gone.
MOST_DECIDED = 5_000_000


def words_given():
    """The words that the script was given."""
    about = "Writes a page of who reaches what of a listing, to hand on, to standard output."
    parser = argparse.ArgumentParser(description=about)
    accounts = "users and groups, as `getent passwd; getent group` prints them; this host's without it"
    parser.add_argument("--accounts", metavar="FILE", help=accounts)
    parser.add_argument("--before", metavar="LISTING", help="an earlier listing: the page says which users reach more or less since")
    of_owners = "a folder into which a page and a table are written for each owner of a folder"
    parser.add_argument("--owners", metavar="DIR", help=of_owners)
    parser.add_argument("listing", metavar="LISTING", help="what getfacl -R printed; - is standard input")
    given = parser.parse_args()
    if [given.accounts, given.before, given.listing].count("-") > 1:
        parser.error("- is given twice")
    return given


def accounts_given(name):
    """Who there is, by a file or by this host's own."""
    try:
        return accounts_of(name)
    except OSError as fault:
        raise NoPage(f"cannot read {fault.filename or name}: {fault.strerror}") from None


def made(name):
    """When a listing was made: the time of its file, or now if it came through a pipe."""
    seconds = os.stat(name).st_mtime
    return time.strftime("%Y-%m-%d %H:%M UTC", time.gmtime(seconds))


def survey_of(listing, accounts, room):
    """What the listing has; and what the program is asked about in its place: another listing, if that has fewer blocks, and for how many
    each of these stands."""
    thin = os.path.join(room, "thinned")
    try:
        with open(listing, "rb") as file, open(thin, "wb", buffering=0) as out:
            thinned = Thinned(out)
            survey = Survey(accounts).read(file, thinned)
            thinned.close()
    except OSError as fault:
        raise NoPage(f"cannot read {listing}: {fault.strerror}") from None
    except NotKept as fault:
        raise NoPage(f"cannot write {thin}: {fault}") from None
    return (survey, thin, thinned.counts) if thinned.is_exact else (survey, listing, None)


class Asker:
    """The program with the words that all questions share. The one of a checkout is built first, and says so."""

    def __init__(self, here, accounts, names):
        self.program, self.names = program_of(here), names
        self.whom = ["--accounts", accounts] if accounts else []
        if subprocess.run([self.program, "--version"], stdout=subprocess.DEVNULL).returncode:
            raise NoPage(f"cannot run {self.program}")

    def ask(self, listing, read, command, *words):
        """Asks a question about a listing, and has the answer read."""
        return ask(self.program, [command, *self.whom, *words, "-"], listing, self.names, read)

    def ask_in_order(self, listing, counts, read, *words):
        """Asks who reaches what of a listing, and has the answer read together with the blocks that were asked about."""
        with open(listing, "rb") as file:
            self.ask(listing, lambda answer: read(answer, blocks_asked(file, counts)), "who", "--reach", *words)


def share_of(folder):
    """The folder that all is in which a folder has: it, or the only one in it."""
    while len(folder.inner) == 1 and folder.inner[0].files == folder.files:
        folder = folder.inner[0]
    return folder


def name_of(tree):
    """The name of what the listing is of: its roots, without what is only above the share."""
    roots = [share_of(it) for it in tree.whole.inner]
    if not roots:
        return several(tree.whole.files, "file", "files")
    more = f" and {len(roots) - 3} more" if len(roots) > 3 else ""
    return ", ".join(named(it.name) for it in roots[:3]) + more


def found_by(given, here, room):
    """What the page tells of."""
    listing, accounts_file, before = (it and as_file(it, room) for it in (given.listing, given.accounts, given.before))
    accounts = accounts_given(accounts_file)
    survey, asked, counts = survey_of(listing, accounts, room)
    sums, changes = Sums(Tree(survey)), None
    names = {"-": given.listing, accounts_file: given.accounts, before: given.before}
    asker = Asker(here, accounts_file, {word: name for word, name in names.items() if word})
    nobody, opened = str(survey.nobody()), Opened()
    asker.ask_in_order(asked, counts, sums.read, "--via")
    asker.ask_in_order(asked, counts, sums.read_anybody, "--user", nobody)
    # Each list is decided for each of them: of a listing with many lists only few are asked about.
    most = min(MOST_STRANGERS, MOST_DECIDED // (len(counts or ()) or survey.blocks or 1))
    heirs = Heirs(survey.first_strangers(most), sums.tree)
    if heirs.counts:
        whom = [word for it in heirs.counts for word in ("--user", str(it))]
        asker.ask_in_order(asked, counts, heirs.read, "--perms", "w", *whom)
    words = ("--reach", "--perms", "w", "--user", nobody)
    said = asker.ask(listing, lambda answer: sums.read_opened(answer, opened), "who", *words)
    if before:
        changes = Changes()
        of_change = asker.ask(listing, changes.read, *COMPARISON, before)
        said.add(of_change, given.listing)
    sums.tree.add_up()
    since = before and f"{shown(os.fsencode(given.before))} of {moment(made(before))}"
    return Found(name_of(sums.tree), made(listing), accounts, survey, sums.tree, sums.users, sums, opened, heirs, changes, since, said)


def write_owners(found, folder):
    """Writes what each owner of a folder is asked."""
    try:
        owners.write(found, folder)
    except OSError as fault:
        raise NoPage(f"cannot write {fault.filename or folder}: {fault.strerror}") from None


def main(here):
    """Writes the page, and returns the exit status."""
    given = words_given()
    try:
        with tempfile.TemporaryDirectory(prefix="aclctl-report-") as room:
            found = found_by(given, here, room)
            page = page_of(found)
            if given.owners:
                write_owners(found, given.owners)
        with open(1, "w", encoding="utf-8", errors="backslashreplace", closefd=False) as out:
            out.write(page)
    except (NoPage, NoProgram, Unread) as fault:
        tell(fault)
        return 1
    except OSError as fault:
        tell(f"cannot write the page: {fault.strerror}")
        return 1
    return 0
