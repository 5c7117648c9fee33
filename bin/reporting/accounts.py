"""Accounts as `getent passwd; getent group` prints them, as far as the page tells of them."""

from reporting.names import unescaped

# Whose accounts are taken if no file is given, as the program takes them.
OWN_ACCOUNTS = ("/etc/passwd", "/etc/group")


class Accounts:
    """Which users and groups there are."""

    def __init__(self):
        self.users = set()
        # By uid and by gid, the name of the first user or group who has it.
        self.uids, self.gids = {}, {}

    def read(self, file):
        """Reads the accounts of a file. What is no account isn't told here: the program tells it."""
        for line in file:
            fields = line.rstrip(b"\n").split(b":")
            if line[:1] in b"#+-" or len(fields) not in (4, 7) or not fields[2].isdigit():
                continue
            number = int(fields[2])
            if len(fields) == 4:
                self.gids.setdefault(number, fields[0])
                continue
            self.uids.setdefault(number, fields[0])
            if number != 0:
                self.users.add(fields[0])
        return self

    def owner(self, text):
        """The name of an owner as it is, of what a listing has: a name, or a number of a user or of nobody."""
        return self.uids.get(int(text), text) if text.isdigit() else unescaped(text)

    def group(self, text):
        """The same of a group."""
        return self.gids.get(int(text), text) if text.isdigit() else unescaped(text)

    def has(self, role, number):
        """Whether a user or a group has this id."""
        return number in (self.gids if role == "group" else self.uids)


def accounts_of(name):
    """Who there is, by a file or by this host's own."""
    accounts = Accounts()
    for file in [name] if name else OWN_ACCOUNTS:
        with open(file, "rb") as lines:
            accounts.read(lines)
    return accounts
