"""A listing in which one block stands for the files of a folder that are alike.

Files in one folder whose blocks differ in the name alone are answered alike: so the program is asked about the first of them, and the
script counts the others. Where it couldn't see in one pass which paths are folders, the program is asked about the whole listing."""

from array import array

from reporting.listing import blocks_of, path_of
from reporting.names import unescaped

# How long a block is at most that stands for others: the program refuses one that is twice as long, with its path.
LONGEST = 32_768
# How many kinds of files are known of a folder.
MOST_KINDS = 20_000
# How many bytes are written at once.
PIECE = 1 << 20


class NotKept(Exception):
    """Why what is kept of a listing can't be written."""


class Thinned:
    """What is kept of a listing: its folders, and of files that are alike in a folder the first of them, and those that aren't behind the
    folder or another file of it."""

    def __init__(self, out):
        self.out, self.pieces, self.size = out, [], 0
        # By the number of a block that is kept: for how many it stands.
        self.counts = array("Q")
        # The places of folders that are in each other and that nothing came since that isn't in them; each with what stands behind the path
        # in blocks of its files, and the numbers of the blocks that stand for these. Those of the last; and all folders there were.
        self.open, self.files, self.folders = [], {}, set()
        # The place of the folder of the block before, and the block's path; the block itself, if it is to be counted with another, and that
        # one's number; and what stands behind its path, if it stands for others.
        self.folder, self.path, self.waiting, self.at, self.body = None, None, None, 0, None
        self.is_exact = True

    def put(self, block, path, folder, is_file, body, facts):
        """Takes the next block, with its path and the place of its folder; it may be left out if it is a file with a plain name. Where it
        stands for others, what its text says is known of them."""
        if not self.is_exact:
            return
        self.settle()
        # Only behind the folder or another file of it a file is left out: the way to what comes behind it is the same then.
        is_beside = folder == self.folder or folder == self.path
        if folder != self.folder:
            self.turn_to(folder)
        self.folder, self.path, self.body = folder, path, None
        alike = self.files.get(body) if is_file else None
        if is_beside and alike:
            self.waiting, self.at = block, alike[0]
            return
        self.keep(block)
        if is_file and not alike and not facts.strangers and len(block) <= LONGEST and len(self.files) < MOST_KINDS:
            self.body, self.files[body] = body, (len(self.counts) - 1, facts)

    def repeat(self, block, path, at):
        """Takes a block of a plain file in the folder of the one before, which is like that of this number. Others between these two were
        counted already."""
        if self.is_exact:
            self.settle()
            self.waiting, self.at, self.path, self.body = block, at, path, None

    def turn_to(self, folder):
        """Has the files of a folder at hand. A folder to which the listing comes back from elsewhere isn't in order."""
        if folder in (None, b"", b"/"):
            self.open, self.files = [], {}
            return
        while self.open and folder != self.open[-1][0] and not folder.startswith(self.open[-1][0] + b"/"):
            self.open.pop()
        if not self.open or self.open[-1][0] != folder:
            self.is_exact = self.is_exact and folder not in self.folders
            self.open.append((folder, {}))
            self.folders.add(folder)
        self.files = self.open[-1][1]

    def settle(self):
        """Counts the block before with the one that stands for it: nothing that is in it came behind it."""
        if self.waiting is not None:
            self.counts[self.at] += 1
            self.waiting = None

    def is_folder(self):
        """That the block before is a folder: it stands for itself alone."""
        if self.waiting is not None:
            self.keep(self.waiting)
            self.waiting = None
        elif self.body is not None:
            del self.files[self.body]
            self.body = None

    def is_late(self, over):
        """That something in a folder came without the folder directly before it, which is in this one."""
        if over in self.folders:
            self.is_exact = False

    def is_behind(self):
        """That a folder came behind what is in it."""
        self.is_exact = False

    def keep(self, block):
        """Keeps a block."""
        self.counts.append(1)
        self.pieces += (block, b"\n\n")
        self.size += len(block)
        if self.size > PIECE:
            self.flush()

    def flush(self):
        """Writes what is kept."""
        rest = memoryview(b"".join(self.pieces))
        try:
            # Without a buffer, which would be written again at the end, it may be written in parts.
            while rest:
                rest = rest[self.out.write(rest) :]
        except OSError as fault:
            raise NotKept(fault.strerror) from None
        self.pieces, self.size = [], 0

    def close(self):
        """Takes down the last block."""
        self.settle()
        self.flush()


def blocks_asked(listing, counts):
    """Of each block of a listing that is asked about: its path as it is, without escapes, what stands behind it, and for how many it
    stands; each for itself where there are no counts."""
    for at, block in enumerate(blocks_of(listing)):
        head, _, body = block.partition(b"\n")
        path = path_of(head)
        if path is not None:
            yield unescaped(path), body, counts[at] if counts else 1
