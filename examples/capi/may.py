"""The same as may.c from Python, by ctypes: python3 may.py UID GID[,GID..] PERMS FILE."""

import ctypes
import errno
import os
import sys

LIBRARY = ctypes.CDLL("libmeardwyn.so.0")
NUMBER, SIZE = ctypes.c_uint32, ctypes.c_size_t
LIBRARY.meardwyn_posix_check_linux.argtypes = [ctypes.c_char_p, SIZE, NUMBER, NUMBER, NUMBER, ctypes.POINTER(NUMBER), SIZE, NUMBER]
LIBRARY.meardwyn_posix_of_mode.argtypes = [NUMBER, ctypes.c_char_p, SIZE, ctypes.POINTER(SIZE)]


def list_of(path, mode):
    """The bytes of the list of a file, or of its mode if it has none."""
    try:
        return os.getxattr(path, "system.posix_acl_access")
    except OSError as fault:
        if fault.errno not in (errno.ENODATA, errno.EOPNOTSUPP):
            raise
    out, needed = ctypes.create_string_buffer(28), SIZE()
    LIBRARY.meardwyn_posix_of_mode(mode & 0o777, out, len(out), ctypes.byref(needed))
    return out.raw


def main():
    uid, groups, perms, path = sys.argv[1:]
    gids = [int(it) for it in groups.split(",") if it]
    file = os.stat(path)
    data = list_of(path, file.st_mode)
    numbers = (NUMBER * max(len(gids), 1))(*gids)
    answer = LIBRARY.meardwyn_posix_check_linux(data, len(data), file.st_uid, file.st_gid, int(uid), numbers, len(gids), int(perms, 8))
    if answer < 0:
        sys.exit(f"{path}: error {answer}")
    print("granted" if answer else "denied")


main()
