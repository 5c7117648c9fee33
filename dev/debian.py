"""Debian packages of the program and of the C library: what `dev/release --deb` makes besides its archives."""

import gzip
import hashlib
import os
import re
import subprocess

# What each library that something is linked with is a part of.
PACKAGES = {it: "libc6 (>= {glibc})" for it in ("libc.so.6", "libm.so.6", "ld-linux-x86-64.so.2")}
PACKAGES["libgcc_s.so.1"] = "libgcc-s1"
# Where Debian has another place than bin/install.
ZSH, DEBIAN_ZSH = "share/zsh/site-functions/", "share/zsh/vendor-completions/"
LIB, DEBIAN_LIB = "lib/", "lib/x86_64-linux-gnu/"
PKG_CONFIG = "lib/pkgconfig/meardwyn.pc"
# A call of the header.
CALL = re.compile(r"^\w+ (meardwyn_\w+)\(", re.M)
CONTROL = """\
Package: {name}
Version: {version}
Section: {section}
Priority: optional
Architecture: amd64
Maintainer: Meardwyn maintainers <maintainers@users.noreply.meardwyn.example>
Installed-Size: {size}
Depends: {depends}
{more}"""
PROGRAM = """\
Recommends: acl, python3 (>= 3.8)
Description: who may do what by access control lists, proved
 Answers who can read and write which files of a share, and what changed,
 from what getfacl -R prints: POSIX access control lists, and NFSv4 ones by
 themselves. Each answer is proved, by machine, to be that of the standards'
 definitions. It changes nothing on disk.
"""
LIBRARY = """\
Multi-Arch: same
Description: access control lists of files, decided by proved code
 For file servers: POSIX access control lists as the bytes of extended
 attributes, NFSv4 ones as numbers or XDR; checked, changed, inherited,
 translated and compared. Each answer is proved, by machine, to be that of the
 standards' definitions. It needs the C library alone, and keeps nothing.
"""
DEVELOPMENT = """\
Multi-Arch: same
Suggests: pkg-config
Description: access control lists of files, decided by proved code (development)
 The header, the static library, the file for pkg-config, the manual pages and
 examples of libmeardwyn.
"""


class NoPackage(Exception):
    """Why there is no package."""


def glibc_of(program):
    """The least version of glibc that a program, or a library, runs with, by the names of what it takes of it."""
    versions = {tuple(map(int, it.split(b"."))) for it in re.findall(rb"GLIBC_([0-9]+\.[0-9]+)", program)}
    if not versions:
        raise NoPackage("the program doesn't say which glibc it needs")
    return ".".join(map(str, max(versions)))


def depends_of(program, own=""):
    """The packages that a program needs, or a library of its own name, by the libraries that it is linked with."""
    libraries = {it.decode() for it in re.findall(rb"\0((?:lib|ld-)[\w.+-]*\.so\.[0-9]+)(?=\0)", program)} - {own}
    if unknown := libraries - set(PACKAGES):
        raise NoPackage(f"no package is known of {', '.join(sorted(unknown))}")
    libraries.add("libc.so.6")
    return ", ".join(sorted({PACKAGES[it].format(glibc=glibc_of(program)) for it in libraries}))


def packed(data):
    """Bytes as gzip packs them, without a time."""
    return gzip.compress(data, 9, mtime=0)


def documents(name, beside):
    """What each package has of licenses and changes."""
    licenses = f"{name} is under the Apache License 2.0 or the MIT license, at your choice.\n\n".encode()
    licenses += beside["LICENSE-MIT"] + b"\n" + beside["LICENSE-APACHE"]
    changes = packed(beside["CHANGELOG.md"])
    return {f"usr/share/doc/{name}/copyright": (licenses, 0o644), f"usr/share/doc/{name}/changelog.gz": (changes, 0o644)}


def placed(files):
    """Installed files at Debian's places: by their places from the root, bytes and a mode of each, or of a link where it leads."""
    found = {}
    for name, (data, mode) in files.items():
        if name.startswith("share/man/"):
            name, data = f"{name}.gz", packed(data)
        if name.startswith(LIB):
            # No library is run.
            name, mode = name.replace(LIB, DEBIAN_LIB, 1), mode and 0o644
        found[f"usr/{name.replace(ZSH, DEBIAN_ZSH)}"] = data, mode
    return found


def with_control(name, found, version, section, depends, more):
    """The files of a package with what dpkg reads of it."""
    bytes_of = {it: data for it, (data, mode) in found.items() if mode is not None}
    size = sum(-(-len(data) // 1024) for data in bytes_of.values())
    control = CONTROL.format(name=name, version=version, section=section, size=size, depends=depends, more=more)
    sums = "".join(f"{hashlib.md5(data).hexdigest()}  {it}\n" for it, data in sorted(bytes_of.items()))
    return {**found, "DEBIAN/control": (control.encode(), 0o644), "DEBIAN/md5sums": (sums.encode(), 0o644)}


def program_tree(files, beside, version):
    """The package of the program."""
    found = {**placed(files), **documents("aclctl", beside), "usr/share/doc/aclctl/README.md": (beside["README.md"], 0o644)}
    return with_control("aclctl", found, version, "admin", depends_of(files["bin/aclctl"][0]), PROGRAM)


def symbols_of(header, version, soname, name):
    """What a program that is linked with the library depends on, by dpkg-shlibdeps: of 0.x each minor version has its own calls,
    and so it wants the one that it was linked with."""
    major, minor = version.split(".")[:2]
    wanted = f"{name} (>= {major}.{minor}), {name} (<< {major}.{int(minor) + 1}~)"
    node = f"MEARDWYN_{major}.{minor}"
    calls = [f" {it}@{node} {major}.{minor}\n" for it in sorted([node, *CALL.findall(header)])]
    symbols = f"{soname} {wanted.replace(f'(>= {major}.{minor})', '#MINVER#')}\n" + "".join(calls)
    return symbols, f"libmeardwyn {soname.rpartition('.')[2]} {wanted}\n"


def library_tree(files, beside, version, soname):
    """The package of the shared library."""
    name = soname.replace(".so.", "")
    found = {**placed({it: files[it] for it in (f"lib/{soname}",)}), **documents(name, beside)}
    tree = with_control(name, found, version, "libs", depends_of(files[f"lib/{soname}"][0], soname), LIBRARY)
    symbols, shlibs = symbols_of(files["include/meardwyn.h"][0].decode(), version, soname, name)
    for place, text in (("symbols", symbols), ("shlibs", shlibs), ("triggers", "activate-noawait ldconfig\n")):
        tree[f"DEBIAN/{place}"] = text.encode(), 0o644
    return tree


def development_tree(files, examples, beside, version, soname):
    """The package of what it takes to link with it."""
    config = re.sub(rb"^prefix=.*$", b"prefix=/usr", files[PKG_CONFIG][0], flags=re.M).replace(b"/lib\n", f"/{DEBIAN_LIB[:-1]}\n".encode())
    parts = {it: content for it, content in files.items() if it != f"lib/{soname}"} | {PKG_CONFIG: (config, 0o644)}
    name = "libmeardwyn-dev"
    found = {**placed(parts), **documents(name, beside)}
    found |= {f"usr/share/doc/{name}/examples/{it}": (data, 0o644) for it, data in examples.items()}
    return with_control(name, found, version, "libdevel", f"{soname.replace('.so.', '')} (= {version})", DEVELOPMENT)


def write_tree(top, found, seconds):
    """Writes files below a folder, all of one time. A link has no mode, and the name to which it leads in place of bytes."""
    for name, (data, mode) in sorted(found.items()):
        path = top / name
        path.parent.mkdir(parents=True, exist_ok=True)
        if mode is None:
            path.symlink_to(data)
        else:
            path.write_bytes(data)
            path.chmod(mode)
        os.utime(path, (seconds, seconds), follow_symlinks=False)
    for folder in sorted((it for it in [top, *top.rglob("*")] if it.is_dir() and not it.is_symlink()), reverse=True):
        folder.chmod(0o755)
        os.utime(folder, (seconds, seconds))


def package(tree, seconds, room):
    """A package of a tree, as bytes: the same for the same tree and time. The room is a new folder."""
    room.mkdir()
    top, made = room / "tree", room / "made.deb"
    write_tree(top, tree, seconds)
    # More threads than one would pack otherwise on other machines.
    env = {**os.environ, "SOURCE_DATE_EPOCH": str(seconds), "DPKG_DEB_THREADS_MAX": "1"}
    words = ["dpkg-deb", "--root-owner-group", "-Zxz", "--build", str(top), str(made)]
    try:
        ran = subprocess.run(words, stdout=subprocess.DEVNULL, env=env)
    except OSError as fault:
        raise NoPackage(f"cannot run dpkg-deb: {fault.strerror}") from None
    if ran.returncode:
        raise NoPackage(f"dpkg-deb ended with status {ran.returncode}")
    return made.read_bytes()
