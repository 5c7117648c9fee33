"""dev/release in a small checkout under git: what it makes, the same bytes each time, and what
it refuses."""

import gzip
import hashlib
import os
import re
import shutil
import subprocess
import tarfile
import tempfile
import unittest
from pathlib import Path

from small_checkout import BESIDE as SCRIPTS_BESIDE
from small_checkout import COMPLETIONS, EXAMPLES, GLIBC, PAGES, SLOW, TOP, VERSION, SmallCheckout
from small_checkout import PARTS as SCRIPT_PARTS

NAME = f"aclctl-{VERSION}-x86_64-linux"
LIBRARY = f"meardwyn-{VERSION}-x86_64-linux"
# The time of the commit, which is none of those at which files are made.
SECONDS = 1_700_000_000
PLACES = ("bin/aclctl", *(f"bin/aclctl-{it}" for it in SCRIPTS_BESIDE))
PLACES += (*(f"share/man/man1/{it}" for it in PAGES), *(f"share/aclctl/reporting/{it}" for it in SCRIPT_PARTS))
PLACES += (*(f"share/{it}" for it in COMPLETIONS.values()),)
BESIDE = ("LICENSE-APACHE", "LICENSE-MIT", "README.md")
# Of the C library, without the manual pages of its calls.
PARTS = ("include/meardwyn.h", "lib/libmeardwyn.a", "lib/libmeardwyn.so.0")
PARTS += ("lib/pkgconfig/meardwyn.pc", "share/man/man3/meardwyn.3")


class InCheckout(unittest.TestCase):
    """A small checkout under git."""

    def setUp(self):
        self.room = Path(tempfile.mkdtemp(prefix="test-release-")).resolve()
        self.addCleanup(shutil.rmtree, self.room)
        self.checkout = SmallCheckout(self.room)
        self.out = self.checkout.top / "out"
        self.git("init", "-q")
        self.commit()

    def git(self, *words):
        """Runs git as somebody at a time of long ago."""
        date = f"{SECONDS} +0000"
        who = ("-c", "user.name=n", "-c", "user.email=n@example.org")
        ran = self.checkout.run("git", *who, *words, GIT_AUTHOR_DATE=date, GIT_COMMITTER_DATE=date)
        self.assertEqual(ran.returncode, 0, ran.stderr)

    def commit(self):
        """Commits what there is."""
        self.git("add", "-A")
        self.git("commit", "-q", "-m", "what there is")

    def release(self, *words):
        """Runs the script. Returns its status, its lines, and its last lines on standard error."""
        ran = self.checkout.script("release", *words)
        errors = [it for it in ran.stderr.splitlines() if not it.startswith("bin/aclctl: ")]
        return ran.returncode, ran.stdout.splitlines(), errors

    def refused(self, *why):
        """That the script refuses, and ends standard error with these lines."""
        status, lines, errors = self.release()
        self.assertEqual((status, lines, errors[-len(why) :]), (1, [], [*why]))
        self.assertEqual([*self.out.glob("*.tar.gz"), *self.out.glob("SHA256SUMS")], [])


class Release(InCheckout):
    def test_the_archive_has_what_is_installed_and_a_checksum(self):
        made = [f"{NAME}.tar.gz", f"{LIBRARY}.tar.gz", "SHA256SUMS"]
        made = [str(self.out / it) for it in made]
        self.assertEqual(self.release(), (0, made, []))
        with tarfile.open(made[0]) as tar:
            entries = tar.getmembers()
            program = tar.extractfile(f"{NAME}/bin/aclctl").read()
        names = [it.name for it in entries]
        self.assertEqual(names, sorted(names))
        files = {it.name for it in entries if it.isfile()}
        self.assertEqual(files, {f"{NAME}/{it}" for it in (*PLACES, *BESIDE)})
        self.assertEqual(program, self.checkout.program.read_bytes())
        for it in entries:
            may_run = it.isdir() or "/bin/" in it.name
            self.assertEqual(it.mode, 0o755 if may_run else 0o644, it.name)
            self.assertEqual((it.uid, it.gid, it.uname, it.gname), (0, 0, "root", "root"))
            self.assertEqual(it.mtime, SECONDS)
        ran = self.checkout.run("sh", "-c", "cd out && sha256sum -c SHA256SUMS")
        sums = "".join(f"{it}.tar.gz: OK\n" for it in (NAME, LIBRARY))
        self.assertEqual((ran.returncode, ran.stdout), (0, sums))

    def test_the_librarys_archive_may_be_unpacked_anywhere(self):
        self.assertEqual(self.release()[0], 0)
        with tarfile.open(self.out / f"{LIBRARY}.tar.gz") as tar:
            entries = {it.name.removeprefix(f"{LIBRARY}/"): it for it in tar.getmembers()}
            config = tar.extractfile(f"{LIBRARY}/lib/pkgconfig/meardwyn.pc").read().decode()
        files = {it for it in entries if entries[it].isfile() and "/meardwyn_" not in it}
        self.assertEqual(files, {*PARTS, *BESIDE})
        self.assertTrue(entries["share/man/man3/meardwyn_posix_check.3"].isfile())
        link = entries["lib/libmeardwyn.so"]
        self.assertEqual((link.issym(), link.linkname), (True, "libmeardwyn.so.0"))
        self.assertEqual(config.splitlines()[0], "prefix=${pcfiledir}/../..")
        self.assertNotIn(str(self.room), config)

    def test_a_library_that_cannot_be_built_is_not_released(self):
        (self.checkout.top / "dev/build-capi").write_text("#!/bin/sh\nexit 1\n")
        self.commit()
        self.refused("dev/release: there is nothing to release")

    def test_the_bytes_are_the_same_each_time(self):
        self.release()
        archives = [self.out / f"{it}.tar.gz" for it in (NAME, LIBRARY)]
        first = [it.read_bytes() for it in archives]
        shutil.rmtree(self.out)
        shutil.rmtree(self.checkout.program.parent)
        later = self.checkout.top / "docs/aclctl.1"
        later.touch()
        self.assertEqual(self.release()[0], 0)
        for before, path in zip(first, archives):
            now = path.read_bytes()
            self.assertEqual(hashlib.sha256(before).hexdigest(), hashlib.sha256(now).hexdigest())
            # No name and no time in the head of the compressed file.
            self.assertEqual(before[3:8], bytes(5))

    def test_a_checkout_that_is_not_its_commit_is_refused(self):
        for name, mark in (("LICENSE-MIT", " M"), ("crates/aclctl/src/more.rt", "??")):
            (self.checkout.top / name).write_text("more")
            mark = f"{mark} {name}"
            self.refused("dev/release: the checkout is not its commit:", mark)
            self.commit()
        self.assertEqual(self.release()[0], 0)

    def test_a_program_that_is_not_proved_is_refused(self):
        program = self.checkout.program
        program.parent.mkdir()
        shutil.copy(self.room / "program", program)
        self.refused("dev/release: there is nothing to release")

    def test_another_version_in_changelog_or_manual_is_refused(self):
        others = (("VERSION", "9.9.9\n"), ("CHANGELOG.md", "# Changes\n\n## 9.9.9\n"), ("docs/aclctl.1", ".TH X"))
        others += (("docs/meardwyn.3", '.TH M 3 D "meardwyn 9.9.9"'),)
        for name, text in others:
            kept = (self.checkout.top / name).read_text()
            (self.checkout.top / name).write_text(text)
            self.commit()
            why = f"the program is version {VERSION}, and {name} names another"
            self.refused(f"dev/release: {why}")
            (self.checkout.top / name).write_text(kept)
            self.commit()

    def test_a_library_that_names_its_calls_by_another_version_is_refused(self):
        path = self.checkout.top / "include/meardwyn.map"
        path.write_text(path.read_text().replace("MEARDWYN_", "MEARDWYN_9."))
        self.commit()
        named = path.read_text().split()[0]
        self.refused(f"dev/release: the program is version {VERSION}, and include/meardwyn.map names {named}")

    def test_a_program_that_needs_another_glibc_than_readme_says_is_refused(self):
        readme = self.checkout.top / "README.md"
        readme.write_text(readme.read_text().replace(f"glibc {GLIBC}", "glibc 2.2"))
        self.commit()
        self.refused(f"dev/release: the program needs glibc {GLIBC}, and README.md names another")


@unittest.skipUnless(shutil.which("dpkg-deb"), "dpkg-deb isn't here")
class Debian(InCheckout):
    """The Debian packages of such a checkout."""

    NAMES = ("aclctl", "libmeardwyn0", "libmeardwyn-dev")
    LIB = "usr/lib/x86_64-linux-gnu"

    def debs(self):
        """The packages by their names, made."""
        status, lines, errors = self.release("--deb")
        self.assertEqual((status, errors), (0, []))
        made = {it: self.out / f"{it}_{VERSION}_amd64.deb" for it in self.NAMES}
        self.assertEqual(lines[2:-1], [str(it) for it in made.values()])
        return made

    def told(self, *words):
        """What dpkg tells."""
        ran = subprocess.run(words, capture_output=True, text=True, timeout=SLOW, env={**os.environ, "LC_ALL": "C"})
        self.assertEqual(ran.returncode, 0, ran.stderr)
        return ran.stdout

    def files(self, deb):
        """The files of a package, with where a link leads."""
        files = {}
        for line in self.told("dpkg-deb", "--contents", deb).splitlines():
            mode, owner, _, date, _, name = line.split(maxsplit=5)
            name, _, leads = name.partition(" -> ")
            self.assertEqual((owner, date), ("root/root", "2023-11-14"))
            wanted = "drwxr-xr-x" if name.endswith("/") else "lrwxrwxrwx" if leads else "-rwxr-xr-x" if "/bin/" in name else "-rw-r--r--"
            self.assertEqual(mode, wanted, name)
            files |= {} if name.endswith("/") else {name.removeprefix("./"): leads}
        return files

    def test_what_the_packages_say_of_themselves(self):
        wanted = {"aclctl": {"Depends": f"libc6 (>= {GLIBC}), libgcc-s1", "Recommends": "acl, python3 (>= 3.8)"}}
        wanted["libmeardwyn0"] = {"Depends": "libc6 (>= 2.14)", "Multi-Arch": "same", "Section": "libs"}
        wanted["libmeardwyn-dev"] = {"Depends": f"libmeardwyn0 (= {VERSION})", "Multi-Arch": "same", "Section": "libdevel"}
        debs = self.debs()
        sums = (self.out / "SHA256SUMS").read_text()
        for name, deb in debs.items():
            self.assertIn(f"{hashlib.sha256(deb.read_bytes()).hexdigest()}  {deb.name}\n", sums)
            for field, text in {"Package": name, "Version": VERSION, "Architecture": "amd64", **wanted[name]}.items():
                self.assertEqual(self.told("dpkg-deb", "--field", deb, field), f"{text}\n")

    def test_the_programs_files_stand_at_debians_places(self):
        places = {f"usr/{it}{'.gz' if '/man/' in it else ''}".replace("site-functions", "vendor-completions") for it in PLACES}
        docs = {f"usr/share/doc/aclctl/{it}" for it in ("copyright", "changelog.gz", "README.md")}
        self.assertEqual(set(self.files(self.debs()["aclctl"])), places | docs)

    def test_the_librarys_files_stand_at_debians_places(self):
        debs = self.debs()
        docs = {name: {f"usr/share/doc/{name}/{it}" for it in ("copyright", "changelog.gz")} for name in debs}
        self.assertEqual(set(self.files(debs["libmeardwyn0"])), {f"{self.LIB}/libmeardwyn.so.0"} | docs["libmeardwyn0"])
        files = self.files(debs["libmeardwyn-dev"])
        pages = {it for it in files if it.startswith("usr/share/man/man3/meardwyn") and it.endswith(".3.gz")}
        self.assertTrue({"usr/share/man/man3/meardwyn.3.gz", "usr/share/man/man3/meardwyn_nfs4_decide.3.gz"} <= pages)
        self.assertEqual(files[f"{self.LIB}/libmeardwyn.so"], "libmeardwyn.so.0")
        examples = {f"usr/share/doc/libmeardwyn-dev/examples/{it}" for it in EXAMPLES}
        places = {f"{self.LIB}/{it}" for it in ("libmeardwyn.a", "libmeardwyn.so", "pkgconfig/meardwyn.pc")}
        self.assertEqual(set(files), {"usr/include/meardwyn.h"} | places | pages | examples | docs["libmeardwyn-dev"])
        config = self.told("sh", "-c", f"dpkg-deb --fsys-tarfile {debs['libmeardwyn-dev']} | tar -xO ./{self.LIB}/pkgconfig/meardwyn.pc")
        self.assertEqual(config.splitlines()[:3], ["prefix=/usr", "includedir=${prefix}/include", "libdir=${prefix}/lib/x86_64-linux-gnu"])

    def test_who_is_linked_with_the_library_wants_the_same_minor_version(self):
        major, minor = map(int, VERSION.split(".")[:2])
        told = self.told("dpkg-deb", "--info", self.debs()["libmeardwyn0"], "symbols").splitlines()
        self.assertEqual(told[0], f"libmeardwyn.so.0 libmeardwyn0 #MINVER#, libmeardwyn0 (<< {major}.{minor + 1}~)")
        header = (TOP / "include/meardwyn.h").read_text()
        calls = set(re.findall(r"^(?:int32_t|uint32_t|bool) (meardwyn_\w+)\(", header, re.M)) | {f"MEARDWYN_{major}.{minor}"}
        self.assertEqual(set(told[1:]), {f" {it}@MEARDWYN_{major}.{minor} {major}.{minor}" for it in calls})
        shlibs = self.told("dpkg-deb", "--info", self.debs()["libmeardwyn0"], "shlibs")
        self.assertEqual(shlibs, f"libmeardwyn 0 libmeardwyn0 (>= {major}.{minor}), libmeardwyn0 (<< {major}.{minor + 1}~)\n")

    def test_the_packages_bytes_are_the_same_each_time(self):
        first = {name: deb.read_bytes() for name, deb in self.debs().items()}
        shutil.rmtree(self.out)
        shutil.rmtree(self.checkout.program.parent)
        self.assertEqual({name: deb.read_bytes() for name, deb in self.debs().items()}, first)

    def test_a_library_of_no_known_package_is_refused(self):
        self.checkout.write("program", (self.room / "program").read_text() + "\0libodd.so.7\0")
        status, _, errors = self.release("--deb")
        self.assertEqual((status, errors[-1]), (1, "dev/release: no package is known of libodd.so.7"))

    @unittest.skipUnless(os.geteuid() == 0 and shutil.which("dpkg"), "it wants root")
    def test_they_are_installed_and_removed_in_a_clean_root(self):
        root, debs = self.room / "root", self.debs()
        for name in ("info", "updates"):
            (root / "var/lib/dpkg" / name).mkdir(parents=True)
        for name in ("status", "available"):
            (root / "var/lib/dpkg" / name).touch()
        before = {it for it in root.rglob("*")}
        dpkg = ("dpkg", f"--root={root}", "--force-depends", "--log=/dev/null")
        self.told(*dpkg, "--install", *debs.values())
        for name in debs:
            self.assertIn("Status: install ok installed", self.told(*dpkg, "--status", name))
        self.assertEqual(self.told(*dpkg, "--verify", *debs), "")
        self.assertEqual(self.told(root / "usr/bin/aclctl", "--version"), f"aclctl {VERSION}\n")
        for name in SCRIPTS_BESIDE:
            self.assertIn(f"usage: aclctl-{name} ", self.told(root / f"usr/bin/aclctl-{name}", "--help"))
        page = gzip.decompress((root / "usr/share/man/man1/aclctl.1.gz").read_bytes())
        self.assertEqual(page, (TOP / "docs/aclctl.1").read_bytes())
        self.assertEqual((root / self.LIB / "libmeardwyn.so").read_bytes()[-7:], b"shared\n")
        self.told(*dpkg, "--purge", *debs)
        left = {str(it.relative_to(root)) for it in root.rglob("*")} - {str(it.relative_to(root)) for it in before}
        self.assertEqual({it for it in left if not it.startswith("var/lib/dpkg/")}, set())


class Version(unittest.TestCase):
    def test_program_changelog_and_manual_name_one_version(self):
        text = (TOP / "crates/aclctl/src/help.rt").read_text()
        self.assertEqual(re.search(r'VERSION: &str = "aclctl (\S+)\\n"', text)[1], VERSION)
        for name in PAGES:
            head = (TOP / "docs" / name).read_text().splitlines()[0]
            self.assertIn(f'"aclctl {VERSION}"', head)


if __name__ == "__main__":
    unittest.main()
