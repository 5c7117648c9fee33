"""bin/install in a small checkout: what it installs and refuses, and what it takes away."""

import os
import shutil
import tempfile
import time
import unittest
from pathlib import Path

from small_checkout import BESIDE, COMPLETIONS, PAGES, PARTS, VERSION, SmallCheckout

# Where each file goes, and what it is in the checkout.
PLACES = {
    "bin/aclctl": "crates/aclctl/out/aclctl",
    **{f"bin/aclctl-{it}": f"bin/{it}" for it in BESIDE},
    **{f"share/aclctl/reporting/{it}": f"bin/reporting/{it}" for it in PARTS},
    **{f"share/man/man1/{it}": f"docs/{it}" for it in PAGES},
    **{f"share/{to}": f"completions/{it}" for it, to in COMPLETIONS.items()},
}
# Where the files of the C library go, but for the manual pages of the calls.
LIBRARY = {"include/meardwyn.h", "lib/libmeardwyn.a", "lib/libmeardwyn.so", "lib/libmeardwyn.so.0"}
LIBRARY |= {"lib/pkgconfig/meardwyn.pc", "share/man/man3/meardwyn.3"}
RECORD = "share/aclctl/installed"
STRANGER = "crates/aclctl/out/aclctl is not what dev/build-aclctl left: run that first"


class Install(unittest.TestCase):
    def setUp(self):
        self.room = Path(tempfile.mkdtemp(prefix="test-install-")).resolve()
        self.addCleanup(shutil.rmtree, self.room)
        self.checkout = SmallCheckout(self.room)
        self.prefix = self.room / "new/prefix"

    def install(self, *words, prefix=None, **env):
        """Runs the script. Returns its status, and its lines on both streams."""
        where = ["--prefix", str(prefix or self.prefix)]
        ran = self.checkout.script("install", *where, *words, **env)
        return ran.returncode, ran.stdout.splitlines(), ran.stderr.splitlines()

    def files(self, folder):
        """The files in a folder, by their names from it."""
        return {str(it.relative_to(folder)) for it in folder.rglob("*") if not it.is_dir()}

    def refused(self, why):
        """That the script refuses, for this reason, and makes nothing."""
        status, lines, errors = self.install()
        self.assertEqual((status, lines, errors[-1]), (1, [], f"bin/install: {why}"))
        self.assertFalse((self.room / "new").exists())

    def test_files_go_to_their_places_with_their_modes(self):
        status, lines, _ = self.install()
        self.assertEqual(status, 0)
        self.assertEqual(self.files(self.prefix), {*PLACES, RECORD})
        for name, source in PLACES.items():
            path = self.prefix / name
            self.assertEqual(path.read_bytes(), (self.checkout.top / source).read_bytes())
            mode = 0o755 if name.startswith("bin/") else 0o644
            self.assertEqual(path.stat().st_mode & 0o777, mode, name)
            self.assertIn(f"installed {path}", lines)
        folders = [it for it in (self.room / "new").rglob("*") if it.is_dir()]
        self.assertTrue(all(it.stat().st_mode & 0o777 == 0o755 for it in folders))
        made = [f"made {it}" for it in sorted([self.room / "new", *folders])]
        self.assertEqual(lines[: len(made)], made)
        self.assertEqual(len(lines), len(made) + len(PLACES))
        ran = self.checkout.run(self.prefix / "bin/aclctl", "--version")
        self.assertEqual(ran.stdout, f"aclctl {VERSION}\n")

    def test_what_is_installed_runs_and_leaves_nothing_behind(self):
        self.install()
        for name in BESIDE:
            ran = self.checkout.run(self.prefix / f"bin/aclctl-{name}", "--help")
            self.assertEqual((ran.returncode, ran.stderr), (0, ""), name)
            self.assertIn(f"usage: aclctl-{name} ", ran.stdout)
        self.assertEqual(self.files(self.prefix), {*PLACES, RECORD})

    def test_nothing_is_left_after_uninstall(self):
        self.install()
        status, lines, errors = self.install("--uninstall")
        self.assertEqual((status, errors), (0, []))
        self.assertFalse((self.room / "new").exists())
        for name in (*PLACES, RECORD, "share/man", "."):
            self.assertIn(f"took away {os.path.normpath(self.prefix / name)}", lines)
        why = f"bin/install: nothing is installed in {self.prefix}"
        self.assertEqual(self.install("--uninstall"), (1, [], [why]))

    def test_uninstall_leaves_what_it_did_not_make(self):
        for name in ("bin", "share/man/man1"):
            (self.prefix / name).mkdir(parents=True)
        self.install()
        self.install()
        (self.prefix / "share/zsh/other").touch()
        status, lines, _ = self.install("--uninstall")
        self.assertEqual(status, 0)
        self.assertIn(f"left {self.prefix}/share/zsh: something else is in it", lines)
        self.assertEqual(self.files(self.prefix), {"share/zsh/other"})
        left = {str(it.relative_to(self.prefix)) for it in self.prefix.rglob("*") if it.is_dir()}
        self.assertEqual(left, {"bin", "share", "share/man", "share/man/man1", "share/zsh"})

    def test_a_file_of_an_older_version_is_taken_away_too(self):
        self.install()
        record = self.prefix / RECORD
        record.write_text(record.read_text() + "bin/older\n")
        (self.prefix / "bin/older").touch()
        self.install()
        self.install("--uninstall")
        self.assertFalse((self.room / "new").exists())

    def test_a_list_that_names_a_file_elsewhere_is_refused(self):
        self.install()
        record, kept = self.prefix / RECORD, self.files(self.prefix)
        for name in ("../other", str(self.room / "program")):
            record.write_text(f"# head\n./\n{name}\n")
            why = f"bin/install: {record} names a file outside {self.prefix}"
            self.assertEqual(self.install("--uninstall"), (1, [], [why]))
        self.assertEqual(self.files(self.prefix), kept)

    def test_the_prefix_stands_in_destdir(self):
        package = self.room / "package"
        package.mkdir()
        status, lines, _ = self.install(prefix="/opt/acl", DESTDIR=str(package))
        self.assertEqual(status, 0)
        self.assertEqual(self.files(package), {f"opt/acl/{it}" for it in (*PLACES, RECORD)})
        self.assertIn(f"installed {package}/opt/acl/bin/aclctl", lines)
        self.install("--uninstall", prefix="/opt/acl", DESTDIR=str(package))
        self.assertEqual([*package.iterdir()], [])

    def test_it_builds_what_is_not_built_or_older_than_its_files(self):
        self.assertEqual((self.install()[0], self.checkout.builds()), (0, 1))
        self.assertEqual((self.install()[0], self.checkout.builds()), (0, 1))
        later = time.time() + 60
        os.utime(self.checkout.top / "crates/aclctl/src/main.rt", (later, later))
        self.checkout.write("program", "#!/bin/sh\necho newer\n")
        self.assertEqual((self.install()[0], self.checkout.builds()), (0, 2))
        ran = self.checkout.run(self.prefix / "bin/aclctl")
        self.assertEqual(ran.stdout, "newer\n")

    def test_what_cannot_be_built_is_not_installed(self):
        (self.room / "bad").touch()
        self.refused("aclctl could not be built")

    def test_a_program_that_was_not_built_so_is_refused(self):
        program = self.checkout.program
        program.parent.mkdir()
        shutil.copy(self.room / "program", program)
        self.refused(STRANGER)
        self.assertEqual(self.checkout.script("build-aclctl").returncode, 0)
        program.write_text("#!/bin/sh\necho 'aclctl, but not proved'\n")
        self.refused(STRANGER)
        self.assertEqual(self.checkout.builds(), 1)

    def pages(self):
        """The manual pages of the calls that the header declares."""
        header = (self.checkout.top / "include/meardwyn.h").read_text()
        types = ("int32_t meardwyn_", "uint32_t meardwyn_", "bool meardwyn_")
        calls = {it.split("(")[0].split()[-1] for it in header.splitlines() if it.startswith(types)}
        return {f"share/man/man3/{it}.3" for it in calls}

    def test_the_library_comes_with_its_header_its_pages_and_what_pkg_config_reads(self):
        self.assertEqual(self.install("--library")[0], 0)
        self.assertEqual(self.files(self.prefix), {*PLACES, RECORD, *LIBRARY, *self.pages()})
        link = self.prefix / "lib/libmeardwyn.so"
        self.assertEqual((os.readlink(link), link.read_text()[-7:]), ("libmeardwyn.so.0", "shared\n"))
        told = (self.prefix / "lib/pkgconfig/meardwyn.pc").read_text().splitlines()
        self.assertEqual(told[0], f"prefix={self.prefix}")
        self.assertIn(f"Version: {VERSION}", told)
        self.assertIn(".so man3/meardwyn.3", (self.prefix / sorted(self.pages())[0]).read_text())
        self.install("--uninstall")
        self.assertFalse((self.room / "new").exists())

    def test_the_library_goes_without_the_program(self):
        self.assertEqual(self.install("--library", "--no-program")[0], 0)
        self.assertEqual(self.files(self.prefix), {RECORD, *LIBRARY, *self.pages()})
        self.assertEqual(self.checkout.builds(), 0)

    def test_a_library_that_cannot_be_built_is_not_installed(self):
        (self.room / "bad").touch()
        status, lines, errors = self.install("--library", "--no-program")
        why = "bin/install: the C library could not be built"
        self.assertEqual((status, lines, errors[-1]), (1, [], why))
        self.assertFalse((self.room / "new").exists())

    def test_what_cannot_be_written_is_told(self):
        (self.room / "new").write_text("a file")
        status, lines, errors = self.install()
        self.assertEqual((status, lines), (1, []))
        self.assertEqual(errors[-1], f"bin/install: {self.prefix}: Not a directory")
        (self.room / "new").unlink()
        (self.prefix / "share/man/man1/aclctl.1/x").mkdir(parents=True)
        status, lines, errors = self.install()
        why = f"bin/install: cannot write {self.prefix}/share/man/man1/aclctl.1: Is a directory"
        self.assertEqual((status, errors), (1, [why]))
        self.assertIn(f"installed {self.prefix}/bin/aclctl", lines)
        (self.prefix / "share/man/man1/aclctl.1/x").rmdir()
        (self.prefix / "share/man/man1/aclctl.1").rmdir()
        self.install("--uninstall")
        self.assertEqual(self.files(self.prefix), set())


if __name__ == "__main__":
    unittest.main()
