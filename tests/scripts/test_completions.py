"""The completions for bash and zsh: they have the commands and options that the program's help and
the manual page have, and no others; and what bash answers to lines."""

import re
import shutil
import subprocess
import tempfile
import unittest
from pathlib import Path

TOP = Path(__file__).resolve().parent.parent.parent
BASH, ZSH = TOP / "completions/aclctl.bash", TOP / "completions/_aclctl"
# How many seconds a shell may take on the slowest machine.
SLOW = 600
# It reads the completions, and completes as bash does: with the line, its words as bash cuts them,
# the place of the word that is completed, and what of it is replaced.
ASK_BASH = """\
source "$1"
COMP_LINE=$2 COMP_POINT=${#2} piece=$3
COMP_WORDS=("${@:4}")
COMP_CWORD=$((${#COMP_WORDS[@]} - 1))
_aclctl aclctl "$piece" "${COMP_WORDS[COMP_CWORD - 1]}"
[[ ${#COMPREPLY[@]} -eq 0 ]] || printf '%s\\n' "${COMPREPLY[@]}"
"""
# It reads the completions, with stand-ins for what zsh's own would be told.
ASK_ZSH = """\
_arguments() { print -rl -- "$@" }
_describe() { print -rl -- "${(@P)2}" }
completions=$1
words=("${@:2}")
CURRENT=$#words
shift $#
source $completions
"""
STYLES = ["nfs4", "posix"]


def help_commands():
    """The commands that the program's help names."""
    text = (TOP / "crates/aclctl/src/help.rt").read_text()
    table = text.split("\ncommands:\n")[1].split("\n\n")[0]
    return {line.split()[0] for line in table.splitlines()}


def manual():
    """The options of each command in the manual page's synopsis. Those that stand without a
    command are commands themselves, and each command but help has --help."""
    text = (TOP / "docs/aclctl.1").read_text().split(".SH SYNOPSIS")[1].split(".SH DESC")[0]
    found = {}
    for part in text.replace("\\-", "-").split(".SY aclctl\n")[1:]:
        options = set(re.findall(r"--[a-z0-9-]+", part))
        if command := re.match(r"\.B ([a-z]+)\n", part):
            found[command[1]] = found.get(command[1], set()) | options | ({"--help"} if command[1] != "help" else set())
        else:
            found |= {it: set() for it in options}
    return found


MANUAL = manual()
COMMANDS = sorted(it for it in MANUAL if not it.startswith("-"))


def run(*words, cwd=TOP):
    """The lines that a command prints, in order."""
    how = {"capture_output": True, "text": True, "timeout": SLOW, "cwd": cwd}
    ran = subprocess.run(words, **how)
    assert ran.returncode == 0 and not ran.stderr, ran.stderr
    return sorted(ran.stdout.splitlines())


def by_bash(line, cwd=TOP):
    """What bash completes the end of a line to. It cuts words at =, : and @ as well as at blanks,
    and replaces what follows the last cut."""
    words = re.findall(r"[=:@]+|[^\s=:@]+", line)
    ends = re.search(r"[\s=:@]$", line)
    piece = "" if ends else words[-1]
    words += [""] * bool(re.search(r"\s$", line))
    return run("bash", "--norc", "-c", ASK_BASH, "bash", BASH, line, piece, *words, cwd=cwd)


def by_zsh(*words):
    """What zsh's own completion of arguments is told for these words."""
    return run("zsh", "-f", "-c", ASK_ZSH, "zsh", ZSH, *words)


class Names(unittest.TestCase):
    def test_help_and_manual_name_the_same_commands(self):
        self.assertEqual(help_commands(), set(MANUAL))
        self.assertEqual(set(MANUAL) - set(COMMANDS), {"--version"})

    def test_no_other_option_is_named_in_help_or_manual(self):
        files = ("crates/aclctl/src/help.rt", "docs/aclctl.1")
        text = "".join((TOP / it).read_text() for it in files).replace("\\-", "-")
        named = set(re.findall(r"--[a-z0-9]+(?:-[a-z0-9]+)*", text))
        self.assertEqual(named, {"--version"}.union(*MANUAL.values()))

    def test_bash_has_the_commands_and_options_and_no_others(self):
        self.assertEqual(by_bash("aclctl "), sorted(MANUAL))
        for command, options in MANUAL.items():
            self.assertEqual(by_bash(f"aclctl {command} -"), sorted(options), command)
        self.assertEqual(by_bash("aclctl frobnicate -"), [])

    def test_the_text_for_zsh_has_the_commands_and_options_and_no_others(self):
        text = ZSH.read_text()
        named = set(re.findall(r"'\*?(--[a-z0-9-]+)[=[:]", text))
        self.assertEqual(named, {"--version"}.union(*MANUAL.values()))
        self.assertEqual(sorted(re.findall(r"^        ([a-z]+)\)", text, re.M)), COMMANDS)
        described = re.findall(r"^        '([a-z-]+):", text, re.M)
        self.assertEqual(sorted(described), sorted(MANUAL))

    @unittest.skipUnless(shutil.which("zsh"), "zsh isn't here")
    def test_zsh_has_the_commands_and_options_and_no_others(self):
        run("zsh", "-n", ZSH)
        described = [it.split(":")[0] for it in by_zsh("aclctl", "")]
        self.assertEqual(sorted(described), sorted(MANUAL))
        for command, options in MANUAL.items():
            told = by_zsh("aclctl", command, "-")
            names = [re.split(r"[=[]", it.lstrip("*"))[0] for it in told if it.startswith(("--", "*--"))]
            self.assertEqual(sorted(names), sorted(options), command)
            values = {it for it in told if re.match(r"--(accounts|setup)=|[*12]:(session|listing)", it)}
            self.assertTrue(all(it.endswith(":_files") for it in values))

    @unittest.skipUnless(shutil.which("zsh"), "zsh isn't here")
    def test_zsh_has_styles_and_files_in_their_places(self):
        places = {"explain": ["1"], "compare": ["1", "3"]}
        for command in COMMANDS:
            told = by_zsh("aclctl", command, "")
            styles = [it for it in told if it.endswith(":style:(posix nfs4)")]
            self.assertEqual([it[0] for it in styles], places.get(command, []))
            places_of_files = {"run": "*", "lint": "*", "who": "1", "why": "1", "impact": "12", "restore": "12", "translate": "1", "next": "1", "list": "1", "dump": "1"}
            files = [it[0] for it in told if re.search(r":(session|listing):_files$", it) and it[0] != "-" and not it.startswith("*:user")]
            self.assertEqual("".join(files), places_of_files.get(command, ""))


class Scripts(unittest.TestCase):
    """The scripts beside the program that have options."""

    NAMES = sorted(it.stem.removeprefix("aclctl-") for it in (TOP / "completions").glob("aclctl-*.bash"))

    def test_help_manual_and_both_shells_have_the_same_options(self):
        self.assertIn("report", self.NAMES)
        for name in self.NAMES:
            told = "\n".join(run(TOP / "bin" / name, "--help"))
            wanted = set(re.findall(r"--[a-z0-9-]+", told.replace("`getent", "")))
            page = (TOP / f"docs/aclctl-{name}.1").read_text().replace("\\-", "-").split(".SH SYNOPSIS")[1].split(".SH DESC")[0]
            self.assertEqual(set(re.findall(r"--[a-z0-9-]+", page)) | {"--help"}, wanted, name)
            bash = (TOP / f"completions/aclctl-{name}.bash").read_text()
            self.assertEqual(set(re.search(r"compgen -W '([^']+)'", bash)[1].split()), wanted, name)
            zsh = (TOP / f"completions/_aclctl-{name}").read_text()
            self.assertEqual(set(re.findall(r"'(?:\([a-z -]+\))?(--[a-z0-9-]+)[=[]", zsh)), wanted, name)

    def test_bash_completes_options_and_files(self):
        for name in self.NAMES:
            script = f"source {TOP}/completions/aclctl-{name}.bash; _aclctl_{name} aclctl-{name} --h aclctl-{name}; printf '%s\n' \"${{COMPREPLY[@]}}\""
            self.assertEqual(run("bash", "--norc", "-c", script), ["--help"], name)


class Lines(unittest.TestCase):
    def setUp(self):
        self.room = Path(tempfile.mkdtemp(prefix="test-completions-")).resolve()
        self.addCleanup(shutil.rmtree, self.room)
        for name in ("setup.toml", "a session", "at@x:y"):
            (self.room / name).touch()
        (self.room / "folder").mkdir()

    def test_styles_where_a_style_goes(self):
        ids = "--owner 1000 --group=50"
        self.assertEqual(by_bash("aclctl explain "), STYLES)
        self.assertEqual(by_bash(f"aclctl explain {ids} --uid 1 p"), ["posix"])
        self.assertEqual(by_bash(f"aclctl compare {ids} "), STYLES)
        self.assertEqual(by_bash(f"aclctl compare nfs4 A::OWNER@:rwa,D:g:60:w {ids} "), STYLES)
        self.assertEqual(by_bash(f"aclctl compare {ids} -- posix u::rw,g::r,o::- n"), ["nfs4"])

    def test_commands_where_a_command_goes(self):
        self.assertEqual(by_bash("aclctl help "), sorted(MANUAL))
        self.assertEqual(by_bash("aclctl help tr"), ["translate"])

    def test_forms_where_a_form_goes(self):
        self.assertEqual(by_bash("aclctl translate --form "), ["freebsd", "nfs4"])
        self.assertEqual(by_bash("aclctl translate --form=f"), ["freebsd"])

    def test_options_where_a_text_goes(self):
        lines = ("decide", "explain nfs4", "compare posix", "compare posix u::- nfs4", "dump s", "list s", "why x")
        for line in lines:
            options = sorted(MANUAL[line.split()[0]])
            self.assertEqual(by_bash(f"aclctl {line} "), options)
            self.assertEqual(by_bash(f"aclctl {line} u::r"), [])
        self.assertEqual(by_bash("aclctl decide -- -"), [])

    def test_files_where_files_go(self):
        files = sorted(it.name for it in self.room.iterdir())
        lines = ["run --setup ", "run --setup=", "run --setup s x y ", "run --max-errors 3 x "]
        lines += ["run --journal ", "impact ", "who --perms r ", "dump ", "list "]
        lines += ["who --accounts ", "who --reach ", "impact --all x "]
        lines += ["why --user bob --perms w ", "restore ", "restore x ", "translate --print0 ", "next --user bob --dir ", "lint --setup s x "]
        for line in lines:
            self.assertEqual(by_bash(f"aclctl {line}", cwd=self.room), files, line)
        for line in ("run --setup se", "who --accounts=se", "run x y se", "dump -- se"):
            self.assertEqual(by_bash(f"aclctl {line}", cwd=self.room), ["setup.toml"], line)

    def test_of_a_name_that_bash_cuts_only_the_end_is_replaced(self):
        for line in ("who at@x", "who --accounts at@x", "who --accounts=at@x"):
            self.assertEqual(by_bash(f"aclctl {line}", cwd=self.room), ["x:y"], line)
        self.assertEqual(by_bash("aclctl who at@x:", cwd=self.room), ["y"])

    def test_nothing_where_a_number_goes_or_too_many_words_stand(self):
        lines = ["decide --owner ", "explain --gids=", "compare --group 5", "run --max-errors "]
        for line in (*lines, "who --perms ", "who --user ", "who x s", "why --user ", "restore x y z", "impact --user ", "impact --all b a x"):
            self.assertEqual(by_bash(f"aclctl {line}", cwd=self.room), [], line)


if __name__ == "__main__":
    unittest.main()
