#!/usr/bin/env -S python3 -B
r"""Finds the names that shells keep for themselves, and compares them with the list of these names.

    kept_names.py [--program PROGRAM | --names FILE] [SHELL]..     compares; without a word with tests/kept_names.tsv
    kept_names.py --table [SHELL]..                                prints that table, as it should be
    kept_names.py --lists                                          compares the table and the list of the code

Without SHELL, the shells are those of the table.

With --program, the list is what `PROGRAM sh` refuses of the names that are tried, so all shells have to be there. With
--names, it is that of another table.

A shell evaluates lines `export NAME='VALUE'`, as `dotenvy_export sh` writes them, and starts a program. The shell keeps
the name if the program doesn't get exactly this value, or doesn't get the values of lines before and after it, or runs
as another user or group. Each name is tried with several values, where the program takes the place of the shell and
where it is its child; then all names that are not kept are tried at once. Each name that is in a shell's executable or
in its modules is tried, each that the shell itself lists, and some more. A shell that isn't installed is left out. It
takes some minutes.

With --lists, no shell is tried. Each name of the table has to be in src/reserved.rt of dotenvy_exporter, which has no
other names except those of ksh93. docs/dotenvy_export.1 has to have these names in order. The last line is `N passed, M
failed`.
"""

import collections
import itertools
import pathlib
import re
import subprocess
import sys
import tempfile

import export_tools
from counting import judge

TABLE = pathlib.Path(__file__).resolve().parent / "kept_names.tsv"
CODE = export_tools.TOP / "crates" / "dotenvy_exporter" / "src" / "reserved.rt"
MANUAL = export_tools.TOP / "docs" / "dotenvy_export.1"
HEADER = ["name", "shell", "values that pass", "what happens"]
VALUES = ["q7", "1000", "-1", "08", "", "/q7:/q8", "a b'\"$x`\\"]
# Both ways to start a program: in place of the shell, and as its child.
WAYS = {"exec": "exec {0}", "a child": "{0}; :"}
# What tells the environment, the user and the groups of a process.
TELLING = "/bin/cat /proc/self/environ /proc/self/status"
NAMES_IN_CALL = 400
SECONDS = 60
# Lines that print the names of a shell's variables.
LISTINGS = ["compgen -v", "typeset +", "print -l ${(k)parameters}", "set", "typeset -p", "export -p", "readonly -p"]
NAME = re.compile(r"[A-Za-z_][A-Za-z0-9_]{0,39}")
# Names of the system that a program's surroundings often have.
OTHER_NAMES = """
    CDPATH COLUMNS DISPLAY EDITOR HOME HOSTNAME LANG LANGUAGE LC_ALL LC_CTYPE LC_MESSAGES LINES LOGNAME MAIL NLSPATH
    OLDPWD PAGER PATH PORT PWD SHELL SHLVL TERM TMPDIR TZ UID USER VISUAL XDG_RUNTIME_DIR http_proxy path status
""".split()
# The shells whose names are listed. In ksh93 and mksh more names fail, as LANG does where there is no such locale.
SHELLS = ["dash", "bash", "bash --posix", "busybox", "zsh", "zsh --emulate sh"]
# The names that ksh93 keeps, and no shell of the table.
OF_KSH93 = {"A__z", "JOBMAX", "KSH_VERSION", "TMOUT"}
# The loader's names mean something to each program, not to the shell.
LEFT_OUT = re.compile(r"LD_.*")

Failure = collections.namedtuple("Failure", "held value what")


def shell_word(text):
    """The text in single quotes."""
    return "'" + text.replace("'", "'\\''") + "'"


class Trial:
    """Tries names in one shell."""

    def __init__(self, shell, folder):
        self.shell = shell
        self.file = pathlib.Path(folder, "lines")
        self.ids = {way: self.call([], way)[1] for way in WAYS}

    def call(self, lines, way):
        """What a program gets after these lines: its environment, its ids, and what is printed as errors."""
        self.file.write_text("".join(line + "\n" for line in lines), encoding="utf-8")
        script = ". " + str(self.file) + "; " + WAYS[way].format(TELLING)
        try:
            done = subprocess.run(
                [*self.shell.command, "-c", script], env={}, cwd=self.file.parent, stdin=subprocess.DEVNULL,
                capture_output=True, timeout=SECONDS)
        except subprocess.TimeoutExpired:
            return {}, "", "it doesn't end"
        variables, _, status = done.stdout.rpartition(b"\0")
        ids = re.findall(rb"^(?:Uid|Gid|Groups):.*$", status, re.M)
        pairs = dict(one.split(b"=", 1) for one in variables.split(b"\0") if b"=" in one)
        return pairs, ids, done.stderr.decode("utf-8", "replace")

    def fault(self, pairs, way):
        """What goes wrong with these pairs, or None."""
        lines = ["export Q7_FIRST='1'"] + [f"export {name}={shell_word(value)}" for name, value in pairs]
        got, ids, errors = self.call(lines + ["export Q7_LAST='1'"], way)
        for name, value in [*pairs, ("Q7_FIRST", "1"), ("Q7_LAST", "1")]:
            found = got.get(name.encode())
            if found != value.encode():
                return self.said(name, found, errors, got)
        return None if ids == self.ids[way] else "the program runs as another user or group"

    def said(self, name, found, errors, got):
        """A phrase for a name that hasn't its value, the same in each run."""
        said = re.sub(r"^.*?lines(?:\[|: |:)[^ ]*( line [0-9]+:)? ?", "", errors.strip().split("\n")[0])
        said = f" ({said})" if said else ""
        if not got:
            return "the shell ends" + said
        if name.startswith("Q7_"):
            return "a line after it is lost" + said
        return ("the program doesn't get it" if found is None else "the program gets another value") + said

    def failing(self, names, value, way):
        """The names that fail, each tried by itself where not all can be had together."""
        if self.fault([(name, value) for name in names], way) is None:
            return {}
        if len(names) == 1:
            return {names[0]: self.fault([(names[0], value)], way)}
        half = len(names) // 2
        return {**self.failing(names[:half], value, way), **self.failing(names[half:], value, way)}

    def kept(self, names):
        """The names that fail with any of the values, each with the first failure."""
        kept = {}
        for value, way in itertools.product(VALUES, WAYS):
            left = [name for name in names if name not in kept]
            for start in range(0, len(left), NAMES_IN_CALL):
                for name, what in self.failing(left[start:start + NAMES_IN_CALL], value, way).items():
                    kept[name] = Failure(self.held(name), value, what)
        return kept

    def held(self, name):
        """The values that a program does get under this name, both ways."""
        return [value for value in VALUES if not any(self.fault([(name, value)], way) for way in WAYS)]

    def together(self, names):
        """What goes wrong with all these names at once, each with a value that is its own."""
        return self.fault([(name, "q7 " + name) for name in names], "exec")


def names_in(path):
    """The names that are whole texts of a program or a library."""
    return {found.decode() for found in re.findall(rb"(?<=\0)[A-Za-z_][A-Za-z0-9_]{0,39}(?=\0)", path.read_bytes())}


def names_of(shell):
    """The names that may mean something to a shell."""
    names = set().union(*[names_in(path) for path in shell.files()])
    for listing in LISTINGS:
        done = subprocess.run(
            [*shell.command, "-c", listing], env={}, stdin=subprocess.DEVNULL, capture_output=True, timeout=SECONDS)
        names.update(NAME.findall(done.stdout.decode("utf-8", "replace")))
    return names


def pool(shells):
    """All names that are tried, in order."""
    names = set(OTHER_NAMES).union(*[names_of(shell) for shell in shells])
    return sorted(name for name in names if NAME.fullmatch(name) and not LEFT_OUT.fullmatch(name))


def refused_by(program, names):
    """The names that the program refuses to write for a shell."""
    refused = set()
    for name in names:
        done = subprocess.run(
            [program, "sh", "--ignore-environment", "-"], input=f"{name}=q7\n".encode(), env={}, capture_output=True,
            timeout=SECONDS)
        if done.returncode == 1 and done.stderr.startswith(f"dotenvy_export: error: {name}: ".encode()):
            refused.add(name)
        elif done.returncode != 0:
            raise SystemExit(f"kept_names.py: {program} ends with status {done.returncode} at the name {name}")
    return refused


def listed_in(path, shells):
    """The names that a table has for these shells."""
    lines = [line.split("\t") for line in path.read_text(encoding="utf-8").splitlines()[1:]]
    return {line[0] for line in lines if line[1] in [shell.name for shell in shells]}


def kept_by(shells, names, folder):
    """For each name that is kept, what goes wrong in which shell; and what goes wrong with the others at once."""
    kept, wrong = collections.defaultdict(dict), {}
    for shell in shells:
        for name, failure in Trial(shell, folder).kept(names).items():
            kept[name][shell.name] = failure
        print(f"{shell.name} ({shell.version}): keeps {sum(shell.name in one for one in kept.values())} of "
              f"{len(names)} names", file=sys.stderr)
    for shell in shells:
        wrong[shell.name] = Trial(shell, folder).together([name for name in names if name not in kept])
    return kept, wrong


def print_table(kept):
    """Prints the table of names."""
    print("\t".join(HEADER))
    for name, failures in sorted(kept.items()):
        for shell, failure in failures.items():
            held = " ".join(shell_word(value) for value in failure.held) or "none"
            print("\t".join([name, shell, held, f"of {shell_word(failure.value)}: {failure.what}"]))


def compare(kept, wrong, listed, names):
    """Prints what differs, and how many names are right. The status."""
    failed = [f"{name} is listed, and no shell keeps it" for name in sorted(listed - kept.keys())]
    for name in sorted(kept.keys() - listed):
        failed += [f"{name} is not listed, and {shell}, of {failure.value!r}: {failure.what}"
                   for shell, failure in kept[name].items()][:1]
    failed += [f"all names at once in {shell}: {fault}" for shell, fault in wrong.items() if fault]
    for line in failed:
        print("FAILED:", line)
    print(f"{max(0, len(names) + len(wrong) - len(failed))} passed, {len(failed)} failed")
    return 1 if failed else 0


def code_names():
    """The names that the code has, in its order."""
    return re.findall(r'^    "(\w+)",$', CODE.read_text(encoding="utf-8"), re.M)


def manual_names():
    """The names that the manual page lists."""
    text = MANUAL.read_text(encoding="utf-8")
    section = re.search(r"^\.SH NAMES THAT SHELLS KEEP\n(.*?)(?=^\.SH )", text, re.M | re.S)
    names = re.search(r"^These are the names: ([^.]*)\.$", section.group(1), re.M) if section else None
    return re.split(r",\s+", names.group(1)) if names else []


def table_names():
    """The names of the table, in its order."""
    lines = TABLE.read_text(encoding="utf-8").splitlines()[1:]
    return list(dict.fromkeys(line.split("\t")[0] for line in lines))


def compare_lists():
    """Prints how the lists differ from that of the code. The status."""
    names, table, manual = code_names(), table_names(), manual_names()
    checks = [(name in names, f"{name} of tests/kept_names.tsv is in src/reserved.rt") for name in table]
    known = OF_KSH93.union(table)
    checks += [(name in known, f"{name} of src/reserved.rt is in tests/kept_names.tsv") for name in names]
    checks += [(name in names, f"{name} of ksh93 is in src/reserved.rt") for name in sorted(OF_KSH93)]
    checks += [(name in manual, f"docs/dotenvy_export.1 has {name}") for name in names]
    checks.append((manual == names, "docs/dotenvy_export.1 has the names of src/reserved.rt, in order"))
    checks.append((names == sorted(set(names)) != [], "src/reserved.rt has names, each once and in order"))
    return judge((what, [] if holds else ["it isn't so"]) for holds, what in checks)


def main(words):
    """Reads the command line."""
    if words == ["--lists"]:
        return compare_lists()
    program, table, only_table = None, TABLE, False
    while words and words[0].startswith("--"):
        word = words.pop(0)
        only_table = only_table or word == "--table"
        program = words.pop(0) if word == "--program" else program
        table = pathlib.Path(words.pop(0)) if word == "--names" else table
    shells = export_tools.shells(words or SHELLS)
    names = pool(shells)
    with tempfile.TemporaryDirectory() as folder:
        kept, wrong = kept_by(shells, names, folder)
    if only_table:
        print_table(kept)
        return 0
    listed = refused_by(program, names) if program else listed_in(table, shells)
    if "ksh93" not in words:
        listed -= OF_KSH93
    return compare(kept, wrong, listed, names)


if __name__ == "__main__":
    sys.exit(main(sys.argv[1:]))
