#!/usr/bin/env -S python3 -B
"""Compares the report of the program dotenvy_check with the model of it, tests/report_model.py.

    report.py [PROGRAM] [--files N]         without PROGRAM it is the one that `rt run` in crates/dotenvy_check builds
    report.py --model[=FILE] [--files N]    has the model in FILE in place of the program: to try the checks

What is compared: each line of tests/report_examples.tsv, and N files that are drawn (2,000 if no number is given), in
both dialects. Other checks are without the model: each mistake of tests/mistakes.tsv is told on its line; what is
advised in tests/advice.tsv helps; files that differ in a secret alone have one report, without a part of the secret;
each format has the report of the text; a kind that is allowed leaves the report alone, and one that is denied counts;
and each kind has an example. The program is run in an empty environment but for the names that are to have a value.
It takes some seconds. The last line is `N passed, M failed`.
"""

import collections
import contextlib
import importlib.util
import itertools
import multiprocessing
import pathlib
import random
import re
import string
import subprocess
import sys
import tempfile

import formats
import report_drawing
import report_model
from counting import Count

TOP = report_model.TOP
PROGRAM = TOP / "crates" / "dotenvy_check" / "out" / "dotenvy_check"
MISTAKES = TOP / "tests" / "mistakes.tsv"
ADVICE = TOP / "tests" / "advice.tsv"
DIALECTS = ["v15", "next"]
FILES_IN_CALL = 500
SECONDS = 300
# A line that leaves a quote open.
OPEN_LINE = b"TITLE=Tom's shop\n"

Answer = collections.namedtuple("Answer", "status output errors")


# What reads files: the program, or a model.


class Program:
    """A built program."""

    def __init__(self, path):
        self.path = path

    def call(self, folder, paths, dialect, names, options=()):
        """What it prints of files in the folder, where the names have a value."""
        words = [self.path, *options] + (["--next"] if dialect == "next" else []) + ["--"] + paths
        environment = {name: "1" for name in names}
        done = subprocess.run(
            words, cwd=folder, env=environment, stdin=subprocess.DEVNULL, capture_output=True, timeout=SECONDS)
        return Answer(done.returncode, done.stdout, done.stderr)


class Model:
    """A model that stands in for the program."""

    def __init__(self, path):
        spec = importlib.util.spec_from_file_location("stand_in", path)
        self.module = importlib.util.module_from_spec(spec)
        spec.loader.exec_module(self.module)

    def call(self, folder, paths, dialect, names):
        """What the program would print by this model."""
        lines, status = [], 0
        for path in paths:
            for finding in self.module.report(pathlib.Path(folder, path).read_bytes(), dialect, names):
                lines.append(self.module.printed(path, finding, MESSAGES) + "\n")
                if finding.is_error and not finding.is_guess:
                    status = 1
        return Answer(status, "".join(lines).encode(), b"")


MESSAGES = report_model.messages()


@contextlib.contextmanager
def placed(files):
    """A folder that has these files, and their paths in it."""
    with tempfile.TemporaryDirectory() as folder:
        paths = [f"f{number}.env" for number in range(len(files))]
        for path, data in zip(paths, files):
            pathlib.Path(folder, path).write_bytes(data)
        yield folder, paths


def ask_of(reader, folder, paths, dialect, names):
    """The lines that are printed of each file, without its name, and what is wrong with the call, if anything is."""
    answer = reader.call(folder, paths, dialect, names)
    lines = answer.output.decode("utf-8", "surrogateescape").split("\n")
    by_path = {path: [] for path in paths}
    for line in lines[:-1]:
        path, _, said = line.partition(":")
        by_path.get(path, by_path[paths[0]]).append(said if path in by_path else line)
    status = 1 if any(": error: " in line for line in lines) else 0
    if not lines[-1] and not answer.errors and answer.status == status:
        return list(by_path.values()), ""
    return list(by_path.values()), f"status {answer.status} in place of {status}; standard error: {answer.errors[:200]}"


def ask(reader, files, dialect, names):
    """As ask_of, for files that have no folder yet."""
    reports, wrong = [], ""
    for start in range(0, len(files), FILES_IN_CALL):
        with placed(files[start:start + FILES_IN_CALL]) as (folder, paths):
            found, fault = ask_of(reader, folder, paths, dialect, names)
        reports, wrong = reports + found, wrong or fault
    return reports, wrong


def told(lines):
    """The findings of printed lines, or None for one that is no finding."""
    pattern = r"(\d+):(\d+): (error|warning): .*?( \(after the open quote\))?(?: \(line (\d+)\))? \[([a-z0-9-]+)\]"
    found = [re.fullmatch(pattern, line) for line in lines]
    return [
        report_model.Finding(int(one[1]), int(one[2]), one[6], one[3] == "error", int(one[5] or 0), one[4] is not None)
        if one else None for one in found]


def modelled(data, dialect, names):
    """The lines that are right by the model, without the name of the file."""
    findings = report_model.report(data, dialect, names)
    return [report_model.printed("", finding, MESSAGES)[1:] for finding in findings]


def as_written(data):
    """The bytes of a file as the table of examples writes them."""
    text = data.decode("utf-8", "surrogateescape").replace("\\", "\\\\").replace("\n", "\\n").replace("\t", "\\t")
    text = re.sub("[\udc80-\udcff]", lambda sign: f"\\x{ord(sign.group()) - 0xdc00:02x}", text.replace("\r", "\\r"))
    return "".join(sign if sign.isprintable() else f"\\u{{{ord(sign):x}}}" for sign in text)


# Counts.


def rows(path):
    """The cells of the lines of a table, without its header."""
    lines = path.read_text(encoding="utf-8").rstrip("\n").split("\n")
    return [line.split("\t") for line in lines[1:]]


# What is compared with the model.


def compare(count, what, files, dialect, names, found, wanted):
    """Checks that the lines of each file are those that are wanted."""
    for data, lines, right in zip(files, found, wanted):
        count.check(lines == right, f"{what}, {dialect}, names {names}: {as_written(data)[:2000]}", *[
            ("printed  " if line in lines else "missing  ") + line
            for line in lines + [line for line in right if line not in lines]], "wanted   " + " | ".join(right))


def check_examples(count, reader):
    """Checks the lines of the table of examples, those of a dialect and of the same names in one call."""
    groups = collections.defaultdict(list)
    for file, dialect, names, findings in rows(report_model.EXAMPLES):
        groups[dialect, names].append((report_model.bytes_of(file), report_model.wanted_findings(findings)))
    for (dialect, names), examples in groups.items():
        listed = [] if names == "-" else names.split(",")
        files = [file for file, _ in examples]
        found, wrong = ask(reader, files, dialect, listed)
        count.check(not wrong, "a call for examples: " + wrong)
        compare(count, "an example", files, dialect, names, found, [modelled(file, dialect, listed) for file in files])
        for (file, findings), lines in zip(examples, found):
            says = [tuple(one) if one else one for one in told(lines)]
            right = [one[:3] + (one[3] and not one[5],) + one[4:] for one in findings]
            count.check(says == right, "an example of the table: " + as_written(file), *lines, f"wanted {right}")


def check_kinds(count):
    """Checks that each kind has an example in the table, and that the model has the same kinds."""
    has_example = {
        finding[2] for _, _, _, findings in rows(report_model.EXAMPLES)
        for finding in report_model.wanted_findings(findings)}
    for kind in MESSAGES:
        count.check(kind in has_example, f"{kind} has no example in tests/report_examples.tsv")
    count.check(MESSAGES.keys() == report_model.FAULTS | report_model.WARNINGS, "the model has other kinds")


def example_texts():
    """The examples that are texts, from which files are drawn."""
    files = [report_model.bytes_of(row[0]) for row in rows(report_model.EXAMPLES)]
    return [data.decode() for data in files if report_model.decoded(data)[0] is not None]


def compare_drawn(task):
    """Compares drawn files: their number, what is wrong with the calls, and each file that differs with its lines."""
    make, path, numbers, examples = task
    reader, wrong, differing = make(path), [], {}
    files = [report_drawing.drawn(number, examples) for number in numbers]
    with placed(files) as (folder, paths):
        answers = [ask_of(reader, folder, paths, dialect, report_drawing.KNOWN) for dialect in DIALECTS]
    for dialect, (found, fault) in zip(DIALECTS, answers):
        wrong += [fault] if fault else []
        for number, data, lines in zip(numbers, files, found):
            right = modelled(data, dialect, report_drawing.KNOWN)
            if lines != right:
                differing.setdefault(number, (data, dialect, lines, right))
    return len(files), wrong, differing


def check_drawn(count, make, path, amount):
    """Checks so many drawn files, in two processes."""
    examples, starts = example_texts(), range(0, amount, FILES_IN_CALL)
    tasks = [(make, path, range(start, min(amount, start + FILES_IN_CALL)), examples) for start in starts]
    with multiprocessing.Pool(2) as pool:
        for number, wrong, differing in pool.imap(compare_drawn, tasks):
            count.check(not wrong, "a call for drawn files: " + "; ".join(wrong))
            count.passed += number - len(differing)
            for which, (data, dialect, lines, right) in differing.items():
                what = f"the drawn file {which}"
                compare(count, what, [data], dialect, report_drawing.KNOWN, [lines], [right])


# What is checked without the model.


def findings_of(count, reader, what, files):
    """The findings of each file, read in the first dialect where no name has a value."""
    found, wrong = ask(reader, files, "v15", [])
    count.check(not wrong, f"a call for {what}: {wrong}")
    for data, lines in zip(files, found):
        count.check(None not in told(lines), "no report: " + as_written(data), *lines)
    return [[finding for finding in told(lines) if finding] for lines in found]


def check_mistakes(count, reader):
    """Checks that each mistake of the table is told on its line: as a file by itself, or behind an open quote."""
    mistakes = rows(MISTAKES)
    front = {"alone": b"", "behind": OPEN_LINE}
    files = [front[where] + report_model.bytes_of(file) for file, _, where, _ in mistakes]
    told_ones = 0
    for (file, line, where, kinds), findings in zip(mistakes, findings_of(count, reader, "mistakes", files)):
        wanted = {(int(line) + front[where].count(b"\n"), kind, where == "behind") for kind in kinds.split(",")}
        found = {(finding.line, finding.kind, finding.is_guess) for finding in findings}
        told_ones += wanted <= found
        count.check(wanted <= found, f"a mistake, {where}: {file}", f"wanted {wanted}", f"found {found}")
    print(f"{told_ones} of {len(mistakes)} mistakes are told")


def check_advice(count, reader):
    """Checks that each kind has a row of advice, that its file has the kind, and that the other file is right."""
    advice = rows(ADVICE)
    for kind in MESSAGES:
        count.check(kind in {row[0] for row in advice}, f"{kind} has no row in tests/advice.tsv")
    files = [report_model.bytes_of(cell) for row in advice for cell in row[1:]]
    found = findings_of(count, reader, "advice", files)
    for (kind, file, instead), before, after in zip(advice, found[0::2], found[1::2]):
        count.check(kind in {finding.kind for finding in before}, f"{kind} isn't told of {file}", before)
        fine = all(finding.kind != kind and not finding.is_error for finding in after)
        count.check(fine, f"the advice of {kind} doesn't help: {instead}", after)


# Files with a secret at the sign: plain text, in quotes, in names, in comments, in faulty lines and behind open quotes.
SECRET = b"@"
SECRET_FILES = [
    b"A=@ x\n", b"A=x @\n", b"A=x\\@\n", b"A=\"x\\@\"\n", b"A=@\\d\n", b"A='@' x\n", b"A=\"@\" 'x'\n", b"A='x' @\n",
    b"A=\"@\n", b"A='@\n", b"A=@'s\n", b"A=\"x$@\"\n", b"A=\"@$\"\n", b"A=${@\n", b"A=x${@ y\n", b"A=@; B=1\n", b"@\n",
    b"A=1 @=2\n", b"A=1; @=2\n", b"A @\n", b"export @\n", b"export -@\n", b"@: x\n", b"@-x=1\n", b"A-@=1\n", b"1@=2\n",
    b"set @=1\n", b"[@]\n", b"// @\n", b"-- @=1\n", b"<<<<<<< @\n", b"=@\n", b"?@\n", b"A=(@ x)\n", b"A=$(@ x)\n",
    b"A=\xe2\x80\x9c@ x\n", b"A=-----BEGIN @-----\n@\n-----END\n", b"A=x \\\n@\n", b"A=$B'@ x'\n", b"A=@ // x\n",
    b"A=$@\n", b"A=x$@.y\n", b"A=\"$@ \"\n", b"A=$@_x\n", b"A=$@'x'\n", b"A=${@}\n", b"A=${@.x}\n", b"A=${@:-x}\n",
    b"A=${B:-@}\n", b"A=${B?@}\n", b"A=${@ }\n", b"A=${B @}\n", b"A=$C\nC=@\n", b"A=$@\n@=1\n", b"@=$@\n", b"A=$$@\n",
    b"@=1\n@=2\n", b"A=@\nA=@\n", b"A=@\\\n", b"A=#@\n", b"A=x'@'\n", b"A={\"@\":1}\n", b"A=\"x\"#@\n", b"A=\"@\";\n",
    b"A=@\0\n", b"A=\"@\0\"\n", b"A=@\rx\n", b"A=@\xc2\xa0x\n", b"A=@\xe2\x80\x9d\n", b"A=~/@\n", b"A=<<@\n", b"@@@=\n",
    b"A=1  # it's @\n", b"A=1  # @ it's\nB='\n", b"A=x y # @\n", b"A=1  # @ \"\nB=@\"\n", b"A=\"@\nB=1\nC=\"@\n",
    b"A=\"x\nB=@ y\n", b"A=\"x\n@\n", b"A=\"x\nB=$@\n", b"A=\"x\nB='@\n", b"A=\"@\nB=@\" @\nC=@ x\n", b"A='x\n@ y\n",
    b"A=Tom's\nB=\"@\"#@\n@-x\n", b"A=\"x\nB=${@}\n@=1\n", b"A=@\xff\n", b"\xe9@\n", b"A=\"x\n@\xff@\nB=@ x\n", b"A=@ ",
    b"A=@\\", b"A=\xff@", b"# @ \xff\n", b"A=$@-\xff\n", b"A=1 # @\xe9\nB=@ x\n", b"\xff\xfeA=@\n", b"A=@\xe9@\n",
    b"A='x\n# @\nB=\"@\n@ y\nC=@ x\n", b"A='x\nB=${D} # @\nexport @ # c\n", b"[it's @\nB=@ x\n", b"A=\"@ # @\" '@\n",
]
# Files of which nothing is told.
SILENT_FILES = [b"A=@\n", b"A='@'\n", b"A=\"@\"\n", b"A=1 # @\n", b"# @ 'x\n", b"@=1\n", b"A=\"\\$@\"\n", b"A=\\$@\n"]
# The characters of a secret by their classes, in turn: none makes a word that means something, or begins an escape.
LETTERS = [string.ascii_lowercase[6:13], string.ascii_uppercase, string.digits]
OTHER_LETTERS = ["\u00e0\u00e9\u00ee\u00f5", "\u0416\u0414\u0424\u042f", "\u4e2d\u6587\u540d", "\u0663\u0664\u0665"]
# Bytes that are no UTF-8, such as those of a key that isn't written as text.
BAD_BYTES = ["".join(map(chr, range(0xdc80, 0xdcc0)))]


def secret(draw, classes, length):
    """A secret of this length."""
    text = "".join(draw.choice(classes[place % len(classes)]) for place in range(length))
    return text.encode("utf-8", "surrogateescape")


def has_part(output, hidden):
    """Whether four characters of the secret that follow each other are in what is printed."""
    return any(hidden[place:place + 4] in output for place in range(len(hidden) - 3))


def check_secrets(count, reader):
    """Checks that the report of a file doesn't tell a secret, and is the same if the secret is another one."""
    draw, tries = random.Random("secrets"), []
    for file in SECRET_FILES + SILENT_FILES:
        for classes, length in [(LETTERS, 24), (LETTERS, 300), (OTHER_LETTERS, 24), (BAD_BYTES, 24)]:
            is_name = classes is not LETTERS and file.startswith(SECRET)
            is_told = file in SECRET_FILES or classes is BAD_BYTES or is_name
            tries.append((file, is_told, [secret(draw, classes, length) for _ in range(2)]))
    files = [file.replace(SECRET, hidden) for file, _, pair in tries for hidden in pair]
    for dialect in DIALECTS:
        found, wrong = ask(reader, files, dialect, ["B"])
        count.check(not wrong, "a call for secrets: " + wrong)
        for (file, is_told, pair), one, other in zip(tries, found[0::2], found[1::2]):
            count.check(one == other, f"the secret is told, {dialect}: {as_written(file)}", *one, "other", *other)
            printed = "\n".join(one + other)
            is_seen = any(has_part(printed, hidden.decode("utf-8", "surrogateescape")) for hidden in pair)
            count.check(not is_seen, f"a part of the secret is printed, {dialect}: {as_written(file)}", printed)
            count.check(bool(one) == is_told, f"what is told of {as_written(file)}, {dialect}", *one)


# The options.


def read_in(name, printed):
    """The lines of text for which a report in this format stands, or what is wrong with it."""
    try:
        return list(formats.READERS[name](printed.decode("utf-8")))
    except (KeyError, TypeError, ValueError) as fault:
        return [f"{name}: {type(fault).__name__}: {fault}"]


def check_formats(count, reader):
    """Checks that each format has the report of the text."""
    with placed(SECRET_FILES + SILENT_FILES) as (folder, paths):
        for dialect in DIALECTS:
            lines = reader.call(folder, paths, dialect, ["B"]).output.decode("utf-8").splitlines()
            for name in formats.READERS:
                answer = reader.call(folder, paths, dialect, ["B"], ["--format", name])
                read = read_in(name, answer.output)
                other = [pair for pair in itertools.zip_longest(lines, read) if pair[0] != pair[1]]
                count.check(not other, f"the format {name} has another report than the text, {dialect}", *other[:3])


def is_of(line, kind):
    """Whether a printed line is a finding of this kind."""
    return line.endswith(f" [{kind}]")


def check_allowed(count, reader):
    """Checks that a kind of warnings can be allowed, and what is reported then, and that an error can't."""
    with placed(SECRET_FILES) as (folder, paths):
        lines = reader.call(folder, paths, "v15", []).output.decode("utf-8").splitlines()
        for kind in MESSAGES:
            answer = reader.call(folder, paths, "v15", [], ["--allow", kind])
            left = answer.output.decode("utf-8").splitlines()
            if kind in report_model.FAULTS:
                count.check(answer.status == 2 and not left, f"the error {kind} can be allowed", *left[:3])
            else:
                is_right = left == [line for line in lines if not is_of(line, kind)]
                count.check(answer.status == 1 and is_right, f"another report, where {kind} is allowed", *left[:3])


def check_denied(count, reader):
    """Checks that a kind that is denied counts, and no other, and changes nothing in the report."""
    found, _ = ask(reader, SECRET_FILES, "v15", [])
    files = [file for file, lines in zip(SECRET_FILES, found) if not any(": error: " in line for line in lines)]
    with placed(files) as (folder, paths):
        printed = reader.call(folder, paths, "v15", []).output
        lines = printed.decode("utf-8").splitlines()
        for kind in MESSAGES:
            answer = reader.call(folder, paths, "v15", [], ["--deny", kind])
            status = 1 if any(is_of(line, kind) for line in lines) else 0
            count.check(answer == Answer(status, printed, b""), f"status {answer.status}, where {kind} is denied")


# The command.


def asked(words):
    """What the words of the command line ask for: what makes a reader, its path, and the number of files to draw."""
    make, path, amount, rest = Program, PROGRAM, 2000, iter(words)
    for word in rest:
        if word == "--files":
            amount = int(next(rest, "0"))
        elif word == "--model" or word.startswith("--model="):
            make, path = Model, pathlib.Path(word[len("--model="):] or report_model.__file__)
        elif word.startswith("-"):
            raise SystemExit(__doc__)
        else:
            path = pathlib.Path(word)
    return make, path.resolve(), amount


def main(words):
    """Makes all checks, and returns the status."""
    make, path, amount = asked(words)
    sys.stdout.reconfigure(errors="backslashreplace")
    count = Count()
    if make is Program and not path.exists():
        count.check(False, f"there is no program {path}; rt run in crates/dotenvy_check builds it")
    else:
        reader = make(path)
        count.part("each kind has an example")
        check_kinds(count)
        for what, check in CHECKS.items():
            count.part(what)
            check(count, reader)
        if make is Program:
            check_options(count, reader)
        count.part(f"{amount} files that are drawn have the findings of the model")
        check_drawn(count, make, path, amount)
    return count.status()


def check_options(count, reader):
    """Makes the checks that call the program with options, which a model doesn't have."""
    for what, check in OPTION_CHECKS.items():
        count.part(what)
        check(count, reader)


CHECKS = {
    "the examples have the findings of their table, and of the model": check_examples,
    "each mistake is told on its line": check_mistakes,
    "what is advised helps": check_advice,
    "no secret is told": check_secrets,
}
OPTION_CHECKS = {
    "each format has the report of the text": check_formats,
    "a kind that is allowed leaves the report": check_allowed,
    "a kind that is denied counts": check_denied,
}

if __name__ == "__main__":
    sys.exit(main(sys.argv[1:]))
