"""Tests of the edits: what they make of a file, how it is replaced, and what they raise, return and log."""

import errno
import importlib.util
import logging
import os
import re
import stat
import tempfile
import unittest
from pathlib import Path
from unittest import mock

from dotenvy import Dialect, DotenvError, EditError, Refusal, UnsupportedError
from dotenvy import _library, _replace
from dotenvy import get_key, set_key, unset_key

from .in_folder import InFolder

MARK = b"\xef\xbb\xbf"
# The examples of the program's page, if this is a clone of the repository.
EXAMPLES = Path(__file__).resolve().parents[3] / "tests/edit_examples.tsv"

# What python-dotenv 1.2.2 leaves of a file with quote_mode="auto", where both write the same: the file before, None
# where there is none, the key, the value, and the file after.
SAME_SETS = [
    (b"A=1\n", "A", "2", b"A=2\n"),
    (b"A=1\n", "A", "two words", b"A='two words'\n"),
    (b"A=1\nB=2\n", "B", "3", b"A=1\nB=3\n"),
    (b"A=1", "B", "2", b"A=1\nB=2\n"),
    (None, "A", "1", b"A=1\n"),
    (b"", "A", "1", b"A=1\n"),
    (b"# c\n\nA=1\n", "C", "x y", b"# c\n\nA=1\nC='x y'\n"),
    (b"A=1\n", "A", '{"a": 1}', b"A='{\"a\": 1}'\n"),
    (b"A=1\n", "A", 'say "hi"', b"A='say \"hi\"'\n"),
    (b"A=1\n", "A", "pa$$word", b"A='pa$$word'\n"),
    (b"A=1\n", "A", "a#b", b"A='a#b'\n"),
]

# And where the key is removed: the file before, the key, what is returned, and the file after.
SAME_UNSETS = [
    (b"A=1\nB=2\n", "A", True, b"B=2\n"),
    (b"A=1\n", "A", True, b""),
    (b"A=1", "A", True, b""),
    (b"A=1\nA=2\nB=3\n", "A", True, b"B=3\n"),
    (b"export A=1 # c\nB=2\n", "A", True, b"B=2\n"),
    (b"A='x\ny'\nB=1\n", "A", True, b"B=1\n"),
    (b"B=1\n", "A", None, b"B=1\n"),
    (None, "A", None, None),
]

# And what is got of a key.
SAME_GETS = [
    (b"A=1\nA=2\n", "A", "2"),
    (b"A=1\n", "B", None),
    (None, "A", None),
    (b"A=1\nB=${A}0\n", "B", "10"),
]

# The words of the table of examples for each refusal.
REFUSALS = {
    "open-end": {Refusal.QUOTE_OPEN, Refusal.END_OPEN},
    "broken-line": {Refusal.UNREADABLE},
    "open-line": {Refusal.UNREADABLE},
    "comment-cut": {Refusal.LONG_COMMENT},
    "comment-removed": {Refusal.LONG_COMMENT},
    "key": {Refusal.NO_KEY},
    "nul": {Refusal.NUL},
}


class Edits(InFolder):
    """A test with the path of a file that isn't there."""

    def setUp(self):
        super().setUp()
        self.path = self.folder / "a.env"
        # So that warnings which a test doesn't look at are not printed.
        silent = logging.NullHandler()
        logging.getLogger("dotenvy").addHandler(silent)
        self.addCleanup(logging.getLogger("dotenvy").removeHandler, silent)

    def has(self, content):
        """Has this content at the path, or no file."""
        if content is None:
            self.path.unlink(missing_ok=True)
        else:
            self.path.write_bytes(content)

    def left(self):
        """The content that is there; and nothing else is in the folder."""
        self.assertLessEqual({name.name for name in self.folder.iterdir()}, {self.path.name})
        return self.path.read_bytes() if self.path.exists() else None

    def set_in(self, content, value, **how):
        """What a file has once `A` has this value."""
        self.has(content)
        self.assertEqual(set_key(self.path, "A", value, **how), (True, "A", value))
        return self.left()

    def mode(self):
        return stat.S_IMODE(self.path.stat().st_mode)


class LikePythonDotenv(Edits):
    def test_sets(self):
        for before, key, value, after in SAME_SETS:
            with self.subTest(before=before, value=value):
                self.has(before)
                self.assertEqual(set_key(self.path, key, value, quote_mode="auto"), (True, key, value))
                self.assertEqual(self.left(), after)
                self.assertEqual(get_key(self.path, key), value)

    def test_unsets(self):
        for before, key, returned, after in SAME_UNSETS:
            with self.subTest(before=before):
                self.has(before)
                self.assertEqual(unset_key(self.path, key), (returned, key))
                self.assertEqual(self.left(), after)

    def test_gets(self):
        for before, key, value in SAME_GETS:
            with self.subTest(before=before):
                self.has(before)
                self.assertEqual(get_key(self.path, key), value)

    def test_permissions(self):
        self.has(b"A=1\n")
        self.path.chmod(0o640)
        set_key(self.path, "A", "2")
        self.assertEqual(self.mode(), 0o640)
        unset_key(self.path, "A")
        self.assertEqual(self.mode(), 0o640)

    def test_arguments_by_place(self):
        self.assertEqual(set_key(str(self.path), "A", "x y", "auto", False, "utf8", False), (True, "A", "x y"))
        self.assertEqual(get_key(str(self.path), "A", "UTF-8"), "x y")
        self.assertEqual(unset_key(str(self.path), "A", "never", None, False), (True, "A"))

    @unittest.skipUnless(importlib.util.find_spec("dotenv"), "python-dotenv isn't installed")
    def test_the_real_one(self):
        import dotenv

        if not hasattr(dotenv, "set_key"):
            self.skipTest("another package has the name dotenv")
        for before, key, value, after in SAME_SETS:
            self.has(before)
            self.assertEqual(dotenv.set_key(self.path, key, value, quote_mode="auto"), (True, key, value))
            self.assertEqual(self.left(), after)
            self.assertEqual(dotenv.get_key(self.path, key), value)
        for before, key, returned, after in SAME_UNSETS:
            self.has(before)
            with self.assertLogs("dotenv") if returned is None else mock.MagicMock():
                self.assertEqual(dotenv.unset_key(self.path, key), (returned, key))
            self.assertEqual(self.left(), after)

    @unittest.skipUnless(importlib.util.find_spec("dotenv"), "python-dotenv isn't installed")
    def test_portable_values(self):
        import dotenv

        if not hasattr(dotenv, "get_key"):
            self.skipTest("another package has the name dotenv")
        for value in ("", "two words", "it's", "x\ny", "a\\b", 'say "hi"', "$A", "#", " x ", "é", "{}", "a=b"):
            with self.subTest(value=value):
                self.set_in(b"B=1\n", value, portable=True)
                self.assertEqual(get_key(self.path, "A"), value)
                self.assertEqual(dotenv.get_key(self.path, "A"), value)


def bytes_of(cell):
    """The bytes of a cell of the table of examples."""
    parts = re.split(r"(\\(?:n|r|t|\\|x[0-9a-f]{2}|u\{[0-9a-f]+\}))", cell)
    return b"".join(_sign(part) if index % 2 else part.encode() for index, part in enumerate(parts))


def _sign(escape):
    if escape.startswith("\\x"):
        return bytes.fromhex(escape[2:])
    if escape.startswith("\\u"):
        return chr(int(escape[3:-1], 16)).encode()
    return {"\\n": b"\n", "\\r": b"\r", "\\t": b"\t", "\\\\": b"\\"}[escape]


class Examples(Edits):
    def play(self, verb, key, value):
        if verb == "set":
            return set_key(self.path, key, value)
        return unset_key(self.path, key)

    @unittest.skipUnless(EXAMPLES.exists(), "the examples are in the repository alone")
    def test_examples(self):
        played = 0
        for line in EXAMPLES.read_text().splitlines()[1:]:
            before, call, value, after, _ = line.split("\t")
            verb, key, *others = call.split(" ")
            if verb == "rename" or others:
                continue
            with self.subTest(line):
                self.has(bytes_of(before))
                self.compare(lambda: self.play(verb, key, bytes_of(value).decode()), before, after)
                played += 1
        self.assertGreater(played, 40)

    def compare(self, call, before, after):
        if not after.startswith("refused: "):
            self.assertEqual(call()[0], True)
            self.assertEqual(self.left(), bytes_of(after))
            return
        reason, line = (after.split(" ") + ["0"])[1:3]
        if reason == "absent":
            self.assertEqual(call()[0], None)
        else:
            with self.assertRaises(EditError) as raised:
                call()
            self.assertIn(raised.exception.reason, REFUSALS[reason])
            self.assertEqual(raised.exception.line, int(line))
        self.assertEqual(self.left(), bytes_of(before))


class Values(Edits):
    def test_every_value_reads_back(self):
        signs = ["'", '"', "\\", " ", "#", "\n", "$x", "\r", "\t", "é", "${x}", "\U0001f511", "\u2028", "="]
        for first in signs:
            for second in ["", *signs]:
                value = first + second
                with self.subTest(value=value):
                    self.set_in(b"  export A = 1   # c\nB=2\n", value)
                    self.assertEqual(get_key(self.path, "A"), value)
                    self.assertEqual(get_key(self.path, "B"), "2")

    def test_names_in_values_are_text(self):
        os.environ["B"] = "of the process"
        self.assertEqual(self.set_in(b"B=1\n", "${B}$B"), b"B=1\nA='${B}$B'\n")
        self.assertEqual(get_key(self.path, "A"), "${B}$B")

    def test_dialects(self):
        with self.assertNoLog():
            self.set_in(b"A=1\nB=$A_B\n", "2", dialect=Dialect.NEXT)
        with self.assertLogs("dotenvy"):
            self.set_in(b"A=1\nB=$A_B\n", "2")
        self.has(b"A=1\nC=$A_B\n")
        self.assertEqual(get_key(self.path, "C"), "1_B")
        self.assertEqual(get_key(self.path, "C", dialect=Dialect.NEXT), "")
        with self.assertNoLog():
            unset_key(self.path, "A", dialect=Dialect.NEXT)

    def test_long_files(self):
        lines = b"".join(b"NAME_%d=%s\n" % (number, b"v" * 60) for number in range(10_000))
        self.assertEqual(self.set_in(lines + b"A=1\n", "x" * 100_000), lines + b"A=" + b"x" * 100_000 + b"\n")

    def test_a_get_raises_the_error_of_a_file(self):
        self.has(b"A=1\nB=x y\n")
        with self.assertRaises(DotenvError):
            get_key(self.path, "A")

    def assertNoLog(self):
        return mock.patch("dotenvy._edit.logger.warning", side_effect=AssertionError("a warning was logged"))


class Replaced(Edits):
    def test_a_new_file_is_for_its_owner(self):
        before = os.umask(0)
        self.addCleanup(os.umask, before)
        self.set_in(None, "1")
        self.assertEqual(self.mode(), 0o600)

    def test_no_change_writes_no_file(self):
        self.has(b"A='1'\n")
        with mock.patch("dotenvy._edit.replace", side_effect=AssertionError("a file was written")):
            set_key(self.path, "A", "1")
            unset_key(self.path, "B")
        self.assertEqual(self.left(), b"A='1'\n")

    def test_permissions_of_all_kinds(self):
        for mode in (0o400, 0o644, 0o666, 0o700):
            self.has(b"A=1\n")
            self.path.chmod(mode)
            set_key(self.path, "A", "2")
            self.assertEqual(self.mode(), mode)
            self.assertEqual(self.left(), b"A=2\n")
            self.path.unlink()

    @unittest.skipUnless(os.geteuid() == 0, "only root can give files away")
    def test_owners(self):
        self.has(b"A=1\n")
        os.chown(self.path, 1234, 4321)
        self.path.chmod(0o2750)
        set_key(self.path, "A", "2")
        state = self.path.stat()
        self.assertEqual((state.st_uid, state.st_gid, self.mode()), (1234, 4321, 0o2750))

    def test_a_link_is_refused_or_followed(self):
        file = self.folder / "folder/real.env"
        file.parent.mkdir()
        file.write_bytes(b"A=1\n")
        self.path.symlink_to("folder/real.env")
        for call in (lambda: set_key(self.path, "A", "2"), lambda: unset_key(self.path, "A")):
            with self.assertRaises(OSError):
                call()
        self.assertEqual(file.read_bytes(), b"A=1\n")
        set_key(self.path, "A", "2", follow_symlinks=True)
        self.assertTrue(self.path.is_symlink())
        self.assertEqual((file.read_bytes(), get_key(self.path, "A")), (b"A=2\n", "2"))
        self.assertEqual([name.name for name in file.parent.iterdir()], ["real.env"])

    def test_a_link_that_leads_nowhere(self):
        self.path.symlink_to("real.env")
        with self.assertRaises(OSError):
            set_key(self.path, "A", "1")
        set_key(self.path, "A", "1", follow_symlinks=True)
        self.assertTrue(self.path.is_symlink())
        self.assertEqual((self.folder / "real.env").read_bytes(), b"A=1\n")

    def test_what_is_no_file(self):
        os.mkfifo(self.path)
        before = os.listdir("/proc/self/fd")
        for path, kind in ((self.path, OSError), (self.folder, IsADirectoryError)):
            for call in (lambda path: set_key(path, "A", "1"), lambda path: unset_key(path, "A")):
                with self.assertRaises(kind) as raised:
                    call(path)
                self.assertEqual(raised.exception.filename, str(path))
        self.assertEqual(os.listdir("/proc/self/fd"), before)
        self.assertTrue(stat.S_ISFIFO(self.path.stat().st_mode))
        self.assertEqual([name.name for name in self.folder.iterdir()], [self.path.name])

    def test_no_folder(self):
        with self.assertRaises(FileNotFoundError):
            set_key(self.folder / "absent/a.env", "A", "1")
        self.assertEqual(unset_key(self.folder / "absent/a.env", "A"), (None, "A"))

    def test_a_step_that_fails_leaves_the_old_file(self):
        steps = ["tempfile.mkstemp", "os.fchmod", "os.fsync", "os.replace", "open"]
        for step in steps:
            for kind in (OSError, KeyboardInterrupt):
                with self.subTest(step=step, kind=kind):
                    self.has(b"A=1\n")
                    self.fail_at(step, kind)
                    self.assertEqual(self.left(), b"A=1\n")

    def fail_at(self, step, kind):
        real_open = open

        def refuse_write(file, mode="r", **others):
            if "w" in mode:
                raise kind
            return real_open(file, mode, **others)

        effect = refuse_write if step == "open" else kind
        name = f"dotenvy._replace.{step}"
        with mock.patch(name, side_effect=effect, create=step == "open"), self.assertRaises(kind):
            set_key(self.path, "A", "2")

    def test_the_error_of_a_step_names_the_file(self):
        self.has(b"A=1\n")
        # The system names two files in the error of a renaming, and none in that of a descriptor.
        for names in ((), ("beside", None, "other")):
            for step in ("tempfile.mkstemp", "os.fchmod", "os.fsync", "os.replace"):
                refused = mock.patch(f"dotenvy._replace.{step}", side_effect=OSError(errno.EPERM, "refused", *names))
                with self.subTest(step=step, names=names), refused:
                    with self.assertRaises(PermissionError) as raised:
                        set_key(self.path, "A", "2")
                    self.assertEqual(str(raised.exception), f"[Errno {errno.EPERM}] refused: '{self.path}'")

    def test_a_folder_that_cannot_be_synced(self):
        self.has(b"A=1\n")
        with mock.patch("dotenvy._replace._sync_folder", side_effect=OSError), self.assertRaises(OSError):
            set_key(self.path, "A", "2")
        self.assertEqual(self.left(), b"A=2\n")

    def test_an_interrupt_after_the_last_step(self):
        self.has(b"A=1\n")

        def interrupted(beside, path):
            os.rename(beside, path)
            raise KeyboardInterrupt

        with mock.patch("dotenvy._replace.os.replace", interrupted), self.assertRaises(KeyboardInterrupt):
            set_key(self.path, "A", "2")
        self.assertEqual(self.left(), b"A=2\n")

    def test_the_file_beside_is_new(self):
        made = []
        real = tempfile.mkstemp

        def seen(*given, **named):
            made.append(real(*given, **named))
            self.assertEqual(stat.S_IMODE(os.fstat(made[0][0]).st_mode), 0o600)
            return made[0]

        with mock.patch("dotenvy._replace.tempfile.mkstemp", seen):
            self.set_in(b"A=1\n", "2")
        self.assertEqual(Path(made[0][1]).parent, self.folder)

    def test_a_path_through_a_link(self):
        # The path leads to the folder real, and not to the one that has the link.
        (self.folder / "real/sub").mkdir(parents=True)
        (self.folder / "link").symlink_to("real/sub")
        file = self.write("real/a.env", "A=1\n")
        with mock.patch("dotenvy._replace.tempfile.mkstemp", side_effect=tempfile.mkstemp) as made:
            for follow_symlinks in (False, True):
                set_key("link/../a.env", "A", f"{follow_symlinks}", follow_symlinks=follow_symlinks)
                self.assertEqual(made.call_args[1]["dir"], str(file.parent))
                self.assertEqual(file.read_text(), f"A={follow_symlinks}\n")

    def test_an_old_file(self):
        self.has(b"A=1\n")
        old = _replace.read_old(str(self.path), False)
        self.assertEqual((old.content, stat.S_IMODE(old.state.st_mode)), (b"A=1\n", self.mode()))
        self.assertEqual(_replace.read_old(str(self.folder / "absent"), False), (b"", None))


class Refused(Edits):
    def error_of(self, content, value="2", key="A", **how):
        self.has(content)
        with self.assertRaises(EditError) as raised:
            set_key(self.path, key, value, **how)
        self.assertEqual(self.left(), content)
        error = raised.exception
        self.assertIsInstance(error, ValueError)
        self.assertEqual((error.file, error.key), (str(self.path), key))
        return error.reason, error.line, str(error)

    def test_each_reason(self):
        no_form = "A: the value has no portable form, since it has"
        path = self.path
        rows = [
            (b"A=1\n", "2", "1A", {}, Refusal.NO_KEY, 0, "1A: this can't be a name"),
            (b"A=1\n", "\ud800", "A", {}, Refusal.NOT_UTF8, 0, "A: the value isn't UTF-8"),
            (b"A=1\n", "x\0y", "A", {}, Refusal.NUL, 0, "A: the value has a NUL"),
            (b"B=1\nC='x\n", "1", "A", {}, Refusal.QUOTE_OPEN, 2,
             f"{path}:2: an open end, so nothing can be appended"),
            (b"B=1\nC=x\\", "1", "A", {}, Refusal.END_OPEN, 2,
             f"{path}:2: an open end, so nothing can be appended; end it with a line feed"),
            (b"A=\xff\n", "1", "A", {}, Refusal.UNREADABLE, 1,
             f"{path}:1: this line of A has an open end, or isn't UTF-8"),
            (b"B=1\nA=$B  # it's\nC=it's\n", "v", "A", {}, Refusal.LONG_COMMENT, 2,
             f"{path}:2: the comment runs over several lines, and would be cut, or go"),
            (MARK + b"A=1\n", "2", "A", {"portable": True}, Refusal.UNPORTABLE_MARK, 1,
             f"{path}:1: a byte order mark is not portable"),
            (b"", "x\ry", "A", {"portable": True}, Refusal.UNPORTABLE_CARRIAGE_RETURN, 0,
             f"{no_form} a carriage return"),
            (b"", "it's $5", "A", {"portable": True}, Refusal.UNPORTABLE_APOSTROPHE, 0,
             f"{no_form} a single quote, and a double quote, a dollar or a backslash"),
            (b"", "x\n$y", "A", {"portable": True}, Refusal.UNPORTABLE_LINE_FEED, 0,
             f"{no_form} a line feed, and a double quote, a dollar or a backslash"),
            (b"", "a\\\\b", "A", {"portable": True}, Refusal.UNPORTABLE_BACKSLASHES, 0,
             f"{no_form} two backslashes in a row"),
            (b"", "a\\", "A", {"portable": True}, Refusal.UNPORTABLE_LAST_BACKSLASH, 0,
             f"{no_form} a backslash at its end"),
            (b"", "${B}", "A", {"portable": True}, Refusal.UNPORTABLE_SUBSTITUTION, 0,
             f"{no_form} a dollar and braces"),
            (b"A='v' # 'q'\n", 'a"b c', "A", {"portable": True}, Refusal.UNPORTABLE_COMMENT, 1,
             f"{path}:1: the comment has the quotes of a portable value"),
            (b"A='v'\t# 'q'\n", 'a"b c', "A", {"portable": True}, Refusal.UNPORTABLE_WHITE_SPACE, 1,
             f"{path}:1: white space other than spaces is not portable"),
        ]
        for content, value, key, how, *wanted in rows:
            with self.subTest(reason=wanted[0]):
                self.assertEqual(list(self.error_of(content, value, key, **how)), wanted)
        self.assertEqual({row[4] for row in rows}, set(Refusal))

    def test_keys_that_are_no_text(self):
        self.assertEqual(self.error_of(b"", key="\ud800")[0], Refusal.NO_KEY)
        with self.assertRaises(EditError):
            unset_key(self.path, "A B")

    def test_what_is_not_supported(self):
        self.has(b"A=1\n")
        rows = [
            {"quote_mode": "never"}, {"quote_mode": "sometimes"}, {"export": True}, {"encoding": "latin-1"},
            {"encoding": "utf-8-sig"},
        ]
        for how in rows:
            with self.subTest(how), self.assertRaises(UnsupportedError):
                set_key(self.path, "A", "2", **how)
        for call in (unset_key, get_key):
            with self.assertRaises(UnsupportedError):
                call(self.path, "A", encoding="utf-16")
        with self.assertRaises(LookupError):
            get_key(self.path, "A", encoding="no such encoding")
        self.assertEqual(self.left(), b"A=1\n")

    def test_refused_memory_and_bad_options(self):
        self.has(b"A=1\n")
        with mock.patch.object(_library._library, "dotenvy_set") as call:
            call.return_value = _library.NO_MEMORY
            with self.assertRaises(MemoryError):
                set_key(self.path, "A", "2")
        with self.assertRaises(ValueError):
            _library.set_value(b"", b"A", b"1", _library.OVERRIDE)
        with self.assertRaises(ValueError):
            _library.unset(b"A=1\n", b"A", _library.PORTABLE)
        self.assertEqual(self.left(), b"A=1\n")


class Warned(Edits):
    def logged(self, content, call):
        self.has(content)
        with self.assertLogs("dotenvy", "WARNING") as logs:
            call()
        return [record.getMessage() for record in logs.records]

    def test_each_warning(self):
        found = self.logged(b"-\nA=1\nB=$A\nA=2\nA='x\ny'\n", lambda: set_key(self.path, "A", "$x"))
        self.assertEqual(found, [
            "A: the value has a $, which is text here",
            f"{self.path}:1: a load stops at this line, before A",
            f"{self.path}:3: B mentions A, directly or through another name",
            f"{self.path}:4: this line of A is removed",
            f"{self.path}:5: the lines of A up to 6 are removed",
        ])

    def test_an_unset(self):
        found = self.logged(b"A=1\nB=$A/x\n", lambda: unset_key(self.path, "A"))
        self.assertEqual(found, [f"{self.path}:2: B mentions A, directly or through another name"])

    def test_many_warnings(self):
        lines = b"A=1\n" + b"".join(b"N%d=$A\n" % number for number in range(100))
        found = self.logged(lines, lambda: set_key(self.path, "A", "2"))
        self.assertEqual(len(found), 100)
        self.assertEqual(found[99], f"{self.path}:101: N99 mentions A, directly or through another name")

    def test_values_are_not_logged(self):
        found = self.logged(b"A=secret\nB=$A\n", lambda: set_key(self.path, "A", "$hidden"))
        self.assertFalse([text for text in found if "secret" in text or "hidden" in text])


class Calls(unittest.TestCase):
    def test_an_edit_over_bytes(self):
        edited = _library.set_value(b"A=1\nB=$A\n", b"A", b"2")
        self.assertEqual(edited, (_library.OK, 0, b"A=2\nB=$A\n", [(_library.MENTIONS, b"B", 2, 2)]))
        edited = _library.unset(b"B=1\n", b"A")
        self.assertEqual(edited, (_library.ABSENT, 0, b"", []))

    def test_room_that_is_too_small_is_made_larger(self):
        lines = b"A=1\n" + b"".join(b"LONG_NAME_OF_SOMETHING_%d=$A\n" % number for number in range(1000))
        edited = _library.unset(lines, b"A", 0)
        self.assertEqual((edited.file, len(edited.notes)), (lines[4:], 1000))
        self.assertEqual(edited.notes[999], (_library.MENTIONS, b"LONG_NAME_OF_SOMETHING_999", 1001, 1001))


if __name__ == "__main__":
    unittest.main()
