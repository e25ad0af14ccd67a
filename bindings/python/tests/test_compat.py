"""Tests of the calls of python-dotenv: arguments, results, messages, and what they make of files."""

import io
import os
import subprocess
import sys
import threading
import time
import unittest
import zipfile
from pathlib import Path
from unittest import mock

from dotenvy import Dialect, DotenvError, EditError, LineParseError, NulError, Refusal, UnsupportedError
from dotenvy import _library, compat
from dotenvy.compat import DotEnv, dotenv_values, find_dotenv, get_key, load_dotenv, set_key, unset_key
from dotenvy.compat._reading import records_over_process
from dotenvy.compat.main import _walk_to_root
from dotenvy.compat.parser import Binding, Original, parse_stream
from dotenvy.compat.variables import Literal, Variable, parse_variables

from . import rows
from .in_folder import DROP_IN, InFolder, InLog

MARK = b"\xef\xbb\xbf"


class Loads(InLog):
    def test_a_file(self):
        path = self.write("a.env", "A=1\nB=${A}0\n")
        for source in (path, str(path), "a.env", os.fsencode(path), *os.scandir("."), *os.scandir(b".")):
            os.environ.clear()
            self.assertIs(load_dotenv(source), True)
            self.assertEqual(dict(os.environ), {"A": "1", "B": "10"})

    def test_the_order_of_arguments(self):
        stream = io.StringIO("A=$B\n")
        os.environ.update({"A": "9", "B": "2"})
        self.assertTrue(load_dotenv(None, stream, True, True, False, "utf-8"))
        self.assertEqual(os.environ["A"], "$B")
        self.assertEqual(dotenv_values(None, io.StringIO("A=$B\n"), True, False, "utf-8"), {"A": "$B"})

    def test_what_exists_keeps_its_value(self):
        os.environ.update({"A": "9", "E": ""})
        self.assertTrue(load_dotenv(stream=io.StringIO("A=1\nB=$A\nE=2\nF=x$E\n")))
        self.assertEqual(dict(os.environ), {"A": "9", "B": "9", "E": "", "F": "x"})

    def test_the_last_value_counts(self):
        load_dotenv(stream=io.StringIO("A=1\nA=2\nB=$A\n"))
        self.assertEqual(dict(os.environ), {"A": "2", "B": "2"})

    def test_override(self):
        os.environ.update({"A": "9", "C": "c"})
        self.assertTrue(load_dotenv(stream=io.StringIO("A=1\nB=$A$C\n"), override=True))
        self.assertEqual(dict(os.environ), {"A": "1", "B": "1c", "C": "c"})

    def test_what_is_no_text(self):
        os.environb[b"A"] = b"\xff"
        load_dotenv(stream=io.StringIO("A=1\nB=x$A\n"))
        self.assertEqual(dict(os.environb), {b"A": b"\xff", b"B": b"x1"})
        self.assertEqual(dotenv_values(stream=io.StringIO("B=x$A\n")), {"B": "x"})
        load_dotenv(stream=io.StringIO("A=1\n"), override=True)
        self.assertEqual(os.environ["A"], "1")

    def test_no_file(self):
        for path in ("nx.env", "", Path("nx.env"), self.folder):
            self.assertIs(load_dotenv(path), False)
            found, said = self.said(lambda: load_dotenv(path, verbose=True))
            self.assertIs(found, False)
            path = path or ".env"
            self.assertEqual(said, [("INFO", f"Python-dotenv could not find configuration file {path}.")])
            self.assertEqual(self.said(lambda: load_dotenv(path)), (False, []))
        self.assertEqual(dotenv_values("nx.env"), {})

    def test_a_file_without_names(self):
        self.assertIs(load_dotenv(stream=io.StringIO("# A=1\n")), False)
        self.assertIs(load_dotenv(stream=io.StringIO("A\n")), True)
        self.assertEqual(dict(os.environ), {})

    def test_a_path_comes_before_a_stream(self):
        path = self.write("a.env", "A=1\n")
        self.assertEqual(dotenv_values(path, stream=io.StringIO("A=2\n")), {"A": "1"})
        self.assertEqual(dotenv_values("nx.env", stream=io.StringIO("A=2\n")), {"A": "2"})

    def test_streams(self):
        path = self.write("a.env", "A=é\n")
        with open(path, encoding="utf-8") as text, open(path, "rb") as content:
            for stream in (io.StringIO("A=é"), io.BytesIO("A=é".encode()), text, content):
                self.assertEqual(dotenv_values(stream=stream), {"A": "é"})
        self.assertEqual(dotenv_values(stream=io.StringIO("\ufeffA=1")), {"A": "1"})

    def test_bad_lines_are_skipped(self):
        text = "A=1\n\n: x\nB=two words\nC=3\nD='x\ny\n"
        values, said = self.said(lambda: dotenv_values(stream=io.StringIO(text)))
        self.assertEqual(values, {"A": "1", "C": "3"})
        self.assertEqual(said, self.warned(3, 4, 6))
        found, said = self.said(lambda: load_dotenv(stream=io.StringIO(text)))
        self.assertEqual((found, said), (True, self.warned(3, 4, 6)))
        self.assertEqual(dict(os.environ), {"A": "1", "C": "3"})

    def test_bad_lines_after_variables_of_the_process(self):
        os.environ["B"] = "x\ny"
        values, said = self.said(lambda: dotenv_values(stream=io.StringIO("A=$B\nB=1\nC=2 3\nD=$B\n")))
        self.assertEqual((values, said), ({"A": "x\ny", "B": "1", "D": "1"}, self.warned(3)))

    def test_strict(self):
        path = self.write("a.env", "A=1\nB\nC=two words\n")
        for call in (load_dotenv, dotenv_values, lambda path, strict: get_key(path, "A", strict=strict)):
            with self.assertRaises(LineParseError) as raised:
                call(path, strict=True)
            error = raised.exception
            self.assertEqual((error.file, error.line, error.text), (str(path), 3, "two words"))
        self.assertEqual(dict(os.environ), {})
        with self.assertRaises(DotenvError):
            DotEnv(path, strict=True).dict()
        self.assertEqual(dotenv_values(stream=io.StringIO("A\nB=1\n"), strict=True), {"A": None, "B": "1"})

    def test_the_file_of_an_error_is_the_one_that_was_read(self):
        for text, error in (("A=x y\n", LineParseError), ('A="\0"\n', NulError)):
            with self.assertRaises(error) as raised:
                load_dotenv("nx.env", stream=io.StringIO(text), strict=True)
            self.assertIsNone(raised.exception.file)

    def test_names_alone(self):
        cases = [
            ("A", {"A": None}),
            ("A\n", {"A": None}),
            (" \texport A  # c\n", {"A": None}),
            ("A # it's\n", {"A": None}),
            ("A  # c d\n", {"A": None}),
            ("export A  # é\n", {"A": None}),
            ("A ", {"A": None}),
            ("\ufeffA\n", {"A": None}),
            ("A\r\n", {"A": None}),
            ("export\n", {"export": None}),
            ("A=1\nA\n", {"A": None}),
            ("A\nA=1\n", {"A": "1"}),
        ]
        for text, values in cases:
            with self.subTest(text):
                self.assertEqual(self.said(lambda: dotenv_values(stream=io.StringIO(text))), (values, []))
        os.environ["B"] = "2"
        load_dotenv(stream=io.StringIO("A\nB\n"), override=True)
        self.assertEqual(dict(os.environ), {"B": "2"})

    def test_what_is_no_name_alone(self):
        texts = ["1A\n", "A B\n", "é\n", "A-B\n", "A=export B\n", "A: 1\n", "A'\n", "export export A\n", "\x1cA\n"]
        # A sharp after two blanks begins no comment. So these values have a space, and look like a name with a comment.
        texts += ["A=B\xa0\xa0# c", "A=B\xa0\xa0# c d\n", "export A = B\x85\x85# c\r\n"]
        for text in texts:
            with self.subTest(text):
                self.assertEqual(self.said(lambda: dotenv_values(stream=io.StringIO(text))), ({}, self.warned(1)))

    def test_a_nul(self):
        path = self.write("a.env", b'Z=1\nA="x\0"\n')
        self.assertEqual(dotenv_values(path), {"Z": "1", "A": "x\0"})
        with self.assertRaises(NulError) as raised:
            load_dotenv(path)
        self.assertEqual((raised.exception.file, raised.exception.text), (str(path), "A"))
        self.assertEqual(dict(os.environ), {"Z": "1"})
        os.environ["A"] = "9"
        self.assertTrue(load_dotenv(path))

    def test_disabled(self):
        self.write(".env", "A=1\n")
        for value in ("1", "true", "T", "Yes", "y"):
            os.environ["PYTHON_DOTENV_DISABLED"] = value
            found, said = self.said(lambda: load_dotenv(".env"))
            self.assertIs(found, False)
            text = "python-dotenv: .env loading disabled by PYTHON_DOTENV_DISABLED environment variable"
            self.assertEqual(said, [("DEBUG", text)])
        self.assertNotIn("A", os.environ)
        self.assertEqual(dotenv_values(".env"), {"A": "1"})
        for value in ("", "0", "no"):
            os.environ["PYTHON_DOTENV_DISABLED"] = value
            self.assertTrue(load_dotenv(".env"))

    def test_dialects(self):
        os.environ.update({"A": "5", "A_B": "7"})
        for interpolate, values in ((True, ("5_B", "7")), (False, ("$A_B", "$A_B"))):
            for dialect, value in zip(Dialect, values):
                how = {"interpolate": interpolate, "dialect": dialect}
                self.assertEqual(dotenv_values(stream=io.StringIO("C=$A_B"), **how), {"C": value})
        load_dotenv(stream=io.StringIO("C=$A_B"), dialect=Dialect.NEXT)
        self.assertEqual(os.environ["C"], "7")

    def test_a_pipe(self):
        path = self.folder / "pipe.env"
        os.mkfifo(path)
        writer = threading.Thread(target=path.write_bytes, args=(b"A=1\n",), daemon=True)
        writer.start()
        self.assertEqual(dotenv_values(path), {"A": "1"})
        writer.join()


class Substitutions(InFolder):
    def values(self, text, **how):
        return dotenv_values(stream=io.StringIO(text), **how)

    def test_values_are_over_the_process(self):
        os.environ.update({"A": "9", "P": "/bin"})
        self.assertEqual(self.values("A=1\nB=$A\n"), {"A": "1", "B": "1"})
        self.assertEqual(self.values("B=$A\nA=1\n"), {"B": "9", "A": "1"})
        self.assertEqual(self.values("P=/x:$P\nP=/y:$P\n"), {"P": "/y:/x:/bin"})
        self.assertEqual(self.values("B=$C\n"), {"B": ""})

    def test_names_that_no_line_declares(self):
        os.environ.update({"a b": "1", "é": "2"})
        self.assertEqual(self.values("B=${a b}$é-\n"), {"B": "12-"})

    def test_the_bytes_of_items(self):
        os.environ.update({"A": "1\n2", "é": "3"})
        file = "B=$A\n\nC='${é}\n'\n".encode()
        records = records_over_process(file, Dialect.V15)
        told = [file[record.file_at:record.file_at + record.file_len] for record in records]
        self.assertEqual(told, [b"B=$A\n", "C='${é}\n'\n".encode()])

    def test_values_of_the_process_that_need_escapes(self):
        for value in ("it's", 'a "b"', "$A", "${A}", "x\\", "x\ny", "\r", "# c", " x "):
            os.environ["A"] = value
            self.assertEqual(self.values("B=1\nC=$A\nD=${A}$B\n"), {"B": "1", "C": value, "D": f"{value}1"})

    def test_a_load_with_override_gives_these_values(self):
        compared = 0
        for name in ("cases.rows", "values.rows", "lines.rows", "grammar.rows"):
            for row in rows.file_rows(name):
                file = row.file[3:] if row.file.startswith(MARK) else row.file
                outcome = _library.load(row.file, row.block, row.options | _library.OVERRIDE)
                if outcome.status == _library.OK:
                    compared += self.compare(row, file, outcome)
        self.assertGreater(compared, 100)

    def compare(self, row, file, outcome):
        environment = _library.pairs_of(row.block)
        if not all(os.fsdecode(name) and b"\0" not in name for name in environment):
            return 0
        with mock.patch.dict(os.environb, environment, clear=True):
            records = records_over_process(file, Dialect(row.options))
        self.assertEqual({record.status for record in records} - {_library.OK}, set(), row)
        for record in records:
            environment[record.key] = record.text
        self.assertEqual(environment, outcome.pairs, row)
        return 1

    def test_as_written(self):
        os.environ.update({"A": "1", "B": "2"})
        cases = [
            ("X=$A", "$A"),
            ("X=${A}$B", "${A}$B"),
            ("X='$A'", "$A"),
            ("X=\"\\$A ${A}\"", "$A ${A}"),
            ("X=$A b", "$A b"),
            ("X=pa$$word", "pa$$word"),
            ("X=x$", "x$"),
            ("X=$ 5", "$ 5"),
            ("X=${}", "${}"),
            ("X=${A:-b c}", "${A:-b c}"),
            ("X=${A$B}", "${A$B}"),
            ("X=$A_B", "$A_B"),
            ("X=$é-$Aé", "$é-$Aé"),
            ("X=$é_é$A_é_", "$é_é$A_é_"),
            ("X=$" + "A" * 300, "$" + "A" * 300),
            ("X=$" + "é" * 300, "$" + "é" * 300),
            ("X=${" + "A" * 300 + "}", "${" + "A" * 300 + "}"),
            ("X='${A}'\"${A}\"$B#c # d", "${A}${A}$B#c"),
            ("X=\"$(cmd)\"", "$(cmd)"),
            ("X=$A\\n", "$A\\n"),
            ("X='a\\$A'$B", "a\\$A$B"),
            ("X=\u4e00$A", "\u4e00$A"),
        ]
        for line, value in cases:
            for dialect in Dialect:
                with self.subTest(line=line, dialect=dialect):
                    how = {"interpolate": False, "dialect": dialect}
                    self.assertEqual(self.values(line, **how), {"X": value})
        self.assertEqual(self.values('X="${A}"', interpolate=False, dialect=Dialect.NEXT), {"X": "${A}"})
        self.assertEqual(self.values('X="$A"', interpolate=False, dialect=Dialect.NEXT), {"X": "$A"})

    def test_as_written_keeps_errors(self):
        for file in (b"A=$B c d\n", b'A="$B"\n', b"A=${B\nC=$\n", b"$A\nB=x $C\n", b"A=\xff$B\nC=$D\n"):
            plain = _library.items(file, b"")
            found = _library.items(file, b"A=1\0", _library.AS_WRITTEN)
            self.assertEqual(len(found), len(plain))
            for one, other in zip(found, plain):
                if other.status != _library.OK:
                    self.assertEqual(one, other)
                self.assertEqual(one._replace(text=b""), other._replace(text=b""))


class DotEnvs(InLog):
    def test_a_file(self):
        path = self.write("a.env", "A=1\nB=${A}0\nC\n")
        it = DotEnv(path)
        self.assertEqual(it.dict(), {"A": "1", "B": "10", "C": None})
        self.assertEqual(list(it.parse()), [("A", "1"), ("B", "${A}0"), ("C", None)])
        self.assertEqual((it.get("B"), it.get("C"), it.get("D")), ("10", None, None))
        self.assertTrue(it.set_as_environment_variables())
        self.assertEqual(dict(os.environ), {"A": "1", "B": "10"})
        attributes = it.dotenv_path, it.stream, it.verbose, it.encoding, it.interpolate, it.override
        self.assertEqual(attributes, (path, None, False, None, True, True))

    def test_the_order_of_arguments(self):
        stream = io.StringIO("A=$B")
        it = DotEnv(None, stream, True, "utf-8", False, False)
        os.environ["A"] = "9"
        self.assertEqual(it.dict(), {"A": "$B"})
        it.set_as_environment_variables()
        self.assertEqual(os.environ["A"], "9")

    def test_it_is_read_once(self):
        path = self.write("a.env", "A=1\n")
        it = DotEnv(path)
        self.assertEqual(it.dict(), {"A": "1"})
        path.write_text("A=2\n")
        self.assertEqual(it.dict(), {"A": "1"})
        self.assertEqual(list(it.parse()), [("A", "2")])

    def test_a_name_that_is_not_there(self):
        path = self.write("a.env", "A\n")
        found, said = self.said(lambda: DotEnv(path, verbose=True).get("B"))
        self.assertEqual((found, said), (None, [("WARNING", f"Key B not found in {path}.")]))
        self.assertEqual(self.said(lambda: DotEnv(path, verbose=True).get("A")), (None, []))
        self.assertEqual(self.said(lambda: DotEnv(path).get("B")), (None, []))


class Encodings(InFolder):
    def test_reading(self):
        for encoding in ("utf-8", "UTF8", "latin-1", "utf-16", "utf-8-sig", "cp1252"):
            path = self.write("a.env", "A=é # it's\n".encode(encoding))
            with self.subTest(encoding):
                self.assertEqual(dotenv_values(path, encoding=encoding), {"A": "é"})
                self.assertEqual(get_key(path, "A", encoding), "é")
                os.environ.clear()
                self.assertTrue(load_dotenv(path, encoding=encoding))
                self.assertEqual(os.environ["A"], "é")

    def test_the_encoding_of_the_locale(self):
        path = self.write("a.env", "A=é\n".encode("latin-1"))
        with mock.patch("locale.getpreferredencoding", lambda setting: "latin-1"):
            self.assertEqual(dotenv_values(path, encoding=None), {"A": "é"})
            self.assertEqual(DotEnv(path).dict(), {"A": "é"})
            set_key(path, "B", "ü", encoding=None)
        self.assertEqual(path.read_bytes(), "A=é\nB='ü'\n".encode("latin-1"))

    def test_what_is_not_of_the_encoding(self):
        path = self.write("a.env", b"A=\xff\n")
        for call in (dotenv_values, load_dotenv, lambda path: get_key(path, "A")):
            with self.assertRaises(UnicodeDecodeError):
                call(path)
        with self.assertRaises(LookupError):
            dotenv_values(path, encoding="no such encoding")

    def test_edits(self):
        path = self.write("a.env", "# é\nA=ö\n".encode("latin-1"))
        self.assertEqual(set_key(path, "A", "ü", encoding="latin-1"), (True, "A", "ü"))
        self.assertEqual(path.read_bytes(), "# é\nA='ü'\n".encode("latin-1"))
        with self.assertRaises(UnicodeEncodeError):
            set_key(path, "A", "\u2028", encoding="latin-1")
        self.assertEqual(unset_key(path, "A", encoding="latin-1"), (True, "A"))
        self.assertEqual(path.read_bytes(), "# é\n".encode("latin-1"))
        path = self.write("b.env", MARK + b"A=1\n")
        set_key(path, "A", "2", "never", encoding="utf-8-sig")
        self.assertEqual(path.read_bytes(), MARK + b"A=2\n")

    def test_a_new_file(self):
        for encoding in ("latin-1", "utf-16", "utf-32"):
            with self.subTest(encoding):
                path = self.folder / f"{encoding}.env"
                self.assertEqual(set_key(path, "A", "é", encoding=encoding), (True, "A", "é"))
                self.assertEqual(path.read_bytes(), "A='é'\n".encode(encoding))
                self.assertEqual(get_key(path, "A", encoding), "é")

    def test_an_edit_that_would_change_other_bytes(self):
        content = "A=1\n".encode("utf-16-be")
        path = self.write("a.env", b"\xfe\xff" + content)
        with self.assertRaises(UnsupportedError):
            set_key(path, "A", "2", encoding="utf-16")
        self.assertEqual(path.read_bytes(), b"\xfe\xff" + content)


class Edits(InLog):
    def set_in(self, before, value, key="A", **how):
        path = self.folder / "a.env"
        if before is not None:
            path.write_bytes(before)
        self.assertEqual(set_key(path, key, value, **how), (True, key, value))
        after = path.read_bytes()
        if value.isprintable():
            self.assertEqual(get_key(path, key), value)
        return after

    def test_quotes(self):
        cases = [
            (b"", "b", {}, b"A='b'\n"),
            (b"", "", {}, b"A=''\n"),
            (b"", "it's", {}, b'A="it\'s"\n'),
            (b"", 'say "x"', {}, b"A='say \"x\"'\n"),
            (b"", "b", {"quote_mode": "auto"}, b"A=b\n"),
            (b"", "b c", {"quote_mode": "auto"}, b"A='b c'\n"),
            (b"", "a/b", {"quote_mode": "auto"}, b"A='a/b'\n"),
            (b"", "", {"quote_mode": "auto"}, b"A=''\n"),
            (b"", "a/b", {"quote_mode": "never"}, b"A=a/b\n"),
            (b"", "", {"quote_mode": "never"}, b"A=\n"),
            (b"", "b c", {"quote_mode": "never"}, b"A='b c'\n"),
            (b"A=1 # c\n", "2", {}, b"A='2' # c\n"),
            (b'A="1"\n', "2", {}, b'A="2"\n'),
            (b"A=1\n", "1", {}, b"A='1'\n"),
            (None, "1", {"quote_mode": "never"}, b"A=1\n"),
        ]
        for before, value, how, after in cases:
            with self.subTest(before=before, value=value, how=how):
                (self.folder / "a.env").unlink() if before is None else None
                self.assertEqual(self.set_in(before, value, **how), after)
        with self.assertRaisesRegex(ValueError, "Unknown quote_mode: some"):
            set_key("a.env", "A", "1", "some")

    def test_export(self):
        cases = [
            (b"", b"export A='1'\n"),
            (b"B=1\n", b"B=1\nexport A='1'\n"),
            (b"B=1", b"B=1\nexport A='1'\n"),
            (b"B=1\n  A = 2 # c\n", b"B=1\n  export A = '1' # c\n"),
            (b"export A=2\n", b"export A='1'\n"),
            (b" \texport  A=2\n", b" \texport  A='1'\n"),
            (MARK + b"A=2\n", MARK + b"export A='1'\n"),
            (b"C='x\nA=2'\nA=2\n", b"C='x\nA=2'\nexport A='1'\n"),
            (b"A\n", b"export A='1'\n"),
        ]
        for before, after in cases:
            with self.subTest(before):
                self.assertEqual(self.set_in(before, "1", export=True), after)
        self.assertEqual(self.set_in(b"export=2\n", "1", "export", export=True), b"export export='1'\n")
        self.assertEqual(self.set_in(b"export export=2\n", "1", "export", export=True), b"export export='1'\n")
        self.assertEqual(self.set_in(b"export A=2\n", "1"), b"export A='1'\n")

    def test_names_alone(self):
        self.assertEqual(self.set_in(b"A\nB=1\n", "2"), b"A='2'\nB=1\n")
        self.assertEqual(self.set_in(MARK + b"export A # c\nA=1\n", "2"), MARK + b"export A='2' # c\n")
        self.assertEqual(self.set_in(b"A  # c\n", "2"), b"A='2'  # c\n")
        self.assertEqual(self.set_in(b"B=1\nA\nA\nAB\n", "2"), b"B=1\nA='2'\nAB\n")
        faulty = "B=A\xa0\xa0# c\n".encode()
        self.assertEqual(self.set_in(faulty, "2"), faulty + b"A='2'\n")
        path = self.write("a.env", "A\nB=1\nA=2\nAB\n")
        self.assertEqual(unset_key(path, "A"), (True, "A"))
        self.assertEqual(path.read_bytes(), b"B=1\nAB\n")

    def test_other_bytes_stay(self):
        self.assertEqual(self.set_in(b"# c\r\nA=1\r\n\r\n", "2"), b"# c\r\nA='2'\r\n\r\n")
        self.assertEqual(self.set_in(b"A=1\nB=x y\nA=2", "3"), b"A='3'\nB=x y\n")

    def test_warnings(self):
        path = self.write("a.env", "B=x y\nA=1\n")
        self.assertEqual(self.said(lambda: set_key(path, "A", "2"))[1], self.warned(1))
        self.assertEqual(self.said(lambda: unset_key(path, "A"))[1], self.warned(1))
        path = self.write("a.env", "A=1\nB=$A\n")
        self.assertEqual(self.said(lambda: set_key(path, "A", "$x"))[1], [])

    def test_what_is_not_there(self):
        path = self.folder / "nx.env"
        found, said = self.said(lambda: unset_key(path, "A"))
        self.assertEqual((found, said), ((None, "A"), [("WARNING", f"Can't delete from {path} - it doesn't exist.")]))
        self.assertFalse(path.exists())
        path = self.write("a.env", "B=1\n")
        for key in ("A", "1A", "é", "A B"):
            found, said = self.said(lambda: unset_key(path, key))
            text = f"Key {key} not removed from {path} - key doesn't exist."
            self.assertEqual((found, said), ((None, key), [("WARNING", text)]))
        self.assertEqual(path.read_bytes(), b"B=1\n")
        found, said = self.said(lambda: get_key("nx.env", "A"))
        self.assertIsNone(found)
        self.assertEqual([level for level, _ in said], ["INFO", "WARNING"])

    def test_refusals(self):
        cases = [("1A", "1", Refusal.NO_KEY), ("A", "1", Refusal.QUOTE_OPEN), ("B", "\0", Refusal.NUL)]
        cases += [("B", "\ud800", Refusal.NOT_UTF8)]
        path = self.write("a.env", "B=1\nC='x\n")
        for key, value, reason in cases:
            for mode in ("always", "never"):
                with self.assertRaises(EditError) as raised:
                    set_key(path, key, value, mode, True)
                self.assertEqual((raised.exception.reason, raised.exception.key), (reason, key))
                self.assertEqual(path.read_bytes(), b"B=1\nC='x\n")
        path = self.write("b.env", "A=1  # it's\nB=it's\n")
        with self.assertRaises(EditError):
            unset_key(path, "A")

    def test_links(self):
        real = self.write("folder/real.env", "A=1\n")
        real.chmod(0o640)
        path = self.folder / "a.env"
        path.symlink_to(real)
        set_key(path, "A", "2", "never", follow_symlinks=True)
        self.assertTrue(path.is_symlink())
        self.assertEqual((real.read_bytes(), real.stat().st_mode & 0o777), (b"A=2\n", 0o640))
        set_key(path, "A", "3", "never")
        self.assertFalse(path.is_symlink())
        self.assertEqual((path.read_bytes(), real.read_bytes()), (b"A=3\n", b"A=2\n"))
        self.assertEqual(path.stat().st_mode & 0o777, 0o600)
        path.unlink()
        path.symlink_to(real)
        self.assertEqual(unset_key(path, "A", follow_symlinks=True), (True, "A"))
        self.assertEqual(real.read_bytes(), b"")

    def test_a_folder_that_is_missing(self):
        with self.assertRaises(FileNotFoundError) as raised:
            set_key("missing/a.env", "A", "1")
        self.assertEqual(raised.exception.filename, "missing/a.env")

    def test_a_place_that_is_no_file(self):
        (self.folder / "a").mkdir()
        for call in (lambda path: set_key(path, "A", "1"), lambda path: unset_key(path, "A")):
            with self.assertRaises(IsADirectoryError):
                call("a")

    def test_no_change_writes_no_file(self):
        path = self.write("a.env", "A='1'\n")
        with mock.patch("dotenvy.compat._editing.replace", side_effect=AssertionError("a file was written")):
            set_key(path, "A", "1")
            unset_key(path, "B")


class Finds(InFolder):
    CALL = "import sys, dotenv; print(dotenv.find_dotenv({}))\n"

    def found(self, call, here, *words):
        program = ["-"] if words == ("-",) else [str(self.write("code/app/call.py", self.CALL.format(call)))]
        text = self.CALL.format(call) if words == ("-",) else ""
        said = subprocess.run(
            [sys.executable, *program], cwd=here, env=self.programs_environment, input=text.encode(),
            stdout=subprocess.PIPE, check=True,
        )
        return said.stdout.decode().rstrip("\n")

    @unittest.skipUnless(DROP_IN.exists(), "there is no package of the name dotenv")
    def test_where_a_search_begins(self):
        code = self.write("code/.env", "A=1\n")
        here = self.write("here/.env", "A=2\n")
        self.assertEqual(self.found("", "here"), str(code))
        self.assertEqual(self.found("usecwd=True", "here"), str(here))
        self.assertEqual(self.found("'.env', False, True", "here"), str(here))
        self.assertEqual(self.found("'x.env'", "here"), "")
        # A program of standard input is no file.
        self.assertEqual(self.found("", "here", "-"), str(here))

    @unittest.skipIf(sys.version_info < (3, 11), "before Python 3.11 the file of the module runpy calls")
    def test_a_program_in_an_archive(self):
        here = self.write("here/.env", "A=1\n")
        with zipfile.ZipFile("program.zip", "w") as archive:
            archive.writestr("__main__.py", "from dotenvy.compat import find_dotenv\nprint(find_dotenv())\n")
        said = subprocess.run(
            [sys.executable, str(self.folder / "program.zip")], cwd="here", env=self.programs_environment,
            stdout=subprocess.PIPE, check=True,
        )
        self.assertEqual(said.stdout.decode(), f"{here}\n")

    @unittest.skipUnless(DROP_IN.exists(), "there is no package of the name dotenv")
    def test_loads_search_from_the_calling_file(self):
        self.write("code/.env", "A=1\n")
        self.write("here/.env", "A=2\n")
        program = self.write(
            "code/app/load.py",
            "import os, dotenv\ndotenv.load_dotenv()\nprint(os.environ['A'], dict(dotenv.dotenv_values()))\n",
        )
        said = subprocess.run(
            [sys.executable, str(program)], cwd="here", env=self.programs_environment, stdout=subprocess.PIPE,
            check=True,
        )
        self.assertEqual(said.stdout, b"1 {'A': '1'}\n")

    def test_up_to_the_root(self):
        folder = self.folder / "a/b/c/d"
        folder.mkdir(parents=True)
        os.chdir(folder)
        asked = []
        with mock.patch("dotenvy.compat.main.is_file_or_pipe", lambda path: asked.append(path)):
            self.assertEqual(find_dotenv(usecwd=True), "")
        self.assertEqual(asked, [str(above / ".env") for above in (folder, *folder.parents)])
        path = self.write("a/x.env", "")
        self.assertEqual(find_dotenv("x.env", usecwd=True), str(path))

    def test_nothing_is_found(self):
        self.assertEqual(find_dotenv("nx.env", usecwd=True), "")
        with self.assertRaisesRegex(OSError, "File not found"):
            find_dotenv("nx.env", raise_error_if_not_found=True, usecwd=True)
        with self.assertRaises(OSError):
            find_dotenv("nx.env", True)

    def test_a_place_that_cannot_be_looked_at(self):
        self.write(".env", "A=1\n")
        stat = os.stat

        def refused(path, **how):
            if os.path.basename(path) == ".env":
                raise PermissionError(13, "denied")
            return stat(path, **how)

        with mock.patch("dotenvy.os.stat", refused):
            self.assertEqual(find_dotenv(usecwd=True), "")
            self.assertFalse(load_dotenv(".env"))
        self.assertFalse(load_dotenv("a\0b"))

    def test_pipes_and_folders(self):
        (self.folder / "a/.env").mkdir(parents=True)
        os.mkfifo(".env")
        os.chdir("a")
        self.assertEqual(find_dotenv(usecwd=True), str(self.folder / ".env"))

    def test_a_session(self):
        path = self.write(".env", "A=1\n")
        with mock.patch.dict(sys.modules, {"__main__": type(sys)("__main__")}):
            self.assertEqual(find_dotenv(), str(path))
        with mock.patch.object(sys, "frozen", True, create=True):
            self.assertEqual(find_dotenv(), str(path))
        # Without a main module no session is there.
        with mock.patch.dict(sys.modules):
            del sys.modules["__main__"]
            self.assertNotEqual(find_dotenv(), str(path))

    def test_the_folders_of_a_search(self):
        path = self.write("a/b.env", "")
        folders = list(map(str, [self.folder / "a", self.folder, *self.folder.parents]))
        for start in (str(path), "a/b.env", "a", "a/", "a/../a"):
            with self.subTest(start):
                self.assertEqual(list(_walk_to_root(start)), folders)
        with self.assertRaisesRegex(OSError, "Starting path not found"):
            list(_walk_to_root("nx"))


class Texts(unittest.TestCase):
    def bindings(self, text):
        found = list(parse_stream(io.StringIO(text)))
        self.assertEqual("".join(binding.original.string for binding in found), text)
        return [(it.key, it.value, it.original.line, it.error) for it in found]

    def test_bindings(self):
        self.assertEqual(self.bindings(""), [])
        self.assertEqual(self.bindings("\n\n"), [(None, None, 1, False)])
        self.assertEqual(self.bindings("A=1"), [("A", "1", 1, False)])
        self.assertEqual(self.bindings("# c\rA=1"), [(None, None, 1, False)])
        text = "# c\n\nA=$B\n\n'x y'\nB='1\n2'\nC\n\n"
        self.assertEqual(self.bindings(text), [
            (None, None, 1, False), ("A", "$B", 2, False), (None, None, 4, True), ("B", "1\n2", 6, False),
            ("C", None, 8, False), (None, None, 9, False),
        ])
        self.assertEqual(list(parse_stream(io.StringIO("A=1\n"))), [Binding("A", "1", Original("A=1\n", 1), False)])

    def test_texts_that_are_no_utf8(self):
        self.assertEqual(self.bindings("A=\ud800\nB=\udcff\nC=1"), [
            (None, None, 1, True), (None, None, 2, True), ("C", "1", 3, False),
        ])
        found = list(parse_stream(io.BytesIO(b"A=\xff\n")))
        self.assertEqual(found, [Binding(None, None, Original("A=\udcff\n", 1), True)])

    def test_many_empty_lines(self):
        begun = time.process_time()
        self.assertEqual(len(self.bindings("\n" * 1_000_000 + "A=1\n" + "\n" * 1_000_000)), 2)
        self.assertLess(time.process_time() - begun, 8)

    def test_variables(self):
        self.assertEqual(list(parse_variables("")), [])
        self.assertEqual(list(parse_variables("$a{b}")), [Literal("$a{b}")])
        found = list(parse_variables("x${A}y${B:-z}${C}"))
        self.assertEqual(
            found, [Literal("x"), Variable("A", None), Literal("y"), Variable("B", "z"), Variable("C", None)]
        )
        environment = {"A": "1", "C": None}
        self.assertEqual("".join(it.resolve(environment) for it in found), "x1yz")

    def test_a_command_line(self):
        self.assertEqual(compat.get_cli_string(), "dotenv")
        self.assertEqual(compat.get_cli_string("a", "set", "K", "v w", "auto"), 'dotenv -q auto -f a set K "v w"')
        self.assertEqual(compat.get_cli_string(action="get", key="K"), "dotenv get K")
        self.assertEqual(compat.get_cli_string(key="K", value="v"), "dotenv")


class Magic(InLog):
    def setUp(self):
        super().setUp()
        self.magics = {}
        compat.load_ipython_extension(self)

    def register_magic_function(self, function, kind, name):
        self.magics[kind, name] = function

    def test_the_magic(self):
        self.write(".env", "A=1\n")
        self.write("x y.env", "A=2\n")
        (self.folder / "a").mkdir()
        os.chdir("a")
        magic = self.magics["line", "dotenv"]
        magic("")
        self.assertEqual(os.environ["A"], "1")
        magic("'x y.env'")
        self.assertEqual(os.environ["A"], "1")
        magic("-o 'x y.env'")
        self.assertEqual(os.environ["A"], "2")
        with mock.patch("sys.stdout", io.StringIO()) as said:
            magic("-v nx.env")
        self.assertEqual(said.getvalue(), "cannot find .env file\n")
        with self.assertRaises(ValueError):
            magic("--wrong")


if __name__ == "__main__":
    unittest.main()
