"""Tests of the package: its calls on files, bytes and the process, its errors, and the layout of its structs."""

import copy
import ctypes
import doctest
import os
import pickle
import socket
import struct
import subprocess
import sys
import threading
import unittest
from pathlib import Path
from unittest import mock

import dotenvy
import dotenvy.compat.main
from dotenvy import _library
from dotenvy._errors import error_of
from dotenvy import (
    Dialect,
    DotenvError,
    LineParseError,
    NotUtf8Error,
    NulError,
    Pair,
    dotenv_items,
    dotenv_values,
    find_dotenv,
    is_key,
    load_dotenv,
)

from .in_folder import InFolder

SYMBOL = struct.Struct("<IBBHQQ")
SECTION = struct.Struct("<IIQQQQIIQQ")
DYNAMIC_SYMBOLS = 11


def defined_names(elf):
    """The names that a shared object of 64 bits defines for others."""
    at, size, count = struct.unpack_from("<Q10xHH", elf, 0x28)
    sections = [SECTION.unpack_from(elf, at + size * number) for number in range(count)]
    names = set()
    for section in sections:
        if section[1] != DYNAMIC_SYMBOLS:
            continue
        texts = sections[section[6]][4]
        for place in range(section[4], section[4] + section[5], SYMBOL.size):
            name, _, _, defined_in, _, _ = SYMBOL.unpack_from(elf, place)
            if defined_in:
                start = texts + name
                end = elf.index(b"\0", start)
                names.add(elf[start:end].decode())
    return names


LAYOUT = Path(__file__).resolve().parents[2] / "rust" / "layout.txt"


class PathObject:
    """A path-like object whose path is a text, or bytes."""

    def __init__(self, path):
        self.path = path

    def __fspath__(self):
        return self.path


class Values(InFolder):
    def test_a_path(self):
        path = self.write("settings.env", "A=1\nB=${A}0\n")
        for source in (path, str(path), "settings.env"):
            self.assertEqual(dotenv_values(source), {"A": "1", "B": "10"})
        self.assertEqual(dict(os.environ), {})

    def test_bytes(self):
        self.assertEqual(dotenv_values(b"A=1\nA=2\n"), {"A": "2"})
        self.assertEqual(dotenv_values("A=é\n".encode()), {"A": "é"})
        self.assertEqual(dotenv_values(b""), {})

    def test_the_file_that_is_found(self):
        self.assertEqual(dotenv_values(), {})
        self.write(".env", "A=1\n")
        self.assertEqual(dotenv_values(), {"A": "1"})
        # Bytes without a line are a file, too.
        self.assertEqual(dotenv_values(b""), {})

    def test_bytes_of_each_kind(self):
        for kind in (bytes, bytearray, memoryview):
            source = kind(b"A=1\nB=x y\n")
            with self.subTest(kind):
                self.assertEqual(next(dotenv_items(source)), Pair("A", "1", 1, 1))
                self.assertEqual(dotenv_values(kind(b"A=1\n")), {"A": "1"})
                self.assertTrue(load_dotenv(kind(b"A=1\n")))
        self.assertEqual(dotenv_values(memoryview(b"xA=1\nx")[1:5]), {"A": "1"})

    def test_paths_of_each_kind(self):
        path = self.write("a.env", "A=1\nB=x y\n")
        for place in (os.fspath(path), os.fsencode(path)):
            with self.subTest(place):
                with self.assertRaises(LineParseError) as raised:
                    dotenv_values(PathObject(place))
                self.assertEqual(raised.exception.file, str(path))
                self.assertEqual(next(dotenv_items(PathObject(place))), Pair("A", "1", 1, 1))

    def test_what_names_mean(self):
        os.environ["HOME"] = "/root"
        self.assertEqual(dotenv_values(b"A=$HOME\n"), {"A": "/root"})
        self.assertEqual(dotenv_values(b"A=$HOME\n", {}), {"A": ""})
        self.assertEqual(dotenv_values(b"A=$HOME\n", {"HOME": "/h"}), {"A": "/h"})
        self.assertEqual(dotenv_values(b"A=1\nB=$A\n", {"A": "9"}), {"A": "1", "B": "9"})
        # A name that no environment can have is none of the file's, either.
        self.assertEqual(dotenv_values(b"B=$A\n", {"A=X": "1", "": "2", "A": "\0"}), {"B": ""})

    def test_the_dialects(self):
        environment = {"A": "5", "A_B": "7"}
        self.assertEqual(dotenv_values(b"C=$A_B\n", environment), {"C": "5_B"})
        self.assertEqual(dotenv_values(b"C=$A_B\n", environment, Dialect.NEXT), {"C": "7"})

    def test_a_byte_order_mark(self):
        self.assertEqual(dotenv_values(b"\xef\xbb\xbfA=1\n"), {"A": "1"})

    def test_long_values_of_names(self):
        environment = {"LONG": "x" * 100_000}
        self.assertEqual(dotenv_values(b"A=$LONG$LONG\n", environment), {"A": "x" * 200_000})

    def test_no_file(self):
        for call in (dotenv_values, dotenv_items):
            for path in ("absent.env", ""):
                with self.subTest(call=call, path=path), self.assertRaises(FileNotFoundError):
                    call(path)

    def test_values_that_are_no_text(self):
        os.environb[b"B"] = b"\xff"
        self.assertEqual(dotenv_values(b"A=x$B\n"), {"A": "x"})
        for environment in (dict(os.environ), {"B": "\ud800"}, {"B": "1\udcff\ud800"}, {"\ud800": "1"}):
            self.assertEqual(dotenv_values(b"A=x$B\n", environment), {"A": "x"})
            self.assertEqual(dotenv_values("A=x$B$é\n".encode(), environment), {"A": "x"})

    def test_an_environment_of_all_kinds_of_values(self):
        self.assertEqual(dotenv_values(b"A=$B$C\n", {"B": "1", "C": None}), {"A": "1"})
        # A letter of another script asks for the whole environment.
        self.assertEqual(dotenv_values("A=$B$é\n".encode(), {"B": "1", "C": None}), {"A": "1"})

    def test_items(self):
        found = list(dotenv_items(b"\nA=1\nB=x y\nC=\"2\n3\"\n"))
        self.assertEqual(found[0], Pair("A", "1", 2, 2))
        self.assertIsInstance(found[1], LineParseError)
        self.assertEqual(found[2], Pair("C", "2\n3", 4, 5))
        self.assertEqual(len(found), 3)
        self.assertEqual(list(dotenv_items("A=é\n".encode())), [Pair("A", "é", 1, 1)])

    def test_what_items_are_read_with(self):
        found = list(dotenv_items(b"A=$B_C\n", {"B": "1", "B_C": "2"}, Dialect.NEXT))
        self.assertEqual(found, [Pair("A", "2", 1, 1)])
        os.environ["B"] = "3"
        self.assertEqual(list(dotenv_items(b"A=$B\n", {"B": "1"})), [Pair("A", "1", 1, 1)])
        self.assertEqual(list(dotenv_items(b"A=$B\n")), [Pair("A", "3", 1, 1)])

    def test_the_file_is_read_by_the_call(self):
        path = self.write("a.env", "A=1\n")
        items = dotenv_items(path)
        path.unlink()
        self.assertEqual(list(items), [Pair("A", "1", 1, 1)])

    def test_many_items(self):
        lines = b"".join(b"wrong %d\n" % number for number in range(5000))
        self.assertEqual(len(list(dotenv_items(lines))), 5000)
        self.assertEqual(len(list(dotenv_items(b"\n" * 5000 + lines))), 5000)


class Errors(InFolder):
    def error_of(self, source, call=dotenv_values):
        with self.assertRaises(DotenvError) as raised:
            call(source)
        return raised.exception

    def test_a_wrong_line(self):
        path = self.write("a.env", "A=1\nB=x y\n")
        for call in (dotenv_values, load_dotenv):
            error = self.error_of(path, call)
            self.assertIsInstance(error, LineParseError)
            self.assertEqual((error.file, error.line, error.last_line), (str(path), 2, 2))
            self.assertEqual((error.text, error.index), ("x y", 2))
            self.assertEqual(
                str(error), f"{path}:2: Error parsing line: 'x y', error at line index: 2"
            )

    def test_the_lines_of_an_error(self):
        for call in (dotenv_values, load_dotenv):
            error = self.error_of(b'A=1\nB="x\ny" z\n', call)
            self.assertEqual((error.line, error.last_line), (2, 3))

    def test_the_first_error_is_raised(self):
        for call in (dotenv_values, load_dotenv):
            self.assertEqual(self.error_of(b"A=1\nB=x y\nC=z z\n", call).line, 2)

    def test_bytes_have_no_file(self):
        error = self.error_of(b"\nB=x y\n")
        self.assertIsNone(error.file)
        self.assertEqual(str(error), "2: Error parsing line: 'x y', error at line index: 2")

    def test_not_utf8(self):
        for call in (dotenv_values, load_dotenv):
            error = self.error_of(b"A=1\nB=\xff\n", call)
            self.assertIsInstance(error, NotUtf8Error)
            self.assertEqual((error.line, error.text), (2, ""))
            self.assertEqual(str(error), "2: stream did not contain valid UTF-8")

    def test_texts_of_errors(self):
        for call in (dotenv_values, load_dotenv):
            error = self.error_of("B=é é\n".encode(), call)
            self.assertEqual((error.text, error.index), ("é é", 2))
            self.assertEqual(str(error), "1: Error parsing line: 'é é', error at line index: 2")

    def test_the_file_of_an_error_is_the_path_that_was_given(self):
        self.write("a.env", "B=x y\n")
        for path in ("a.env", Path("a.env"), "./a.env"):
            self.assertEqual(self.error_of(path).file, str(path))
            self.assertEqual(self.error_of(path, load_dotenv).file, str(path))
        (error,) = dotenv_items("a.env")
        self.assertEqual(error.file, "a.env")

    def test_lines_of_a_load(self):
        self.assertEqual(self.error_of(b"\xef\xbb\xbfA=1\nB=x y\n", load_dotenv).line, 2)

        def next_dialect(source):
            load_dotenv(source, dialect=Dialect.NEXT)

        # The first line is an error in the first dialect alone.
        self.assertEqual(self.error_of(b'A="$B"\nC=x y\n', next_dialect).line, 2)
        error = self.error_of(b'A=1\nA="x\0"\n', lambda source: load_dotenv(source, override=True))
        self.assertEqual((error.line, error.text), (2, "A"))

    def test_copies(self):
        self.write("a.env", 'A=1\nB="x\ny" z\n')
        errors = [self.error_of("a.env"), self.error_of(b"A=\xff\n"), self.error_of(b'A="\0"\n', load_dotenv)]
        errors.append(dotenvy.EditError(dotenvy.Refusal.END_OPEN, "a.env", "A", 3))
        errors.append(dotenvy.UnsupportedError("export"))
        for error in errors:
            made = [copy.copy(error), copy.deepcopy(error)]
            made += [pickle.loads(pickle.dumps(error, number)) for number in range(pickle.HIGHEST_PROTOCOL + 1)]
            for other in made:
                self.assertIs(type(other), type(error))
                self.assertEqual(str(other), str(error))
                self.assertEqual(vars(other), vars(error))

    def test_a_nul(self):
        self.assertEqual(dotenv_values(b'A="x\0y"\n'), {"A": "x\0y"})
        error = self.error_of(b'Z=1\nA="x\n\0y"\nB=2\n', load_dotenv)
        self.assertIsInstance(error, NulError)
        self.assertEqual((error.line, error.last_line, error.text), (2, 3, "A"))
        self.assertEqual(str(error), "2: value of 'A' contains a NUL")
        self.assertEqual(dict(os.environ), {"Z": "1"})

    def test_what_is_before_an_error_is_set(self):
        self.error_of(b"A=1\nB=x y\nC=3\n", load_dotenv)
        self.assertEqual(dict(os.environ), {"A": "1"})

    def test_other_errors(self):
        for status, said in ((_library.TOO_MANY_READS, "too many reads"), (99, "unknown")):
            error = error_of(_library.Record(status, b"", b"", 0, 3, 4), "a.env")
            self.assertIs(type(error), DotenvError)
            self.assertEqual((str(error), error.last_line), (f"a.env:3: {said}", 4))

    def test_bad_options_and_refused_memory(self):
        for call, option in ((_library.load, _library.DROP_MARK), (_library.items, _library.OVERRIDE)):
            with self.assertRaisesRegex(ValueError, "an option that this call does not have"):
                call(b"", b"", option)
        with mock.patch.object(_library._library, "dotenvy_load") as call:
            call.return_value = _library.NO_MEMORY
            with self.assertRaises(MemoryError):
                load_dotenv(b"A=1\n")
        with mock.patch.object(_library._library, "dotenvy_items") as call:
            call.return_value = _library.NO_MEMORY
            for read in (dotenv_values, dotenv_items):
                with self.assertRaises(MemoryError):
                    read(b"A=1\n")


class Loads(InFolder):
    def test_what_exists_keeps_its_value(self):
        os.environ["A"] = "9"
        self.assertTrue(load_dotenv(b"A=1\nB=$A\n"))
        self.assertEqual(dict(os.environ), {"A": "9", "B": "9"})

    def test_override(self):
        os.environ["A"] = "9"
        self.assertTrue(load_dotenv(b"A=1\nA=2\nB=$A\n", override=True))
        self.assertEqual(dict(os.environ), {"A": "2", "B": "2"})

    def test_what_is_no_text_stays(self):
        os.environb[b"\xff"] = b"1"
        os.environb[b"B"] = b"\xff"
        load_dotenv(b"A=1\n")
        self.assertEqual(os.environb[b"\xff"], b"1")
        self.assertEqual(os.environb[b"B"], b"\xff")
        self.assertEqual(os.environ["A"], "1")
        load_dotenv(b"A=2\n", override=True)
        self.assertEqual(dict(os.environb), {b"\xff": b"1", b"B": b"\xff", b"A": b"2"})

    def test_what_is_no_text_is_no_value(self):
        os.environb[b"B"] = b"\xff"
        load_dotenv(b"A=x$B\nB=1\nC=$B\n")
        self.assertEqual(dict(os.environ), {"A": "x", "B": "1", "C": "1"})

    def test_signs_in_values(self):
        os.environ["C"] = "=c="
        load_dotenv(b"A=http://host/?a=b&c=d\nB==\nD=$C\n")
        self.assertEqual(dict(os.environ), {"A": "http://host/?a=b&c=d", "B": "=", "C": "=c=", "D": "=c="})

    def test_what_exists_and_is_empty(self):
        os.environ["A"] = ""
        load_dotenv(b"A=1\nB=x$A\n")
        self.assertEqual(dict(os.environ), {"A": "", "B": "x"})

    def test_the_first_value_counts(self):
        load_dotenv(b"A=1\nA=2\nB=$A\n")
        self.assertEqual(dict(os.environ), {"A": "1", "B": "1"})

    def test_names_with_case(self):
        os.environ["A"] = "9"
        load_dotenv(b"A=1\na=2\n", override=True)
        self.assertEqual(dict(os.environ), {"A": "1", "a": "2"})

    def test_the_dialects(self):
        os.environ.update({"A": "5", "A_B": "7"})
        load_dotenv(b"C=$A_B\n")
        load_dotenv(b"D=$A_B\n", dialect=Dialect.NEXT)
        self.assertEqual((os.environ["C"], os.environ["D"]), ("5_B", "7"))

    def test_a_nul_over_a_value_that_is_kept(self):
        os.environ["A"] = "9"
        self.assertTrue(load_dotenv(b'A="x\0"\nB=$A\n'))
        self.assertEqual(dict(os.environ), {"A": "9", "B": "9"})

    def test_a_file_without_names(self):
        self.write(".env", "")
        self.assertTrue(load_dotenv())
        self.assertTrue(load_dotenv(b""))
        self.assertEqual(dict(os.environ), {})

    def test_override_of_the_file_that_is_found(self):
        self.write(".env", "A=1\n")
        os.environ["A"] = "9"
        load_dotenv()
        self.assertEqual(os.environ["A"], "9")
        load_dotenv(override=True)
        self.assertEqual(os.environ["A"], "1")

    def test_other_locales(self):
        locale = {"LC_ALL": "C", "PYTHONCOERCECLOCALE": "0", "PYTHONUTF8": "0", "V": "ü"}
        program = (
            "import os\nfrom dotenvy import dotenv_values, load_dotenv\n"
            "load_dotenv(b'A=\\xc3\\xa9')\nprint(os.environb[b'A'])\n"
            "file = b'A=$V${\\xc3\\xa9}'\n"
            "for environment in (None, os.environ, dict(os.environ), {'V': '\\xf6', '\\xe9': '\\xe4'}):\n"
            "    print(ascii(dotenv_values(file, environment)['A']))\n"
        )
        environment = {**self.programs_environment, **locale}
        said = subprocess.run([sys.executable, "-c", program], env=environment, stdout=subprocess.PIPE, check=True)
        self.assertEqual(said.stdout.decode().split(), [r"b'\xc3\xa9'", *[r"'\xfc'"] * 3, r"'\xf6\xe4'"])

    def test_a_search(self):
        self.assertFalse(load_dotenv())
        self.write(".env", "A=1\n")
        (self.folder / "a/b").mkdir(parents=True)
        os.chdir("a/b")
        self.assertEqual(find_dotenv(), str(self.folder / ".env"))
        self.assertTrue(load_dotenv())
        self.assertEqual(os.environ["A"], "1")
        self.write("a/.env", "A=2\n")
        self.assertEqual(find_dotenv(), str(self.folder / "a/.env"))
        (self.folder / "a/b/.env").mkdir()
        self.assertEqual(find_dotenv(), str(self.folder / "a/.env"))

    def test_a_search_that_finds_none(self):
        self.assertEqual(find_dotenv("no such file.env"), "")
        self.assertEqual(find_dotenv("a\0b"), "")
        with self.assertRaises(FileNotFoundError):
            find_dotenv("no such file.env", raise_error_if_not_found=True)

        with self.assertRaises(FileNotFoundError):
            find_dotenv(raise_error_if_not_found=True)

    def test_a_search_for_a_name(self):
        self.write(".env", "A=1\n")
        path = self.write("x.env", "A=2\n")
        self.assertEqual(find_dotenv("x.env"), str(path))
        self.assertEqual(find_dotenv("y.env"), "")

    def test_a_search_up_to_the_root(self):
        folder = self.folder / "a/b/c/d/e/f"
        folder.mkdir(parents=True)
        os.chdir(folder)
        asked = []
        with mock.patch("dotenvy.is_file_or_pipe", lambda path: asked.append(path)):
            self.assertEqual(find_dotenv(), "")
        self.assertEqual(asked, [str(above / ".env") for above in (folder, *folder.parents)])
        self.assertEqual(asked[-1], "/.env")

    def test_a_search_begins_in_the_current_directory(self):
        self.write("a/.env", "A=1\n")
        path = self.write("b/.env", "A=2\n")
        os.chdir("b")
        os.environ["PWD"] = str(self.folder / "a")
        self.assertEqual(find_dotenv(), str(path))

    def test_what_counts_as_a_file(self):
        above = self.write(".env", "A=1\n")
        (self.folder / "a").mkdir()
        os.chdir("a")
        Path(".env").symlink_to("/dev/null")
        self.assertEqual(find_dotenv(), str(above))
        Path(".env").unlink()
        with socket.socket(socket.AF_UNIX) as here:
            here.bind(".env")
        self.assertEqual(find_dotenv(), str(above))
        Path(".env").unlink()
        Path(".env").symlink_to(".env")
        self.assertEqual(find_dotenv(), str(above))
        Path(".env").unlink()
        Path(".env").symlink_to("../.env")
        self.assertEqual(find_dotenv(), str(self.folder / "a/.env"))

    def test_a_pipe_counts_as_a_file(self):
        path = self.folder / ".env"
        os.mkfifo(path)
        self.assertEqual(find_dotenv(), str(path))
        writer = threading.Thread(target=path.write_bytes, args=(b"A=1\n",), daemon=True)
        writer.start()
        self.assertTrue(load_dotenv())
        writer.join()
        self.assertEqual(os.environ["A"], "1")

    def test_a_place_that_cannot_be_looked_at(self):
        with mock.patch("dotenvy.os.stat", side_effect=PermissionError(13, "denied")):
            with self.assertRaises(PermissionError):
                find_dotenv()

    def test_no_file_at_a_path(self):
        self.write(".env", "A=1\n")
        for path in ("absent.env", ""):
            with self.assertRaises(FileNotFoundError):
                load_dotenv(path)
        self.assertEqual(dict(os.environ), {})


class Library(unittest.TestCase):
    def test_keys(self):
        self.assertTrue(is_key("A.b"))
        for text in ("", "1A", "A b", "é", "A\0", "\ud800"):
            self.assertFalse(is_key(text))

    def test_version(self):
        self.assertEqual(_library.version(), 1_000_000)

    def test_the_shared_object_exports_the_calls_alone(self):
        names = defined_names(Path(_library.__file__).with_name("libdotenvy.so.1").read_bytes())
        calls = ["is_key", "items", "load", "set", "status_text", "unset", "version", "whole", "write"]
        self.assertEqual(names, {f"dotenvy_{call}" for call in calls})

    def test_lesser_processors(self):
        features = "fpu cx16 lahf_lm popcnt pni ssse3 sse4_1 sse4_2 avx"
        self.assertEqual([], _library.missing_features(f"processor\t: 0\nflags\t\t: {features}\n"))
        for feature in _library.NEEDED:
            lesser = features.replace(feature, "other")
            self.assertEqual([feature], _library.missing_features(f"flags\t\t: {lesser}\n"))
        self.assertEqual([], _library.missing_features("processor\t: 0\n"))

    def test_import_on_a_lesser_processor(self):
        with mock.patch.object(_library, "missing_features", return_value=["sse4_1", "ssse3"]):
            with self.assertRaisesRegex(ImportError, "x86-64-v2, and this one lacks sse4_1, ssse3"):
                _library._check_processor()

    def test_a_system_that_does_not_tell_its_processor(self):
        with mock.patch.object(Path, "read_text", side_effect=FileNotFoundError):
            self.assertIsNone(_library._check_processor())

    def test_a_shared_object_that_is_missing(self):
        with mock.patch.object(_library, "__file__", "/nx/_library.py"):
            with self.assertRaisesRegex(ImportError, "/nx/libdotenvy.so.1 is missing: bindings/build.sh builds it"):
                _library._open()

    def test_layout(self):
        structs = {
            "answer": _library.Answer,
            "item": _library.Item,
            "counts": _library.Counts,
            "text": _library.Text,
            "edit": _library.Edit,
            "warning": _library.ToldWarning,
        }
        wanted = LAYOUT.read_text().splitlines()
        self.assertEqual(len(wanted), len(structs))
        for line in wanted:
            name = line.split()[0]
            type_ = structs[name]
            fields = [
                f"{field}={getattr(type_, field).offset}:{getattr(type_, field).size}"
                for field, _ in type_._fields_
            ]
            self.assertEqual(" ".join([name, str(ctypes.sizeof(type_)), *fields]), line)
        item = _library.Item(*range(1, 10))
        self.assertEqual(list(_library._ITEM.iter_unpack(bytes(item))), [(1, 2, 3, 4, 5, 6, 7, 8, 9)])
        warning = _library.ToldWarning(*range(1, 6))
        self.assertEqual(list(_library._WARNING.iter_unpack(bytes(warning))), [(1, 2, 3, 4, 5)])

    def test_the_bytes_of_items(self):
        file = b"\xef\xbb\xbf# c\nA=1\n\nB='x\ny' # it\nC D\nE=\xff\nF=2"
        for options in (_library.DROP_MARK, 0):
            places = [(record.file_at, record.file_len) for record in _library.items(file, b"", options)]
            told = [file[at:at + length] for at, length in places]
            # Without the option the mark makes an error of the first line.
            first = [] if options else [b"\xef\xbb\xbf# c\n"]
            self.assertEqual(told, [*first, b"A=1\n", b"B='x\ny' # it\n", b"C D\n", b"E=\xff\n", b"F=2"])
        (record,) = _library.items(b"\xef\xbb\xbfA=1\n", b"", _library.DROP_MARK)
        self.assertEqual((record.file_at, record.file_len), (0, 7))

    def test_a_library_that_needs_more_each_time(self):
        # Neither a status nor a struct is written, so each call seems not to fit.
        calls = [
            ("dotenvy_load", lambda: _library.load(b"A=1\n", b"")),
            ("dotenvy_items", lambda: _library.items(b"A=1\n", b"")),
            ("dotenvy_set", lambda: _library.set_value(b"", b"A", b"1")),
            ("dotenvy_unset", lambda: _library.unset(b"A=1\n", b"A")),
            ("dotenvy_write", lambda: _library.line_of(b"A", b"1")),
        ]
        for name, call in calls:
            with mock.patch.object(_library._library, name, return_value=_library.OK) as library_call:
                with self.subTest(name), self.assertRaisesRegex(RuntimeError, "needs more than it told"):
                    call()
                self.assertEqual(library_call.call_count, 2)

    def test_a_line_of_a_pair(self):
        for value in (b"", b"x y", b"it's", b'"$A" \\', b"1\n2\r", "é".encode()):
            line = _library.line_of(b"a.B", value)
            self.assertTrue(line.endswith(b"\n"))
            for options in (0, _library.NEXT_DIALECT):
                (record,) = _library.items(line, b"A=5\0", options)
                self.assertEqual((record.status, record.key, record.text), (_library.OK, b"a.B", value))
        for key, value, said in ((b"1A", b"", "this can't be a key"), (b"A", b"\xff", "is not UTF-8")):
            with self.assertRaisesRegex(ValueError, said):
                _library.line_of(key, value)

    def test_what_statuses_say(self):
        texts = [_library.status_text(status) for status in range(24)]
        self.assertEqual((texts[0], texts[23]), ("done", "unknown"))
        self.assertEqual(len(set(texts)), 24)


class Examples(InFolder):
    def test_examples(self):
        for module, least in ((dotenvy, 8), (dotenvy.compat.main, 4)):
            found = doctest.testmod(module)
            self.assertEqual(found.failed, 0)
            self.assertGreaterEqual(found.attempted, least)


if __name__ == "__main__":
    unittest.main()
