"""The tools for which dotenvy_export writes, as tests call them.

Each has a name, a version, and a method `read` that takes the bytes of a file. It returns the pairs that the tool makes
of them, in the tool's order, as bytes; or None if the tool refuses the file. A tool that isn't installed is None here,
and `absent` says which are. No tool needs a network, a daemon or a server: docker is given one that is played.

Where a name without a value asks for the tool's own environment, that environment has the pairs of KNOWN.
"""

import contextlib
import ctypes
import functools
import http.server
import json
import os
import pathlib
import re
import shutil
import socketserver
import subprocess
import sys
import tempfile
import threading

KNOWN = {"KNOWN": "its value", "K\u00e9": "\u00e9"}
TOP = pathlib.Path(__file__).resolve().parent.parent
# Programs of Go start faster so, on a machine that is busy.
OF_GO = {"GOMAXPROCS": "1", "GOGC": "off"}
SECONDS = 60
# What an argument or a variable may have in Linux, with its name and a NUL.
MOST_IN_STRING = 128 * 1024


def installed_version(package):
    """The version of a package of the distribution, or a word that says that there is none."""
    try:
        done = subprocess.run(["dpkg-query", "-W", "-f", "${Version}", package], capture_output=True, timeout=SECONDS)
    except OSError:
        return "of an unknown version"
    return done.stdout.decode() if done.returncode == 0 and done.stdout else "of an unknown version"


def said_version(command, pattern):
    """The version that a program prints of itself."""
    done = subprocess.run(command, env={}, stdin=subprocess.DEVNULL, capture_output=True, timeout=SECONDS)
    found = re.search(pattern, (done.stdout + done.stderr).decode("utf-8", "replace"))
    return found.group(1) if found else "of an unknown version"


class Room:
    """A folder for the files that a tool is given."""

    def __init__(self):
        self.held = tempfile.TemporaryDirectory()
        self.folder = pathlib.Path(self.held.name)
        self.file = self.folder / "file.env"

    def close(self):
        """Removes the folder."""
        self.held.cleanup()


# Shells.


class Shell(Room):
    """A shell that evaluates lines, and then becomes a program."""

    # A text is evaluated as a user would, or read as a file.
    WAYS = {"eval": 'text=$(cat "$0") && eval "$text"', "file": '. "$0"'}

    def __init__(self, name, command, package):
        super().__init__()
        self.name, self.command, self.package = name, command, package

    @functools.cached_property
    def version(self):
        """The version of its package."""
        return installed_version(self.package)

    def files(self):
        """Its executable, and the libraries that it may load."""
        executable = pathlib.Path(shutil.which(self.command[0])).resolve()
        modules = pathlib.Path("/usr/lib").glob(f"*/{self.package}/**/*.so")
        return [executable, *sorted(modules)]

    def call(self, script, words, locale):
        """What a script prints, or None if it fails or complains."""
        environment = {"LC_ALL": locale} if locale else {}
        done = subprocess.run(
            [*self.command, "-c", script, *words], env=environment, cwd=self.folder, stdin=subprocess.DEVNULL,
            capture_output=True, timeout=SECONDS)
        return None if done.returncode != 0 or done.stderr else done.stdout

    def variables(self, data, way="eval", locale=None):
        """What a program has in its environment after the text was evaluated, or None."""
        self.file.write_bytes(data)
        printed = self.call(self.WAYS[way] + " && exec /bin/cat /proc/self/environ", [self.file], locale)
        return None if printed is None else split_environment(printed)

    @functools.lru_cache(maxsize=None)
    def own(self, way="eval", locale=None):
        """The names that a program has in its environment if the text is empty."""
        return set(self.variables(b"", way, locale))

    def read(self, data, way="eval", locale=None):
        """The pairs that the text adds. A name that the shell sets by itself counts if it is in the text."""
        variables = self.variables(data, way, locale)
        if variables is None:
            return None
        return self.declared(data, variables, way, locale)

    def declared(self, data, variables, way, locale):
        """The pairs without those that the shell sets by itself, unless a line of the text sets one."""
        own = {name for name in self.own(way, locale) if not re.search(rb"(?m)^(export |set -- ')" + name + b"=", data)}
        return [(name, value) for name, value in variables.items() if name not in own]

    def read_exec(self, data, way="eval", locale=None):
        """As read, of a text that also puts pairs before the words of a command that env starts."""
        self.file.write_bytes(data)
        script = self.WAYS[way] + ' && exec /usr/bin/env "$@"'
        printed = self.call(script, [self.file, "/bin/cat", "/proc/self/environ"], locale)
        return None if printed is None else self.declared(data, split_environment(printed), way, locale)


def split_environment(data):
    """The pairs of an environment as Linux has it."""
    return dict(one.split(b"=", 1) for one in data.split(b"\0") if b"=" in one)


SHELLS = [
    ("dash", ["dash"], "dash"),
    ("bash", ["bash"], "bash"),
    ("bash --posix", ["bash", "--posix"], "bash"),
    ("busybox", ["busybox", "sh"], "busybox"),
    ("zsh", ["zsh", "-f"], "zsh"),
    ("zsh --emulate sh", ["zsh", "--emulate", "sh", "-f"], "zsh"),
    ("ksh93", ["ksh93"], "ksh93u+m"),
    ("mksh", ["mksh"], "mksh"),
]


def refuse_unknown(reader, words, known):
    """Ends the call if one of the words is neither among those known nor names a shell."""
    known = [*known, *(name for name, _, _ in SHELLS)]
    for word in words:
        if word not in known:
            reader.error(f"there is no tool {word!r}; TOOL is one of {', '.join(known)}")


def shells(names=()):
    """The shells of these names that are installed, or all of them. It says which are not."""
    found = []
    for name, command, package in SHELLS:
        if names and name not in names:
            continue
        if shutil.which(command[0]) is None:
            print(f"left out: {name}, which is not installed (package {package})")
        else:
            found.append(Shell(name, command, package))
    return found


# systemd.


class Systemd(Room):
    """systemd's own parser of environment files, from its shared library.

    A unit takes of its pairs those that `in_unit` leaves: those whose names are a shell's.
    """

    name = "systemd"

    def __init__(self, path):
        super().__init__()
        self.library = ctypes.CDLL(str(path))
        texts = ctypes.POINTER(ctypes.c_char_p)
        self.library.load_env_file.argtypes = [ctypes.c_void_p, ctypes.c_char_p, ctypes.POINTER(texts)]
        self.library.strv_env_clean_with_callback.argtypes = [texts, ctypes.c_void_p, ctypes.c_void_p]
        self.library.strv_env_clean_with_callback.restype = texts
        self.library.strv_free.argtypes = [texts]
        self.library.strv_free.restype = ctypes.c_void_p
        self.library.log_set_max_level.argtypes = [ctypes.c_int]
        # Of what it ignores it would print a line each.
        self.library.log_set_max_level(0)
        self.version = re.sub(r"^libsystemd-shared-|\.so$", "", path.name)

    def texts(self, data, in_unit):
        """The texts NAME=VALUE of a file, or None."""
        self.file.write_bytes(data)
        found = ctypes.POINTER(ctypes.c_char_p)()
        if self.library.load_env_file(None, str(self.file).encode(), ctypes.byref(found)) < 0:
            return None
        if in_unit and found:
            self.library.strv_env_clean_with_callback(found, None, None)
        texts = []
        while found and found[len(texts)] is not None:
            texts.append(found[len(texts)])
        self.library.strv_free(found)
        return texts

    def read(self, data, in_unit=False):
        """The pairs."""
        texts = self.texts(data, in_unit)
        return None if texts is None else [split_at_equals(text) for text in texts]


def split_at_equals(text):
    """The name and the value of a text."""
    name, _, value = text.partition(b"=")
    return name, value


def systemd():
    """systemd's parser, or None where its library isn't installed."""
    found = sorted(pathlib.Path("/usr/lib").glob("*/systemd/libsystemd-shared-*.so"))
    found += sorted(pathlib.Path("/usr/lib/systemd").glob("libsystemd-shared-*.so"))
    if not found:
        print("left out: systemd's parser, since its shared library is not installed (package systemd)")
        return None
    return Systemd(found[-1])


# docker.


class PlayedDaemon(http.server.BaseHTTPRequestHandler):
    """Answers as docker's daemon does to a client that creates a container, and keeps what it was asked for."""

    protocol_version = "HTTP/1.1"

    def log_message(self, *words):
        """Prints nothing."""

    def answer(self):
        """Keeps the body of the request, and answers."""
        body = self.rfile.read(int(self.headers.get("Content-Length") or 0))
        is_create = "/containers/create" in self.path
        if is_create:
            self.server.created.append(body)
        said = b'{"Id":"0123","Warnings":[]}' if is_create else b"OK"
        self.send_response(201 if is_create else 200)
        self.send_header("Content-Type", "application/json")
        self.send_header("Content-Length", str(len(said)))
        self.end_headers()
        if self.command != "HEAD":
            self.wfile.write(said)

    do_GET = do_HEAD = do_POST = answer


class PlayedServer(socketserver.ThreadingMixIn, socketserver.UnixStreamServer):
    """A server at a socket of Unix."""

    daemon_threads = True

    def __init__(self, path):
        super().__init__(path, PlayedDaemon)
        self.created = []

    def handle_error(self, request, client_address):
        """Says nothing of a client that waits no longer, as docker's does on a machine that is busy."""
        if not isinstance(sys.exc_info()[1], BrokenPipeError):
            super().handle_error(request, client_address)


class Docker(Room):
    """docker's client, and what it asks a daemon to create."""

    name = "docker"

    def __init__(self, path):
        super().__init__()
        self.path = path
        self.version = said_version([path, "--version"], r"version ([^ ,]+)")
        socket = str(self.folder / "socket")
        self.server = PlayedServer(socket)
        threading.Thread(target=self.server.serve_forever, daemon=True).start()
        # With a version the client asks for none, and so waits for no answer.
        self.environment = {"DOCKER_HOST": "unix://" + socket, "DOCKER_API_VERSION": "1.41", "HOME": str(self.folder)}
        self.environment = {**self.environment, **OF_GO, **KNOWN}

    def read(self, data):
        """The pairs that the daemon is given."""
        self.file.write_bytes(data)
        self.server.created.clear()
        done = subprocess.run(
            [self.path, "create", "--env-file", self.file, "image"], env=self.environment, cwd=self.folder,
            stdin=subprocess.DEVNULL, capture_output=True, timeout=SECONDS)
        if done.returncode != 0:
            if self.server.created or b"env" not in done.stderr and b"bufio" not in done.stderr:
                raise RuntimeError(f"docker fails: {done.stderr[:300]}")
            return None
        (created,) = self.server.created
        return [split_at_equals(text.encode()) for text in json.loads(created)["Env"] or []]

    def close(self):
        """Ends the server."""
        self.server.shutdown()
        self.server.server_close()
        super().close()


def docker(path=None):
    """docker's client, or None where it isn't installed."""
    path = path or shutil.which("docker")
    if path is None:
        print("left out: docker's client, which is not installed (package docker-cli or docker.io)")
        return None
    return Docker(path)


# kubectl.


class Kubectl(Room):
    """kubectl, which prints the configmap, or the secret, that it would create."""

    name = "kubectl"

    def __init__(self, path):
        super().__init__()
        self.path = path
        self.version = said_version([path, "version", "--client"], r'(?:Git|Client )Version: ?"?v?([^ \n",]+)')
        self.environment = {"HOME": str(self.folder), "KUBECONFIG": os.devnull} | OF_GO | KNOWN

    def read(self, data):
        """The pairs of the configmap, in order of their names."""
        self.file.write_bytes(data)
        words = ["create", "configmap", "name", f"--from-env-file={self.file}", "--dry-run=client", "--output=json"]
        done = subprocess.run(
            [self.path, *words],
            env=self.environment, cwd=self.folder, stdin=subprocess.DEVNULL, capture_output=True, timeout=SECONDS)
        if done.returncode != 0:
            known = [b"is not a valid", b"already exists", b"invalid utf8"]
            if not any(words in done.stderr for words in known):
                raise RuntimeError(f"kubectl fails: {done.stderr[:300]}")
            return None
        made = json.loads(done.stdout)
        if set(made) - {"kind", "apiVersion", "metadata", "data"}:
            raise RuntimeError(f"kubectl makes more than data: {done.stdout[:300]}")
        return [(name.encode(), value.encode()) for name, value in made.get("data", {}).items()]


def kubectl(path=None):
    """kubectl, or None where it isn't installed."""
    path = path or shutil.which("kubectl")
    if path is None:
        print("left out: kubectl, which is not installed (package kubernetes-client)")
        return None
    return Kubectl(path)


# JSON.


class PythonJson:
    """Python's json."""

    name = "json"
    version = "of Python " + ".".join(map(str, sys.version_info[:3]))

    def read(self, data):
        """The pairs of one object of texts, in order, and those of a name that is there twice."""
        try:
            pairs = json.loads(data.decode(), object_pairs_hook=Members)
        except ValueError:
            return None
        if not isinstance(pairs, Members) or not all(isinstance(value, str) for _, value in pairs):
            return None
        return [(as_bytes(name), as_bytes(value)) for name, value in pairs]

    def close(self):
        """It has nothing to remove."""


class Members(list):
    """The members of an object of JSON."""


def as_bytes(text):
    """The text in UTF-8, where a half of a pair of surrogates is written too."""
    return text.encode("utf-8", "surrogatepass")


@contextlib.contextmanager
def opened(tool):
    """A tool, whose files are removed afterwards."""
    try:
        yield tool
    finally:
        tool.close()
