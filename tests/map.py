#!/usr/bin/env python3
"""Prints the map of the code: the crates, their modules, and the scripts, each with what its own comment says of it.

    map.py             the crates, lowest first, each with those that it depends on
    map.py CRATE..     the modules of a crate, each with the definitions and the lemmas that it uses; then its files of
                       definitions and lemmas
    map.py --scripts   the scripts, and what each of them checks or makes
    map.py --check     sees that each crate, module, file of definitions or lemmas, and script has such a comment

With --check it prints what has none, and ends with status 1 if anything has none.
"""

import ast
import re
import signal
import subprocess
import sys

from counting import tell
from rattle import CRATES, TOP, dependencies, source_files


def paragraph(lines):
    """The first paragraph of a comment, on one line."""
    text = "\n".join(lines).strip().partition("\n\n")[0]
    return " ".join(text.split())


def comment_at_top(path):
    """What the comment at the top of a file says: its first paragraph."""
    lines = path.read_text(encoding="utf-8").split("\n")
    if path.suffix == ".rt":
        return paragraph([line[3:].strip() for line in lines if line.startswith("//!")])
    if path.suffix == ".antt":
        end = next((place for place, line in enumerate(lines) if not line.startswith("--")), len(lines))
        return paragraph([line[2:] for line in lines[:end]])
    if path.suffix == ".py" or "python" in lines[0]:
        return paragraph((ast.get_docstring(ast.parse("\n".join(lines))) or "").split("\n"))
    lines = lines[1:] if lines[0].startswith("#!") else lines
    end = next((place for place, line in enumerate(lines) if not line.startswith("#")), len(lines))
    return paragraph([line[1:].strip() for line in lines[:end]])


def root_of(crate):
    """The file in which a crate begins."""
    source = CRATES / crate / "src"
    return source / "lib.rt" if (source / "lib.rt").exists() else source / "main.rt"


def modules_of(crate):
    """The source files of a crate, without the one in which it begins."""
    return [file for file in source_files(crate) if file != root_of(crate)]


def files_of(crate, folder):
    """The files of definitions of a crate, or those of lemmas: those that say what they hold, and list no others."""
    found = sorted((CRATES / crate / folder).rglob("*.antt"))
    lists = [file for file in found if file.stem == "Lib" or file.with_suffix("").is_dir()]
    return [file for file in found if file not in lists and file.stem not in ("Answers", "Invariants", "Proof")]


def used_by(crate, file):
    """The definitions, the machines and the lemmas that a module uses, by the names of their files."""
    module = file.relative_to(CRATES / crate / "src").with_suffix("")
    proofs = sorted((CRATES / crate / "proofs" / module).rglob("*.antt"))
    texts = [path.read_text(encoding="utf-8") for path in [file, *proofs]]
    cited = {name for text in texts for name in re.findall(r"use Rattle\.dotenvy\w*\.(specs|proofs)\.([\w.]+\w)", text)}
    cited |= {("proofs", name) for name in re.findall(r"crate::proofs::(\w+)", texts[0])}
    kinds = {"definitions": set(), "machines": set(), "lemmas": set()}
    for folder, name in cited:
        # Goals of functions, and words of declarations, are no files.
        if not re.search(r"^(declared|contracts)\.|\.(Goals|Given)$", name):
            kind = "machines" if name.startswith("inside.") else "definitions" if folder == "specs" else "lemmas"
            kinds[kind].add(name.rpartition(".")[2])
    return {kind: sorted(names) for kind, names in kinds.items() if names}


def scripts():
    """The scripts that git knows, but not what they read: those that can be called, and modules beside them."""
    listed = subprocess.run(["git", "ls-files", "-s"], cwd=TOP, stdout=subprocess.PIPE, text=True, check=True).stdout
    files = [re.match(r"(\d+) .*\t(.*)", line).groups() for line in listed.splitlines()]
    names = [name for mode, name in files if mode == "100755" or re.search(r"\.(sh|py)$", name)
             and not re.match("bindings/.*/", name)]
    return [TOP / name for name in names if not name.startswith("crates/") and (TOP / name).exists()]


def lines_of(crate):
    """What is printed of a crate."""
    yield f"{crate}: {comment_at_top(root_of(crate))}"
    for file in modules_of(crate):
        yield f"\n  {file.relative_to(CRATES / crate)}: {comment_at_top(file)}"
        yield from (f"    {kind}: {', '.join(names)}" for kind, names in used_by(crate, file).items())
    for folder in ("specs", "proofs"):
        files = files_of(crate, folder)
        yield from [""] if files else []
        yield from (f"  {file.relative_to(CRATES / crate)}: {comment_at_top(file)}" for file in files)


def main():
    """Prints, or checks."""
    words, crates = sys.argv[1:], dependencies()
    # A reader, such as `head`, may end before all is printed.
    signal.signal(signal.SIGPIPE, signal.SIG_DFL)
    if words == ["--check"]:
        files = [file for crate in crates for file in [root_of(crate), *modules_of(crate)]]
        files += [file for crate in crates for folder in ("specs", "proofs") for file in files_of(crate, folder)]
        silent = [file for file in files + scripts() if not comment_at_top(file)]
        faults = [f"{file.relative_to(TOP)} doesn't say at its top what it is" for file in silent]
        return tell(faults if files else ["crates.txt has no crate"])
    if words == ["--scripts"]:
        print("\n".join(f"{path.relative_to(TOP)}: {comment_at_top(path)}" for path in scripts()))
    elif set(words) - set(crates):
        raise SystemExit("no crate is called " + sorted(set(words) - set(crates))[0])
    elif words:
        print("\n\n".join("\n".join(lines_of(crate)) for crate in words))
    else:
        print("\n".join(f"{crate}: {comment_at_top(root_of(crate))}\n  depends on: {', '.join(below) or 'none'}"
                        for crate, below in crates.items()))
    return 0


if __name__ == "__main__":
    sys.exit(main())
