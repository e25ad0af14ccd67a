#!/usr/bin/env python3
"""Checks that `dotenvy` re-exports the words of its contracts, so that a crate that cites them depends on no other one.

A word is defined in a file of specs/, or is a variant of an enum. The script collects the words that a public contract
cites, and then those that the files of these words cite. Each such file and each such enum needs a line in
crates/dotenvy/specs/Lib.antt, and so does each public enum. Each law needs its name in crates/dotenvy/specs/Laws.antt.
Public is what lib.rt and laws.rt of crates/dotenvy re-export. Nothing is proved here, so it takes a second.
The last line is `N passed, M failed`.
"""

import re
import sys

from counting import judge
from rattle import CRATES, WORD, items_of, re_exported, text_of, without_generics

LIBRARY = CRATES / "dotenvy"
MODULE = r"Rattle\.dotenvy\w*\.specs\.[\w.]+?"


def public_names():
    """The source files with the items that the library re-exports, and the names of these items."""
    found = {}
    for page in ("lib.rt", "laws.rt"):
        for name, path, _ in re_exported(LIBRARY / "src" / page):
            crate, _, module = path.rpartition("::")
            file = CRATES / (crate or "dotenvy") / "src" / (module + ".rt")
            found.setdefault(file, set()).add(name)
    return found


def is_public(item, public):
    """Whether users meet an item: a public function, or what a block says of a public type or trait."""
    block = re.findall(r"\w+", without_generics(item.block.partition("{")[0]))
    is_view = item.lines[0].startswith("ghost view")
    return item.is_public and not is_view and not public.isdisjoint(block or item.path[2:])


def cited(item):
    """The words of the library that the contract of an item cites: the module and the name of each."""
    for word in set(WORD.findall("\n".join(item.contract()))):
        module, name = item.imports.get(word, ("", ""))
        if re.fullmatch(MODULE, "Rattle." + module):
            yield "Rattle." + module, name


def is_word(module):
    """Whether a module is a file of specs/ that any crate may cite, or holds the variants of an enum."""
    return ".inside" not in module and (".declared." not in module or module.endswith(".TheVariants"))


def cited_by(module):
    """The modules whose words a file of specs/ cites."""
    crate, path = re.fullmatch(r"Rattle\.(\w+)\.specs\.(.+)", module).groups()
    file = CRATES / crate / "specs" / (path.replace(".", "/") + ".antt")
    used = re.findall(r"^use (" + MODULE + r")(?:\.\{| as |$)", text_of(file), flags=re.M) if file.exists() else []
    return {found for found in used if is_word(found) and ".contracts." not in found}


def words():
    """The modules whose words users need, and the laws that contracts cite, each with its module."""
    modules, laws = set(), set()
    for file, public in public_names().items():
        for name in public:
            if not re.search(rf"^pub (?:fn|struct|enum|trait|type) {name}\b", text_of(file), flags=re.M):
                raise SystemExit(f"{file}: there is no public {name}")
        for item in items_of(file):
            found = set(cited(item)) if is_public(item, public) else set()
            modules.update(module for module, _ in found)
            laws.update(word for word in found if word[0].endswith(".Laws"))
        for name in re.findall(r"^pub enum (\w+)", text_of(file), flags=re.M):
            if name in public:
                modules.add(f"Rattle.{file.parts[-3]}.specs.declared.{file.stem}.{name}.TheVariants")
    news = modules
    while news:
        news = {found for module in news for found in cited_by(module)} - modules
        modules = modules | news
    return modules, laws


def main():
    """Prints a line for each file of words, each enum and each law."""
    lib, laws_page = text_of(LIBRARY / "specs" / "Lib.antt"), text_of(LIBRARY / "specs" / "Laws.antt")
    lines = set(re.findall(r"^pub use (\S+)$", lib, flags=re.M))
    lines |= {"Rattle.dotenvy.specs." + own for own in re.findall(r"^pub mod (\w+)$", lib, flags=re.M)}
    named = {
        (module, name)
        for module, names in re.findall(r"^pub use (\S+)\.\{([^}]*)\}", laws_page, flags=re.M)
        for name in re.findall(r"[\w'-]+", names)
        if "Rattle.dotenvy.specs.Laws" in lines
    }
    modules, laws = words()
    checks = []
    for module in sorted(modules):
        path = re.sub(r"\.TheVariants$", "", module)
        if path.endswith(".Laws"):
            file = CRATES / path.split(".")[1] / "specs" / "Laws.antt"
            names = re.findall(r"^(?:abbrev )?pub (?:record )?(\w+)", text_of(file), flags=re.M)
            laws |= {(path, name) for name in names}
        else:
            checks.append((path in lines and is_word(module), path + " has its line in Lib.antt"))
    checks += [((module, name) in named, f"{module}.{name} has its name in Laws.antt") for module, name in sorted(laws)]
    return judge((what, [] if holds else ["it hasn't"]) for holds, what in checks)


if __name__ == "__main__":
    sys.exit(main())
