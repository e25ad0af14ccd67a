"""Reads files of Rattle for other scripts: items of `.rt` files in the layout of rt fmt, definitions of `.antt` files.

An item is a function, a type, or a line of `ghost` by which an impl says something of a type. What its contract cites
is looked up by the imports of its file. Words of std are not followed.
"""

import functools
import itertools
import pathlib
import re

TOP = pathlib.Path(__file__).resolve().parent.parent
CRATES = TOP / "crates"

FUNCTION = re.compile(r'(pub )?(?:pub\(crate\) )?(?:const )?(?:extern "C" )?fn (\w+)')
TYPE = re.compile(r"(pub )?(?:pub\(crate\) )?(?:struct|enum|trait) (\w+)")
SAID = re.compile(r"ghost ((?!use )\w+)")
CLAUSE = re.compile(r"\b(requires|ensures)(?: (\w+))? \{")
WORD = re.compile(r"[^\s(){}\[\],;.:λ∀→×⊎≡≢|↦]+")
DEFINITION = re.compile(r"(?:abbrev |unfoldable )?pub (?:abbrev |unfoldable )?(record |data )?(\S+)")
SKIPPED = re.compile(r"pub (?:mod|use)\b")
IMPORT = re.compile(r"^ *(?:pub |ghost )?use Rattle\.([\w.]+)(?:\.\{([^}]*)\})?(?: as (\w+))?;?$", re.M)


def dependencies():
    """Each crate of crates.txt, with the crates that it depends on."""
    lines = re.findall(r"^(\w+)[^:#\n]*:([^#\n]*)", (TOP / "crates.txt").read_text(encoding="utf-8"), re.M)
    return {name: below.split() for name, below in lines}


def text_of(path):
    """The text of a file without its comments."""
    return re.sub(r"^\s*(//|--).*\n", "", path.read_text(encoding="utf-8"), flags=re.M)


def re_exported(page):
    """What a source file re-exports: each name, where it comes from, and the module of this file that has it."""
    module = ""
    for line in re.findall(r"^pub mod \w+ \{|^\}|^ *pub use [^;]*;", text_of(page), re.M):
        used = re.match(r"\s*pub use ([\w:]+)::(\{[^}]*\}|\w+);", line)
        if used:
            yield from ((name, used.group(1), module) for name in re.findall(r"\w+", used.group(2)))
        else:
            module = "".join(re.findall(r"mod (\w+)", line))


# --- Items of .rt files ---


class Item:
    """A function, a type or a line of `ghost`: its path, its head, the comment over it, and the head of its block."""

    def __init__(self, path, lines, comment, block):
        self.path, self.lines, self.comment, self.block = path, lines, comment, block
        self.is_public, self.file, self.imports, self.modules = False, "", {}, {}

    def is_function(self):
        """Whether it is a function."""
        return FUNCTION.match(self.lines[0]) is not None

    def is_call(self):
        """Whether it is a function that users call by its name, and not one that a trait of std has."""
        return self.is_public and self.is_function() and not is_of_trait(self.block)

    def clauses(self):
        """Its clauses: of each the kind, the name, and the text."""
        text = "\n".join(self.lines)
        for found in CLAUSE.finditer(text):
            end, depth = found.end(), 1
            while depth:
                depth += {"{": 1, "}": -1}.get(text[end], 0)
                end += 1
            yield found.group(1), found.group(2), text[found.end():end - 1]

    def contract(self, wanted=None):
        """The texts of its clauses, or of those that are wanted. Of a line of `ghost` it is all of it."""
        if SAID.match(self.lines[0]):
            return ["\n".join(self.lines)]
        return [text for _, name, text in self.clauses() if wanted is None or name in wanted]


def margin_of(line):
    """The number of blanks before a line."""
    return len(line) - len(line.lstrip())


def without_generics(head):
    """The head of an item without everything between angle brackets."""
    head = head.replace("->", "")
    while re.search("<[^<>]*>", head):
        head = re.sub("<[^<>]*>", "", head)
    return head


def is_of_trait(block):
    """Whether a block with this head has what a trait asks for."""
    return " for " in without_generics(block)


def head_of(lines, start):
    """The head of an item: up to the brace that opens its body, or to its semicolon."""
    margin, depth = margin_of(lines[start]), 0
    for place in range(start, len(lines)):
        line = lines[place]
        depth += line.count("{") - line.count("}")
        if line.endswith("{") and margin_of(line) == margin or depth == 0 and re.search(r";$|\{ *\}$", line):
            break
    return lines[start:place] + [re.sub(r" *(\{ *\}?|;)$", "", lines[place])]


def shown_lines(lines, start):
    """The head of an item at the margin, and all of a type whose fields or cases are public."""
    head, margin = head_of(lines, start), margin_of(lines[start])
    if re.match(r"pub (?:enum|struct)", lines[start]) and "}" in lines[start:]:
        body = lines[start:lines.index("}", start) + 1]
        head = body if any(re.match(r" +(?:pub |[A-Z])", line) for line in body) else head
    return [line[margin:] for line in head if line.strip()]


def comment_over(lines, place):
    """The comment over a line, without its slashes; attributes may come between."""
    found = []
    while place and re.match(r" *(?://|#\[)", lines[place - 1]):
        place -= 1
        found.insert(0, lines[place].strip())
    return [re.sub(r"^///? ?", "", line) for line in found if line.startswith("//")]


def owner(block):
    """The type or the trait that a block with this head is about: `&mut R` for a reference."""
    head = re.sub(r"'\w+ ", "", without_generics(block.partition("{")[0])).strip()
    head = re.sub(r"^.* for |^(?:pub )?(?:impl|trait) ?", "", head)
    return head.partition(" where")[0].rpartition("::")[2].strip(" :")


def items_in(lines, path, block=""):
    """The items in these lines, which are a file or the inside of a block with this head."""
    margin = 4 if block else 0
    for place, line in enumerate(lines):
        text = line.strip()
        found = FUNCTION.match(text) or TYPE.match(text)
        said = SAID.match(text) if block else None
        if margin_of(line) != margin or not text:
            continue
        if found or said:
            name = found.group(2) if found else said.group(1)
            item = Item(path + [name], shown_lines(lines, place), comment_over(lines, place), block)
            item.is_public = bool(said or found.group(1) or is_of_trait(block) or block.startswith("pub trait"))
            yield item
        if not block and re.match(r"(?:impl|(?:pub )?trait)\b", text) and not text.endswith("}"):
            inside = lines[place + 1:lines.index("}", place)]
            yield from items_in(inside, path + [owner(text)], text)


@functools.lru_cache(None)
def items_of(file):
    """The items of a source file."""
    text = file.read_text(encoding="utf-8")
    found = list(items_in(text.split("\n"), [file.relative_to(CRATES).parts[0], file.stem]))
    for item in found:
        item.file = str(file.relative_to(TOP))
        item.imports, item.modules = imports_of(text)
    return found


def source_files(crate):
    """The source files of a crate."""
    return sorted((CRATES / crate / "src").rglob("*.rt"))


# --- Definitions of .antt files ---


class File:
    """A file of definitions: its lines, where each definition begins and ends, and what it imports."""

    def __init__(self, path):
        text = path.read_text(encoding="utf-8")
        self.lines = text.split("\n")
        self.imports, self.modules = imports_of(text)
        self.places, self.owners, self.found = {}, {}, {}
        matches = [(DEFINITION.match(line), number) for number, line in enumerate(self.lines)]
        starts = [(found, number) for found, number in matches if found and not SKIPPED.match(found.string)]
        ends = [number for _, number in starts[1:]] + [len(self.lines)]
        for (found, start), end in zip(starts, ends):
            while not self.lines[end - 1].strip() or self.lines[end - 1].startswith("--"):
                end -= 1
            self.places[found.group(2)] = (start, end)
            if found.group(1) == "data ":
                self.add_cases(found.group(2), start + 1, end)

    def add_cases(self, data, start, end):
        """The cases of a `data` lead to it."""
        for line in self.lines[start:end]:
            for case in line.partition(" : ")[0].split() if " : " in line else []:
                self.owners[case] = data

    def head(self):
        """The comment at the top."""
        comment = itertools.takewhile(lambda line: line.startswith("-- "), self.lines)
        return " ".join(line[3:] for line in comment)

    def comment(self, name):
        """The comment over a definition."""
        above = itertools.takewhile(lambda line: line.startswith("-- "), reversed(self.lines[:self.places[name][0]]))
        return " ".join(line[3:] for line in reversed(list(above)))

    def cited(self, files, module, name):
        """The definitions that one of this file cites."""
        if name not in self.found:
            start, end = self.places[name]
            self.found[name] = cited(files, "\n".join(self.lines[start:end]), self, module)
        return self.found[name]


def imports_of(text):
    """The words that a file imports, each with its module and its name there; and the modules, by their names here."""
    words, modules = {}, {}
    for module, listed, short in IMPORT.findall(text):
        for word in filter(None, (each.strip() for each in listed.split(","))):
            theirs, _, ours = word.partition(" as ")
            words[ours or theirs] = (module, theirs)
        if not listed:
            modules[short or module.rpartition(".")[2]] = module
    return words, modules


def read_files(top=TOP):
    """All files of definitions of the crates, by their modules."""
    found = {}
    for path in sorted((top / "crates").glob("*/specs/**/*.antt")):
        found[".".join(path.relative_to(top / "crates").with_suffix("").parts)] = File(path)
    return found


def resolved(files, word, module, imports):
    """The module and the name of the definition that a word means in a file, if it is one of ours."""
    module, word = imports.get(word, (module, word))
    if module and module not in files:
        # The library re-exports this file of another crate.
        library, _, name = module.rpartition(".")
        module = files[library + ".Lib"].modules.get(name) if library + ".Lib" in files else None
    file = files.get(module)
    if file is None:
        return None
    name = file.owners.get(word, word)
    if name in file.places:
        return module, name
    return resolved(files, name, None, file.imports) if name in file.imports else None


def cited(files, text, place, module=None):
    """The definitions that a text cites: one of a file of definitions, which is a module, or of an item."""
    found = {resolved(files, word, module, place.imports) for word in WORD.findall(text)}
    for short, word in re.findall(r"(\w+)\.(\w+)", text):
        if short in place.modules:
            found.add(resolved(files, word, place.modules[short], {}))
    return found - {None}
