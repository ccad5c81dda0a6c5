"""The declarations of the crates, with what each names: functions, types, traits and impls below src/, definitions and lemmas below specs/ and proofs/.

The files are read as `rt fmt` lays them out, without their comments. Names are resolved through the lines `use` and `ghost use` of a file; where that takes
a reader of types (a method, an impl), every declaration of that name counts, in the crate and in those below. So a declaration may be said to name more
than it does, never less.
"""

import dataclasses
import functools
import glob
import os
import re

STRING = r'"(?:\\.|[^"\\])*"'
RUST_TOKEN = re.compile(rf"r(#*)\"[\s\S]*?\"\1|{STRING}|'(?:\\.|[^'\\\n])'|//[^\n]*|/\*[\s\S]*?\*/")
PROOF_TOKEN = re.compile(rf"{STRING}|(?<!\S)--[^\n]*")
FUNCTION = re.compile(r'(?:pub(?:\([^)]*\))? )?(?:const )?(?:unsafe )?(?:extern "C" )?fn (\w+)')
NAMED = re.compile(r"(?:pub(?:\([^)]*\))? )?(?:unsafe )?(?:struct|enum|union|trait|type|const|static|macro_rules!) (\w+)")
MODIFIERS = r"(?:(?:pub|abbrev|unfoldable|opaque|unfolding) )*"


def stripped(text, token):
    """Returns a text without comments and blank lines, each string on one line."""
    is_comment = lambda it: it.startswith(("//", "/*", "--"))
    text = token.sub(lambda it: "" if is_comment(it[0]) else it[0].replace("\n", "\\n"), text)
    return [line.rstrip() for line in text.split("\n")]


def indent(line):
    return len(line) - len(line.lstrip())


@dataclasses.dataclass(eq=False)
class Declaration:
    """A declaration: the texts of it that are seen from outside (head) and that are not (body), its names, and its kind."""

    crate: str
    path: str
    kind: str
    # Of an impl its type and its trait.
    names: tuple
    head: str
    body: str = ""
    # The impl or trait around a method.
    around: "Declaration" = None


def groups(lines):
    """Returns the groups of lines that begin at the margin, each with the attributes before it."""
    found, is_open = [], False
    for line in lines:
        if not line:
            continue
        continues = line[0] in " {})]>" or line.startswith("where")
        if found and (continues or is_open):
            found[-1].append(line)
        else:
            found.append([line])
        # An attribute belongs to what follows it.
        is_open = line.startswith("#[") or is_open and continues and not any(it.startswith(("{", "}")) or not it.startswith(("#[", " ", ")", "]")) for it in found[-1])
    return found


def split_function(lines):
    """Returns the head of a function, with its attributes and clauses, and its body."""
    opens = next((at for at, line in enumerate(lines) if indent(line) == 0 and line.endswith("{")), None)
    return ("\n".join(lines), "") if opens is None else ("\n".join(lines[: opens + 1]), "\n".join(lines[opens + 1 :]))


def first_line(lines):
    return next((it for it in lines if not it.startswith(("#[", " ", ")", "]"))), "")


def impl_names(header):
    """Returns the name of the type of an impl, and that of the trait, or '' if it has none."""
    plain = re.sub(r"\s+", " ", header).replace("->", "")
    while (less := re.sub(r"<[^<>]*>", "", plain)) != plain:
        plain = less
    plain = plain.split(" where ")[0].split("{")[0]
    trait, _, of = plain.partition(" for ")
    last = lambda it: (re.findall(r"\w+", it) or [""])[-1]
    return (last(of), last(trait)) if of else (last(trait), "")


def rust_declarations(crate, path, lines):
    """Returns the declarations of a file below src/, its imports and its inner attributes."""
    found, imports, inner = [], [], []
    for group in groups(lines):
        first = first_line(group)
        text = "\n".join(group)
        if group[0].startswith("#!["):
            inner.append(text)
        elif "#[cfg(test)]" in group or re.match(r"(?:pub(?:\([^)]*\))? )?mod \w+;", first):
            continue
        elif re.match(r"(?:pub(?:\([^)]*\))? )?use ", first):
            imports.append(text)
        elif first.startswith("ghost use "):
            pass
        elif name := FUNCTION.match(first):
            found.append(Declaration(crate, path, "function", (name[1],), *split_function(group)))
        elif re.match(r"(?:pub(?:\([^)]*\))? )?(?:unsafe )?(?:impl\b|trait )", first):
            found += members(crate, path, group, first)
        else:
            name = NAMED.match(first)
            found.append(Declaration(crate, path, "item", (name[1],) if name else (), text))
    return found, imports, inner


def members(crate, path, group, first):
    """Returns the declarations of an impl or a trait: itself, with the heads of a trait's methods, and each method."""
    at = group.index(first)
    opens = next(it for it in range(at, len(group)) if group[it].endswith(("{", "{}")))
    header = group[: opens + 1]
    inside = [it[4:] for it in group[opens + 1 : -1]]
    is_trait = not re.match(r"(?:unsafe )?impl\b", first)
    names = [NAMED.match(first)[1]] if is_trait else impl_names(" ".join(group[at : opens + 1]).split("impl", 1)[1])
    methods = [it for it in groups(inside) if FUNCTION.match(first_line(it))]
    is_own = not is_trait and not names[1]
    rest = [line for it in groups(inside) if it not in methods and not it[0].startswith("ghost use") for line in it]
    heads = [] if is_own else [split_function(it)[0] if not is_trait else "\n".join(it) for it in methods]
    around = Declaration(crate, path, "trait" if is_trait else "impl", tuple(names), "\n".join([*header, *rest, *heads]))
    own = [Declaration(crate, path, "method" if is_own else "trait method", (FUNCTION.match(first_line(it))[1],), *split_function(it), around) for it in methods]
    return [around, *own]


def proof_names(lines):
    """Returns the names that a paragraph of a file below specs/ or proofs/ declares."""
    first = re.sub(rf"^{MODIFIERS}", "", lines[0])
    declared = lambda rows: {re.sub(rf"^\s*{MODIFIERS}", "", it).split(" ")[0] for it in rows if " : " in it}
    if first.startswith("record "):
        return {first.split(" ")[1]}
    if first.startswith("data "):
        return {first.split(" ")[1], *declared(lines[1:])}
    if first.startswith("module "):
        return declared(it for it in lines[1:] if indent(it) == 2)
    return declared(it for it in lines if indent(it) == 0)


def proof_declarations(crate, path, lines):
    """Returns the declarations of a file below specs/ or proofs/, and its imports."""
    found, imports, paragraph, is_import = [], [], [], False

    def end():
        if paragraph:
            found.append(Declaration(crate, path, "proof", tuple(proof_names(paragraph)), "\n".join(paragraph)))
            paragraph.clear()

    for at, line in enumerate(lines):
        begins = re.match(r"(?:pub )?(use|mod) ", line)
        if begins or is_import and line[:1] in (" ", "}"):
            end()
            is_import = True
            if begins:
                imports.append(line)
            else:
                imports[-1] += line
            continue
        is_import = False
        if not line or not paragraph:
            # A paragraph that is indented goes on with a module.
            ahead = next((it for it in lines[at:] if it), "")
            if not ahead.startswith(" "):
                end()
        if line:
            paragraph.append(line)
    end()
    return found, [it for it in imports if "use " in it]


def imported(text):
    """Yields the module, the name (or None, if it is the module itself) and the name here of what a line 'use' or 'ghost use' imports."""
    path = re.sub(r"\s+", " ", text).removeprefix("pub ").removeprefix("use ").rstrip("; ")
    module, brace, names = path.partition(".{")
    if brace:
        for it in names.rstrip("} ").split(","):
            name, _, alias = it.strip().partition(" as ")
            if name:
                yield module, name, alias or name
    else:
        module, _, alias = path.partition(" as ")
        yield module, None, alias or module.split(".")[-1]


def tokens(text):
    """Returns the dotted names and operators of a contract or a proof, as lists of their parts."""
    return [it.split(".") for it in re.split(r"[\s(){}\[\],;]+", text) if it]


def parts_of(name):
    """Returns what a text has of a name: an operator such as ◌+◌ stands between its operands."""
    return [it for it in re.split("◌", name) if it]


class Crates:
    """The declarations of all crates that crates.txt lists, in a folder."""

    def __init__(self, root):
        self.root = root
        with open(f"{root}/crates.txt", encoding="utf-8") as it:
            lines = [line.split("#")[0].strip() for line in it]
        self.lines = {re.match(r"\w+", line)[0]: line for line in lines if ":" in line}
        self.uses = {name: [it for it in line.split(":")[1].split() if it in self.lines] for name, line in self.lines.items()}
        self.all, self.imports, self.inner, self.ghosts = {}, {}, {}, {}
        for crate in self.lines:
            for part in ("src", "specs", "proofs"):
                for path in sorted(glob.glob(f"{root}/crates/{crate}/{part}/**/*.*", recursive=True)):
                    if path.endswith((".rt", ".antt")):
                        self.read(crate, os.path.relpath(path, root))
        self.in_code, self.in_proofs = {it: [] for it in self.lines}, {it: [] for it in self.lines}
        self.methods, self.items, self.impls = {}, {}, {}
        for it in (it for found in self.all.values() for it in found):
            into = self.in_proofs if it.path.startswith(f"crates/{it.crate}/proofs/") else self.in_code if it.kind != "proof" else {}
            into.get(it.crate, []).append(it)
            if it.kind in ("method", "function", "item", "trait"):
                (self.methods if it.kind == "method" else self.items).setdefault(it.names[0] if it.names else "", []).append(it)
        for it in (it for found in self.in_code.values() for it in found if it.kind == "impl"):
            self.impls.setdefault(self.key_of(*it.names), []).append(it)

    def key_of(self, type, trait):
        """Returns the name that whoever uses an impl has: its type's, or its trait's if the type is the toolchain's or a parameter."""
        return trait if type not in self.items and trait in self.items else type

    def read(self, crate, path):
        with open(f"{self.root}/{path}", encoding="utf-8") as it:
            text = it.read()
        if path.endswith(".rt"):
            lines = stripped(text, RUST_TOKEN)
            self.all[path], self.imports[path], self.inner[path] = rust_declarations(crate, path, lines)
            self.ghosts[path] = re.findall(r"ghost use ([^;]+);", "\n".join(lines))
        else:
            self.all[path], self.ghosts[path] = proof_declarations(crate, path, stripped(text, PROOF_TOKEN))

    @functools.lru_cache(maxsize=None)
    def below(self, crate):
        """Returns the crate and those below it."""
        return frozenset({crate, *(it for use in self.uses[crate] for it in self.below(use))})

    @functools.lru_cache(maxsize=None)
    def exported(self, path):
        """Returns the declarations of a file below specs/ or proofs/, and those that it passes on, by their names."""
        found = {}
        for it in self.all.get(path, []):
            for name in it.names:
                found.setdefault(name, []).append(it)
        for line in self.ghosts.get(path, []):
            if line.startswith("pub "):
                for module, name, alias in imported(line):
                    found.setdefault(alias, []).extend(self.of_module(module, name)[0])
        return found

    def file_of(self, module):
        """Returns the file of a module Rattle.CRATE.specs.PATH, if it has one."""
        words = module.split(".")
        path = f"crates/{'/'.join(words[1:])}.antt" if len(words) > 2 else ""
        return path if path in self.all else None

    def of_module(self, module, name):
        """Returns the declarations of this name in a module, or all of its own if the name is None, and what the toolchain has of it. A module without a
        file is made of a type or of a function below src/, whose name it has."""
        words = module.split(".")
        if len(words) < 2 or words[1] not in self.lines:
            return [], [f"{module}.{name}"]
        path = self.file_of(module)
        if path:
            return (self.exported(path).get(name, []) if name else []), []
        named = {*words[-2:], name}
        kinds = ("item", "trait") if "declared" in words else ("function", "method", "trait method")
        return [it for it in self.in_code[words[1]] if it.kind in kinds and named.intersection(it.names)], []

    @functools.lru_cache(maxsize=None)
    def scope(self, path):
        """Returns what a file imports for contracts and proofs, by the name that it has here: declarations, what the toolchain has, and modules."""
        found = {}
        for line in self.ghosts.get(path, []):
            for module, name, alias in imported(line):
                declared, outside = self.of_module(module, name)
                for part in parts_of(alias):
                    into = found.setdefault(part, ([], [], []))
                    into[0].extend(declared)
                    into[1].extend(outside)
                    into[2].extend([] if name else [module])
        if path.endswith(".antt"):
            for name, declared in self.exported(path).items():
                for part in parts_of(name):
                    found.setdefault(part, ([], [], []))[0].extend(declared)
        return found

    @functools.lru_cache(maxsize=None)
    def imported_words(self, path):
        """Returns the words of a file's lines 'use', and the names that its own declarations have."""
        own = {name for it in self.all[path] for name in it.names}
        return frozenset({*own, *(word for line in self.imports.get(path, []) for word in re.findall(r"\w+", line))})

    @functools.lru_cache(maxsize=None)
    def renamed(self, path):
        """Returns what a file imports under another name, and the type of each variant that it imports."""
        found = {}
        for line in self.imports.get(path, []):
            found.update({alias: name for name, alias in re.findall(r"(\w+) as (\w+)", line)})
            found.update({word: type for type, words in re.findall(r"\b([A-Z]\w*)::(\{[^}]*\}|\w+)", line) for word in re.findall(r"\w+", words)})
        return found

    @functools.lru_cache(maxsize=None)
    def referred(self, path, text):
        """Returns the declarations that a text in this file names, and what it names of the toolchain."""
        found, outside = {}, set()
        scope = self.scope(path)
        for parts in tokens(text):
            for at, part in enumerate(parts):
                declared, of_kit, modules = scope.get(part, ((), (), ()))
                found.update(dict.fromkeys(declared))
                outside.update(of_kit)
                for module in modules:
                    for name in parts[at + 1 :]:
                        declared, of_kit = self.of_module(module, name)
                        found.update(dict.fromkeys(declared))
                        outside.update(of_kit)
                        module = f"{module}.{name}" if self.file_of(f"{module}.{name}") else module
        if path.endswith(".rt"):
            found.update(dict.fromkeys(self.referred_in_code(path, text)))
        for part, rest in re.findall(r"\b(?:crate|Rattle::\w+)::(proofs|specs)::([\w:\-]+)", text):
            crate, words = path.split("/")[1], rest.split("::")
            for length in range(1, len(words)):
                exported = self.exported(f"crates/{crate}/{part}/{'/'.join(words[:length])}.antt")
                found.update(dict.fromkeys(it for name in words[length:] for it in exported.get(name, [])))
        return list(found), outside

    def referred_in_code(self, path, text):
        plain = re.sub(STRING, '""', text)
        imports, renamed, below = self.imported_words(path), self.renamed(path), self.below(path.split("/")[1])
        for dots, word, call in {*re.findall(r"(::|\.)?(?<!\w)(\w+)(\(|::<)?", plain)}:
            name, found = renamed.get(word, word), []
            if dots == "::" or dots and call:
                found += self.methods.get(name, [])
            if dots == "::" or not dots and word in imports:
                found += self.items.get(name, [])
            found += self.impls.get(name, [])
            yield from (it for it in found if it.crate in below or it.kind == "impl")
