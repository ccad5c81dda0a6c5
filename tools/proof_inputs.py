"""What the refusal of a mutant rests on, as a sum: while it is the same, a check would be given the same texts.

These are the mutant itself, the whole function at which it must be refused and the functions that it changes, the proofs of these, and what all of it names, and
what that names in turn, in the crate and in those below: definitions and lemmas, types, traits and impls. Of another function a proof sees the signature
and the clauses, so its body does not count. The toolchain's release counts, the rule of refusal, and the crate's line of crates.txt; comments do not.
"""

import functools
import glob
import hashlib
import os
import re

from declarations import Crates, indent


def sum_of(it):
    return hashlib.sha256(repr(it).encode()).hexdigest()[:24]


def changed_lines(text, text_of):
    """Yields the file, the text and the line of each 'old:' text of a mutant, as the changes before it left the file."""
    sources, file, old = {}, "", ""
    for line in text.split("\n"):
        word, _, rest = line.partition(": ")
        if word == "file":
            file = rest.strip()
            sources.setdefault(file, text_of(file))
        elif word == "old":
            old, source = rest, sources[file]
            yield file, source, source[: source.index(old)].count("\n")
        elif line.startswith("new:"):
            # A later 'old:' text may be in the file once only after this change. Each text is a line, so no line moves.
            sources[file] = sources[file].replace(old, line[len("new:") :].removeprefix(" "))


def function_around(lines, at):
    """Returns the line and the name of the function whose head or body has this line, as `rt fmt` lays out a function, and whether the body has it."""
    for head in range(at, -1, -1):
        found = re.match(r' *(?:pub(?:\([^)]*\))? )?(?:const )?(?:unsafe )?(?:extern "C" )?fn (\w+)', lines[head])
        if found and (head == at or indent(lines[head]) < indent(lines[at])):
            body = next(it for it in range(head, at + 1) if indent(lines[it]) <= indent(lines[head]) and lines[it].endswith("{") or it == at)
            return head, found[1], body < at
    return at, "", False


class ProofInputs:
    """The sums of the mutants of all crates in a folder."""

    def __init__(self, root, release, rule):
        self.root, self.common, self.crates = root, (release, rule), Crates(root)

    def text(self, path):
        with open(f"{self.root}/{path}", encoding="utf-8") as it:
            return it.read()

    @functools.lru_cache(maxsize=None)
    def seen(self, it, is_whole):
        """Returns what a proof sees of a declaration, or all of it, as a sum, and what that names."""
        text = f"{it.head}\n{it.body}" if is_whole else it.head
        named, outside = self.crates.referred(it.path, text)
        return sum_of((it.path, text, sorted(outside), sorted(self.crates.inner.get(it.path, [])))), [*named, *([it.around] if it.around else [])]

    def functions(self, crate, path):
        """Returns the declarations of a function by its path, as a check prints it."""
        *modules, name = path.split("::")
        for length in range(len(modules), -1, -1):
            files = [f"crates/{crate}/src/{it}.rt" for it in (["/".join(modules[:length])] if length else ["lib", "main"])]
            found = [it for file in files for it in self.crates.all.get(file, []) if name in it.names and it.kind in ("function", "method", "trait method")]
            if found:
                return found
        # A method may stand in another file than its type.
        return [it for it in self.crates.in_code[crate] if name in it.names and it.kind in ("method", "trait method")]

    def changed(self, crate, text):
        """Returns the declarations that a mutant changes, and by its file the text that it puts there."""
        whole, there = [], {}
        for file, source, line in changed_lines(text, lambda it: self.text(f"crates/{crate}/{it}")):
            path = f"crates/{crate}/{file}"
            there.setdefault(path, [])
            lines = source.split("\n")
            name = function_around(lines, line)[1] if file.endswith(".rt") else ""
            changed = lines[line].strip()
            whole += [it for it in self.crates.all.get(path, []) if name in it.names or not name and changed in f"{it.head}\n{it.body}"]
        file = ""
        for line in text.split("\n"):
            if line.startswith("file: "):
                file = f"crates/{crate}/{line[len('file: ') :].strip()}"
            elif line.startswith("new:"):
                there[file].append(line[len("new:") :])
        return whole, there

    @functools.lru_cache(maxsize=None)
    def proofs_of(self, crate, function):
        """Returns the declarations of the function's own proof files."""
        own = f"crates/{crate}/proofs/{function.replace('::', '/')}/"
        return [it for it in self.crates.in_proofs[crate] if it.path.startswith(own)]

    def lemmas(self, crate, name):
        return [it for it in self.crates.in_proofs[crate] if name in it.names]

    def inputs(self, crate, text, function, lemma):
        """Returns the sums of all that the refusal of a mutant of the crate with this text rests on, by declaration."""
        whole, there = self.changed(crate, text)
        whole = {*whole, *self.functions(crate, function)}
        left = [*whole, *self.proofs_of(crate, function), *(self.lemmas(crate, lemma) if lemma else [])]
        for path, texts in there.items():
            left += self.crates.referred(path, "\n".join(texts))[0]
        below, found = self.crates.below(crate), {}
        while left:
            it = left.pop()
            if it not in found and it.crate in below:
                found[it], named = self.seen(it, it in whole)
                left += [other for other in named if other not in found]
        return found

    def sum_of(self, crate, text, function, lemma):
        """Returns the sum for a mutant of a crate with this text, which must be refused at this function, and there at this lemma if it changes a
        definition."""
        root = [it for name in ("lib", "main") for it in self.crates.inner.get(f"crates/{crate}/src/{name}.rt", [])]
        plain = [line for line in text.split("\n") if line.startswith(("file: ", "old: ", "new:", "# function: ", "# lemma: "))]
        return sum_of((self.common, plain, self.crates.lines[crate], root, sorted(self.inputs(crate, text, function, lemma).values())))


def mutants(root):
    """Returns the files of all mutants in a folder, by crate and name."""
    found = sorted(glob.glob(f"{root}/crates/*/must-fail/*.edit"))
    return {f"{it.split('/')[-3]}/{os.path.basename(it)}": it for it in found}
