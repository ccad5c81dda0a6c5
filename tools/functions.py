"""The functions of a crate, read from its sources as `rt fmt` lays them out."""
import glob
import os
import re

CRATES = f"{os.path.dirname(os.path.dirname(os.path.realpath(__file__)))}/crates"

HEAD = re.compile(r'(?P<indent>(?:    )?)(?P<visible>pub(?:\([^)]*\))? )?(?:unsafe )?(?:const )?(?:extern "C" )?fn (?P<name>\w+)')


class Owner:
    """An `impl` block: the type and, if it is of a trait, the trait."""

    def __init__(self, text):
        head = re.sub(r"\s+", " ", text[: text.index("{")])
        parameters, trait, self.type = re.fullmatch(r"impl(<(?:[^<>]|<[^<>]*>)*>)? (?:(.*) for )?(.*?)(?: where .*)? ?", head).groups()
        own = re.findall(r"[<,] ?(?:const )?(\w+)", re.sub(r":[^,]*", "", parameters or ""))
        self.name = (in_capitals(self.type, own) or "Any") + in_capitals(trait or "", own)
        self.is_of_trait = bool(trait)
        self.states = bool(re.search(r"\b(ghost|ensures)\b", text))


def in_capitals(text, parameters):
    """Returns a type or a trait as a path has it, without type parameters: `From<Vec<Change>>` is FromVecChange."""
    text = re.sub(r"^(\w+::)+|'\w+", "", text)
    text = re.sub(r"\(([^()]*)\)", lambda it: f"Tuple{it[1].count(',') + 1} {it[1]}", text)
    return "".join(it[0].upper() + it[1:] for it in re.findall(r"\w+", text) if it not in parameters)


class Function:
    """A function with a body. Its path is what a check prints, without the crate."""

    def __init__(self, module, owner, head, text, imported):
        self.module, self.owner, self.imported = module, owner, imported
        self.name, self.is_public = head["name"], head["visible"] == "pub "
        self.is_of_trait = bool(owner and owner.is_of_trait)
        self.is_law = module[:1] == ["laws"]
        self.block = "::".join([*module, *([owner.name] if owner else [])])
        self.path = f"{self.block}::{self.name}" if self.block else self.name
        self.body = text.partition("{\n" if "{\n" in text else " {")[2]

    def calls(self, other):
        """Whether its body names the other function of the crate."""
        if other.owner:
            return bool(re.search(rf"(\.|\b(Self|{other.owner.name})(::<.*?>)?::){other.name}\b", self.body))
        is_in_scope = self.module == other.module or other.name in self.imported or f"{other.module[-1]}::{other.name}" in self.body
        return is_in_scope and bool(re.search(rf"(?<![\w.]){other.name}\b", self.body))


def block_at(lines, at, indent=""):
    """Returns the text of the block that begins at a line with this indent."""
    end = next(it for it in range(at, len(lines)) if re.match(rf"{indent}(\S.*)?\}}$", lines[it]))
    return "\n".join(lines[at : end + 1])


def functions_in(text, module, homes):
    """Yields the functions of a source file, but for those of traits. A method's path has the module of its type, by `homes`."""
    imported = set(re.findall(r"\w+", " ".join(re.findall(r"(?m)^use [^;]*;", text))))
    lines, owner = text.split("\n"), None
    for at, line in enumerate(lines):
        if re.match(r"(pub )?(impl|trait)\b", line):
            owner = Owner(block_at(lines, at)) if line.startswith("impl") else None
        head = HEAD.match(line)
        if head and not head["indent"]:
            yield Function(module, None, head, block_at(lines, at), imported)
        elif head and owner:
            home = module if owner.is_of_trait else homes.get(owner.name, module)
            yield Function(home, owner, head, block_at(lines, at, head["indent"]), imported)


def functions_of(crate):
    """Returns the functions of a crate."""
    folder, texts, homes = f"{CRATES}/{crate}/src", [], {}
    for file in sorted(glob.glob(f"{folder}/**/*.rt", recursive=True)):
        module = [it for it in os.path.relpath(file, folder).removesuffix(".rt").split("/") if it not in ("lib", "main")]
        with open(file, encoding="utf-8") as it:
            texts.append((it.read(), module))
        homes.update((name, module) for name in re.findall(r"(?m)^(?:pub(?:\([^)]*\))? )?(?:struct|enum) (\w+)", texts[-1][0]))
    return [it for text, module in texts for it in functions_in(text, module, homes)]
