"""What tools/addslice reads of the .rt sources: the functions of a file, with their parameters, contract and body."""
import dataclasses
import glob
import re

BRACKETS = {"(": ")", "[": "]", "{": "}", "⟦": "⟧"}
COMMENT_OR_LITERAL = re.compile(r"//[^\n]*|b?\"(?:[^\"\\]|\\.)*\"|b?'(?:[^'\\\n]|\\[^\n]+?)'", re.S)
FUNCTION = re.compile(r"\bfn\s+(\w+)\s*(?:<[^>]*>)?\s*\(")
CLAUSE = re.compile(r"\s*(?:requires|ensures|ghost)\b")
SIGNATURE_ENDS = re.compile(r"\b(?:requires|ensures|ghost)\b|[{;]")
USE = re.compile(r"^\s*(?:pub )?use ([^;]+);", re.M)
MUTABLE_SLICE = re.compile(r"&(?:'\w+ )?mut \[")


@dataclasses.dataclass(eq=False)
class Parameter:
    name: str
    type: str

    def is_slice(self):
        return "[" in self.type

    def is_mutable_slice(self):
        return MUTABLE_SLICE.search(self.type) is not None


@dataclasses.dataclass(eq=False)
class Function:
    """A function of a file. The places are offsets in the file's text."""
    crate: str
    path: str
    name: str
    parameters: list
    parameters_at: tuple
    contract_at: tuple
    body_at: tuple

    def names(self):
        return [parameter.name for parameter in self.parameters]

    def parameter(self, name):
        return next((parameter for parameter in self.parameters if parameter.name == name), None)

    def place(self, name):
        return self.names().index(name)


def code_of(text):
    """The text with blanks for comments and zeros for literals, so that every bracket and comma is one: each place stays where it is."""
    def blank(match):
        return re.sub(r"[^\n]", " " if match.group(0).startswith("//") else "0", match.group(0))

    return COMMENT_OR_LITERAL.sub(blank, text)


def after_bracket(code, start):
    """The place after the bracket that closes the one at start."""
    awaited = []
    for at in range(start, len(code)):
        if code[at] in BRACKETS:
            awaited.append(BRACKETS[code[at]])
        elif code[at] == awaited[-1]:
            awaited.pop()
            if not awaited:
                return at + 1
    raise ValueError(f"a bracket stays open: {code[start:start + 60]}")


def comma_parts(code):
    """The parts between the commas that are in no bracket, each as (start, end)."""
    parts = []
    start = at = 0
    while at < len(code):
        if code[at] in BRACKETS:
            at = after_bracket(code, at)
            continue
        if code[at] == ",":
            parts.append((start, at))
            start = at + 1
        at += 1
    if code[start:].strip():
        parts.append((start, len(code)))
    return parts


def parameter(code):
    name, _, type_ = code.partition(":")
    return Parameter(name.replace("mut ", "").strip(), type_.strip())


def crate_of(path):
    """The crate of a path that has `crates/NAME/` in it."""
    return re.search(r"(?:^|/)crates/([^/]+)/", path).group(1)


def after_contract(code, at):
    """The place after the result's type and the clauses that stand behind a function's parameters."""
    while not SIGNATURE_ENDS.match(code, at):
        at = after_bracket(code, at) if code[at] in BRACKETS else at + 1
    while clause := CLAUSE.match(code, at):
        at = after_bracket(code, code.index("{", clause.end()))
    return at


def functions(path, code):
    """The functions of a file, in its order."""
    found = []
    for match in FUNCTION.finditer(code):
        inside = match.end()
        end = after_bracket(code, inside - 1)
        parameters = [parameter(code[inside:end - 1][slice(*part)]) for part in comma_parts(code[inside:end - 1])]
        at = after_contract(code, end)
        body = re.compile(r"\s*\{").match(code, at)
        body_at = (body.end() - 1, after_bracket(code, body.end() - 1)) if body else (at, at)
        found.append(Function(crate_of(path), path, match.group(1), parameters, (inside, end - 1), (end, at), body_at))
    return found


def use_paths(tree):
    """The paths of a `use`, one for each name in its braces."""
    if "{" not in tree:
        return [tree.strip()]
    start = tree.index("{")
    inner = tree[start + 1:after_bracket(tree, start) - 1]
    return [tree[:start].strip() + path for part in comma_parts(inner) for path in use_paths(inner[slice(*part)])]


def names_used(code, crate):
    """What each name stands for that a file takes from elsewhere by `use`: the crate, and the name there."""
    found = {}
    for tree in USE.findall(code):
        for path in use_paths(tree):
            path, _, other = path.partition(" as ")
            first, *_, name = path.split("::")
            found[other or name] = (crate if first == "crate" else first, name)
    return found


class Sources:
    """The texts of all sources by path, what code there is in them, and their functions. A name may stand for other functions in other crates."""

    def __init__(self, texts):
        self.texts = texts
        self.code = {path: code_of(text) for path, text in texts.items()}
        self.functions = [function for path, code in self.code.items() for function in functions(path, code)]
        self.by_name = {(function.crate, function.name): function for function in self.functions}
        self.used = {path: names_used(code, crate_of(path)) for path, code in self.code.items()}

    def named(self, function, name):
        """The function that a name, with or without its path, stands for in the file of another."""
        *before, last = name.split("::")
        if before and before[0] != "crate":
            return self.by_name.get((before[0], last))
        own = (function.crate, last)
        return self.by_name.get(self.used[function.path].get(last, own)) or self.by_name.get(own)

    def in_file(self, path):
        return [function for function in self.functions if function.path == path]


def read_sources():
    """The text of every source, by its path from the root."""
    return {path: read(path) for path in sorted(glob.glob("crates/*/src/**/*.rt", recursive=True))}


def read(path):
    with open(path, encoding="utf-8") as file:
        return file.read()


def write(path, text):
    with open(path, "w", encoding="utf-8") as file:
        file.write(text)
