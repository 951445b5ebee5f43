"""What the scripts of this folder read from the sources: crates, their public calls and laws, and their definitions.

A call is public where a crate's root gives it or its type away by `pub use`. The functions of the public modules `laws`
and `examples` are kept apart: they have no argument, and their clauses are theorems.
"""
import difflib
import re
import sys
from dataclasses import dataclass, field
from pathlib import Path

ROOT = Path(__file__).resolve().parent.parent
NOT_CALLS = ("tests", "look_tests", "laws", "examples")
CALL = re.compile(r"^(?P<indent>(?:    )?)(?P<pub>pub )?fn (?P<name>\w+)", re.M)
BLOCK = re.compile(r"^(?P<pub>pub )?(?P<kind>impl|trait)\b(?:<[^>]*>)? (?P<rest>[^{\n]*)\{$", re.M)
EXPORT = re.compile(r"^pub use (?:crate::)?(?:\w+::)*(?:\{(?P<many>[^}]*)\}|(?P<one>\w+));", re.M)
CLAUSE = re.compile(r"(?:\s|//[^\n]*\n)*(?P<kind>requires|ensures)\b\s*(?P<name>\w+)?\s*\{")
ENUM = re.compile(r"^pub enum (?P<name>\w+)[^{]*\{", re.M)
IMPORT = re.compile(r"^\s*(?:ghost )?use Rattle\.(?P<crate>\w+)\.specs\.(?P<file>\w+)\.\{(?P<names>[^}]*)\}", re.M)
DEFINITION = re.compile(r"^ *(?:abbrev pub|pub (?:data|record)) (?P<name>[^\s:({]+)")
SENTENCE = re.compile(r"(?<=[.?!])\s+(?=[A-Z`\[])")
WORD = re.compile(r"[^\s(){}\[\],;.⟦⟧<>]+")


@dataclass
class Clause:
    """One clause of a contract; the name is empty where it has none. `cites` are definitions, as (crate, file, name)."""
    name: str
    text: str
    cites: set = field(default_factory=set)

    def unchanged(self):
        """What the clause says is as it was before the call."""
        return re.findall(r"\b(\w+)\.new(?:\.items)? ≡ \1\.(?:old|entry)(?:\.items)?(?![\w.]| \+\+)", self.text)

    def refusal(self):
        """The answer for which it holds, where that is a refusal."""
        forms = {r"^OnErr ": "A refusal", r"^IfNone ": "`None`", r"^OnFalse |result ≡ false": "`false`", r"^OnNoToken ": "No token"}
        for form, answer in forms.items():
            if re.search(form, self.text):
                return answer
        named = re.match(r"(?:\([^)]*\) → )?result ≡ (?:Err \()?\w+\.(\w+)[^→⊎]* → [^→⊎]*$", self.text)
        return f"`{named[1]}`" if named else ""

    def is_of_an_earlier_refusal(self):
        """Whether it is about calls behind one that refused."""
        return re.search(r"(old|entry)\.(refused ≡ Some|answer)", self.text) is not None


@dataclass
class Call:
    """A public call, of the file at `path` in src/. `owner` is its type, its trait or its module, and may be empty."""
    path: Path
    owner: str
    name: str
    signature: str
    comment: str
    conditions: list
    clauses: list

    def full_name(self):
        return f"{self.owner}::{self.name}" if self.owner else self.name


@dataclass
class Definition:
    file: str
    name: str
    comment: str
    cites: set


def crates():
    """The crates, in the order of crates.txt."""
    lines = (ROOT / "crates.txt").read_text().splitlines()
    return [line.split(":")[0].split()[0] for line in lines if line and not line.startswith("#")]


def first_sentence(comment):
    return SENTENCE.split(comment.strip())[0]


def root_of(crate):
    """The text of a crate's root, or nothing."""
    for name in ("lib.rt", "main.rt"):
        path = ROOT / "crates" / crate / "src" / name
        if path.exists():
            return path.read_text()
    return ""


def purpose(crate):
    """The first sentence of the comment at the head of a crate's root."""
    lines = [line[3:].strip() for line in root_of(crate).splitlines() if line.startswith("//!")]
    return first_sentence(" ".join(lines))


def sources(crate):
    """The texts of a crate's code, by the path inside src/."""
    folder = ROOT / "crates" / crate / "src"
    return {path.relative_to(folder): path.read_text() for path in sorted(folder.rglob("*.rt"))}


def exported(crate):
    """The names that a crate's root gives away."""
    names = set()
    for match in EXPORT.finditer(root_of(crate)):
        names |= {name.strip() for name in (match["many"] or match["one"]).split(",")}
    return names - {""}


def imports(text):
    """The definitions that a text names, as (crate, file, name), by the name."""
    found = {}
    for match in IMPORT.finditer(text):
        for name in match["names"].split(","):
            found[name.strip()] = (match["crate"], match["file"], name.strip())
    return found


def comment_before(text, at):
    """The first paragraph of the doc comment that stands right before a place of the text, as one line."""
    lines = []
    for line in reversed(text[:at].splitlines()):
        line = line.strip()
        if line.startswith("///"):
            lines.insert(0, line[3:].strip())
        elif not line.startswith("#["):
            break
    paragraph = " ".join("\n".join(lines).split("\n\n")[0].split())
    return re.sub(r"\[(`[^`]*`|[^\]]*)\](?:\([^)]*\))?", r"\1", paragraph)


def closing(text, at):
    """The place behind the bracket that closes the one at this place. Brackets in strings and comments do not count."""
    depth = 0
    for match in re.finditer(r'"(?:[^"\\]|\\.)*"|//[^\n]*|[(\[{]|[)\]}]', text[at:]):
        if match[0] in "([{":
            depth += 1
        elif match[0] in ")]}":
            depth -= 1
            if depth == 0:
                return at + match.end()
    return len(text)


def end_of_signature(text, at):
    """The place behind a signature: where its contract, its body or its end begins."""
    while match := re.compile(r"[(\[]|\b(?:requires|ensures)\b|//|[{;]").search(text, at):
        if match[0] not in "([":
            return match.start()
        at = closing(text, match.start())
    return len(text)


def contract(text, at, names):
    """The conditions and the clauses that begin at a place of the text."""
    kept = {"requires": [], "ensures": []}
    while match := CLAUSE.match(text, at):
        at = closing(text, match.end() - 1)
        said = " ".join(text[match.end():at - 1].split())
        cites = {names[word] for word in WORD.findall(said) if word in names}
        kept[match["kind"]].append(Clause(match["name"] or "", said, cites))
    return kept["requires"], kept["ensures"]


def read_call(path, owner, text, match, names):
    begin = match.start() + len(match["indent"])
    end = end_of_signature(text, begin)
    signature = " ".join(text[begin:end].split()).removeprefix("pub ").replace("( ", "(").replace(", )", ")")
    return Call(path, owner, match["name"], signature, comment_before(text, match.start()), *contract(text, end, names))


def calls(crate):
    """Each public call of a crate."""
    shown = exported(crate)
    for path, text in sources(crate).items():
        if path.stem not in NOT_CALLS:
            yield from calls_of(path, text, shown)


def calls_of(path, text, shown):
    """The public calls of one file: of the types and traits that are shown, and functions that are."""
    blocks = [(match.start(), closing(text, match.end() - 1), match) for match in BLOCK.finditer(text)]
    names = imports(text)
    for match in CALL.finditer(text):
        block = next((block for begin, end, block in blocks if begin < match.start() < end), None)
        if block is None:
            if match["pub"] and match["name"] in shown:
                yield read_call(path, "", text, match, names)
            continue
        owner = re.split(r"[<:\s]", block["rest"].strip())[0]
        is_public = match["pub"] or block["kind"] == "trait"
        if is_public and owner in shown and " for " not in block["rest"]:
            yield read_call(path, owner, text, match, names)


def laws(crate):
    """Each public law and example of a crate."""
    for path, text in sources(crate).items():
        if path.stem in ("laws", "examples") and f"pub mod {path.stem};" in root_of(crate):
            for match in CALL.finditer(text):
                if match["pub"]:
                    yield read_call(path, path.stem, text, match, imports(text))


def named_in_library():
    """The words of docs/LIBRARY.md: a call is for programs of one's own where its type, or itself, is one of them."""
    return set(re.findall(r"\w+", (ROOT / "docs" / "LIBRARY.md").read_text()))


def enums(crate):
    """The variants of each public enum of a crate, by its name."""
    shown, found = exported(crate), {}
    for text in sources(crate).values():
        for match in ENUM.finditer(text):
            if match["name"] in shown:
                body = text[match.end():closing(text, match.end() - 1) - 1]
                found[match["name"]] = re.findall(r"^    (\w+)(?=[,({ ]|$)", body, re.M)
    return found


def marked(lines):
    """What some lines of a comment of a definition say, as one line."""
    return " ".join(" ".join(line.strip()[2:].strip() for line in lines).split())


def definition_files(crate):
    """The texts of the files of a crate's specs/, by their names."""
    paths = sorted((ROOT / "crates" / crate / "specs").glob("*.antt"))
    return {path.stem: path.read_text() for path in paths}


def definitions(crate):
    """Each definition of a crate's specs/, with its comment and the definitions that it names."""
    for file, text in definition_files(crate).items():
        lines = text.splitlines()
        starts = [at for at, line in enumerate(lines) if DEFINITION.match(line)]
        names = imports(text) | {DEFINITION.match(lines[at])["name"]: None for at in starts}
        for at, end in zip(starts, starts[1:] + [len(lines)]):
            name = DEFINITION.match(lines[at])["name"]
            above = at
            while above > 0 and re.match(r"\s*--(?! ----)", lines[above - 1]):
                above -= 1
            body = "\n".join(line for line in lines[at:end] if not line.strip().startswith("--"))
            words = {word for word in WORD.findall(body) if word in names and word != name}
            cites = {names[word] or (crate, file, word) for word in words}
            yield Definition(file, name, marked(lines[above:at]), cites)


def write_or_check(path, text, words):
    """Writes a page, or with `--check` tells where it differs from what would be written; the status of that."""
    if words not in ([], ["--check"]):
        sys.exit(f"usage: {sys.argv[0]} [--check]")
    if not words:
        path.write_text(text)
        return 0
    there = path.read_text() if path.exists() else ""
    changes = list(difflib.unified_diff(there.splitlines(), text.splitlines(), path.name, "the sources", lineterm="", n=0))
    print("\n".join(changes + [f"{path.name}: {'differs from' if changes else 'is'} what the sources say"]))
    return 1 if changes else 0
