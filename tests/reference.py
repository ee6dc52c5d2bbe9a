"""The reference, docs/reference: a page for each crate and each C header, made of the sources by `tests/sayings --write`.

A crate's page has its public types and functions as their files have them, with doc comments and clauses; its definitions, which the
clauses cite; and its wrong bodies. A header's page has its comments, and below each what it is about.
"""
import functools
import re
from dataclasses import dataclass

from kit import ROOT

FOLDER = ROOT / "docs/reference"
HEADERS = ROOT / "include"
README = """# Reference

Each page here is made of the sources by `tests/sayings --write`, and the gate compares them. A crate's page shows what is public in it, as
the file has it: the doc comment says what a caller has to know, the clauses what is proved of the body. A clause begins with `ensures`, or
with `requires` if callers have to show it, which is proved of each call in Rattle; then come its name and its text. The names in that text
are definitions, in `specs/` of the crate where the link leads. [RULES.md](../RULES.md) introduces them, and [PROVED.md](../PROVED.md) says
what is taken on trust. *Wrong bodies* were put in place of right ones, and the gate has the checker refuse each at the clause that is
named.

No function ever does anything undefined. Each meets its clauses, and returns; one with `Wait` or `Threads` in its bounds may first wait for
what another thread does.
"""
ITEM = re.compile(r"( *)(pub(?:\([a-z]+\))? )?(?:const |unsafe |extern \"C\" )*(fn|struct|enum|trait|type|const|static|ghost) (?!use)(\w+)")
IMPL = re.compile(r"impl\b(?:<(?:[^<>]|<[^<>]*>)*>)? (.*)")
USE = re.compile(r"^ *ghost use Rattle\.(\w+)\.(specs\.[\w.]+)\.\{([^}]*)\};", re.M)
DEFINED = re.compile(r"(?: *(?:abbrev|unfoldable) pub | *pub (?:record|data) |pub )(\S+)")
# What stands around the declarations of a header.
AROUND = re.compile(r"#(include|ifndef \w+_HP?P?$|define \w+_HP?P?$|ifdef __cplusplus|endif|pragma)|extern \"C\" \{|\}$|$")
CLAUSE = re.compile(r" *(ensures|requires)\b")


# ---- the sources of a crate

@dataclass
class Item:
    """A public type, function or constant: its name, doc comment and text."""

    name: str
    doc: list
    code: list


@dataclass
class Definition:
    """A definition of specs/: its file, and the comment before it."""

    name: str
    path: str
    about: list


def folder_of(crate):
    return ROOT / "crates" / crate


def sources_of(crate):
    return sorted((folder_of(crate) / "src").rglob("*.rt"))


def specs_of(crate):
    return [it for it in sorted((folder_of(crate) / "specs").glob("*.antt")) if it.stem != "Lib"]


def owner_of(line):
    """The type whose own functions an `impl` has; None if they are a trait's, which has them on its page."""
    rest = re.sub(r"<[^<>]*(<[^<>]*>)?[^<>]*>", "", IMPL.match(line)[1].split("{")[0].split(" where ")[0])
    return None if " for " in rest else re.match(r"\w+", rest)[0]


def is_open(lines):
    """Whether braces, brackets and parentheses that begin in these lines go on behind them."""
    text = "".join(lines)
    return any(text.count(begin) > text.count(end) for begin, end in ("{}", "()", "[]"))


def text_of_function(lines):
    """A function's signature and clauses, without its body."""
    code = []
    for line in lines:
        if line.strip() in ("{", "{}"):
            return code
        code.append(line)
        in_clause = any(CLAUSE.match(it) for it in code)
        if line.endswith(";") and not is_open(code):
            return [*code[:-1], line.rstrip(";")]
        if line.endswith(" {") and not in_clause:
            return [*code[:-1], line.removesuffix(" {")]
    return code


def text_of_type(lines):
    """A type, a constant or a trait's value, whole but for private fields."""
    code = []
    for line in lines:
        code.append(line)
        if not is_open(code):
            break
    if code[0].lstrip().startswith("pub struct") and len(code) > 2:
        shown = [it for it in code[1:-1] if it.strip().startswith(("pub ", "///"))]
        code = [code[0], *shown, *(["    .."] if len(shown) < len(code) - 2 else []), code[-1]]
    return code


def items_of(path):
    """What is public in a file."""
    owner, is_trait, doc, found = "", False, [], []
    lines = path.read_text().splitlines()
    for at, line in enumerate(lines):
        begins = ITEM.match(line)
        if line.lstrip().startswith("///"):
            doc.append(line.lstrip()[3:].removeprefix(" "))
            continue
        if line.lstrip().startswith("#["):
            continue
        if IMPL.match(line):
            owner, is_trait = owner_of(line), False
        elif line == "}":
            owner, is_trait = "", False
        elif begins and (begins[2] == "pub " or is_trait) and owner is not None and len(begins[1]) == 4 * bool(owner):
            if begins[3] == "trait":
                owner, is_trait = begins[4], True
                found.append(Item(begins[4], doc, [line.removesuffix(" {")]))
            else:
                text = text_of_function if begins[3] == "fn" else text_of_type
                found.append(Item(f"{owner}::{begins[4]}" if owner else begins[4], doc, text(lines[at:])))
        doc = []
    return found


@functools.lru_cache(maxsize=None)
def definitions_of(crate):
    """The definitions of a crate, by file and name."""
    found = {}
    for path in specs_of(crate):
        about = []
        for line in path.read_text().splitlines():
            defined = DEFINED.match(line)
            if defined:
                found.setdefault((path.stem, defined[1]), Definition(defined[1], f"specs/{path.name}", about))
            about = [*about, line.strip()[2:].strip()] if line.lstrip().startswith("--") else []
    return found


def cited(path, code, crates):
    """The definitions of the repository that a text names: each with its crate."""
    found, words = {}, set(re.findall(r"[\w-]+", "\n".join(code)))
    for crate, module, names in USE.findall(path.read_text()):
        for name in names.split(","):
            there, _, here = name.strip().partition(" as ")
            defined = definitions_of(crate).get((module.split(".")[1], there)) if crate in crates else None
            if defined and (here or there) in words:
                found[here or there] = (crate, defined)
    return found


def about(path):
    """The first sentence of the comment that a file of definitions begins with: empty if it begins with none."""
    comment = re.match(r"(?:-- ?.*\n)*", path.read_text())[0]
    said = " ".join(line[2:].strip() for line in comment.splitlines())
    return re.match(r".*?\.(?= [A-Z`]|$)|", said)[0]


# ---- pages

def anchor(path, name):
    return f"{path.split('/')[-1].removesuffix('.antt')}-{name}".lower()


def dedented(code):
    indent = min(len(it) - len(it.lstrip()) for it in code if it.strip())
    return [it[indent:] for it in code]


def doc_text(doc):
    """A doc comment as text of a page: its headings are no headings there."""
    return [re.sub(r"^#+ (.*)$", r"**\1.**", it) for it in doc]


def item_text(path, item, crate, crates):
    """What a page has of a type or function."""
    lines = ["", f"#### {item.name}", "", *doc_text(item.doc), *([""] if item.doc else []), "```text", *dedented(item.code), "```"]
    links = [f"[`{name}`]({'' if of == crate else f'{of}.md'}#{anchor(it.path, it.name)})"
             for name, (of, it) in sorted(cited(path, item.code, crates).items())]
    return lines + (["", f"Definitions: {', '.join(links)}"] if links else [])


def of_file(path, crate, crates):
    items = items_of(path)
    if not items:
        return []
    intro = [it[3:].removeprefix(" ") for it in path.read_text().splitlines() if it.startswith("//!")]
    name = path.relative_to(folder_of(crate))
    return ["", f"### [{name}](../../crates/{crate}/{name})", "", *intro,
            *(line for item in items for line in item_text(path, item, crate, crates))]


def of_definitions(crate):
    lines = []
    for path in specs_of(crate):
        name = f"specs/{path.name}"
        lines += ["", f"### [{name}](../../crates/{crate}/{name})", "", about(path), ""]
        for it in definitions_of(crate).values():
            if it.path == name:
                told = f": {' '.join(it.about)}" if it.about else ""
                lines.append(f"- <a id=\"{anchor(it.path, it.name)}\"></a>[`{it.name}`](../../crates/{crate}/{name}){told}")
    return ["", "## Definitions", *lines] if lines else []


def of_wrong_bodies(crate):
    lines = []
    for path in sorted((ROOT / "tests/wrong-bodies" / crate).glob("*.edit")):
        function, goal = re.search(r"^refused: (\S+) (\S+)", path.read_text()).groups()
        lines.append(f"- [{path.stem}](../../tests/wrong-bodies/{crate}/{path.name}): `{function}` at `{goal}`")
    return ["", "## Wrong bodies", "", *lines] if lines else []


def crate_page(crate, crates, said_of):
    own = [f"[{it}]({it}.md)" for it in crates[crate].own]
    users = [f"[{it}]({it}.md)" for it in crates if crate in crates[it].own]
    lines = [f"# {crate}", "", *said_of, ""]
    lines += [f"Stands on: {', '.join(own) or 'no other crate'}. Used by: {', '.join(users) or 'no other crate'}."]
    items = [line for path in sources_of(crate) for line in of_file(path, crate, crates)]
    lines += ["", "## Public items", *items] if items else []
    return "\n".join([*lines, *of_definitions(crate), *of_wrong_bodies(crate)]) + "\n"


def intro_of(crate):
    """What a crate says of itself."""
    roots = [folder_of(crate) / "src" / it for it in ("lib.rt", "main.rt")]
    root = next(it for it in roots if it.is_file())
    return [it[3:].removeprefix(" ") for it in root.read_text().splitlines() if it.startswith("//!")]


def comment_text(chunk):
    """The comment that some lines of C begin with, as text, and the lines behind it."""
    if chunk[0].startswith("//"):
        end = next((at for at, it in enumerate(chunk) if not it.startswith("//")), len(chunk))
        return [it[2:].removeprefix(" ") for it in chunk[:end]], chunk[end:]
    end = next((at for at, it in enumerate(chunk) if "*/" in it), len(chunk) - 1) + 1 if chunk[0].startswith("/*") else 0
    said = [re.sub(r"^(/\*+|\s*\*(?!/)) ?|\s*\*/.*$", "", it) for it in chunk[:end]]
    return said[:-1] if said and not said[-1] else said, chunk[end:]


def header_page(path):
    """A header's comments as text, and what stands below each as code."""
    lines = [f"# {path.name}", "", f"`#include <{path.name}>`, from [include/{path.name}](../../include/{path.name})."]
    for chunk in re.split(r"\n\s*\n", path.read_text().strip()):
        said, code = comment_text(chunk.splitlines())
        lines += ["", *said] if said else []
        if not all(AROUND.match(it) for it in code):
            lines += ["", "```c", *code, "```"]
    return "\n".join(lines) + "\n"


def pages(crates):
    """The text of each page, by file."""
    found, said = {}, {name: intro_of(name) for name in crates}
    rows = [f"| [{it}]({it}.md) | {first_sentence(said[it])} |" for it in crates]
    heads = [f"| [{it.name}]({it.name}.md) | {about_header(it)} |" for it in headers()]
    found[FOLDER / "README.md"] = "\n".join([README, "| Crate | |", "|---|---|", *rows, "", "| C header | |", "|---|---|", *heads]) + "\n"
    for it in headers():
        found[FOLDER / f"{it.name}.md"] = header_page(it)
    for name in crates:
        found[FOLDER / f"{name}.md"] = crate_page(name, crates, said[name])
    return found


def headers():
    return sorted([*HEADERS.glob("*.h"), *HEADERS.glob("*.hpp")])


def about_header(path):
    return first_sentence(header_page(path).splitlines()[4:]).removeprefix(f"{path.name}: ")


def first_sentence(lines):
    text = " ".join(lines)
    return (re.match(r".*?\.(?= |$)", text) or [text])[0]


def differences(crates):
    """The pages that aren't what the sources have."""
    due = pages(crates)
    stale = [it for it in FOLDER.glob("*") if it not in due] if FOLDER.is_dir() else []
    return [*(it for it, text in due.items() if not it.is_file() or it.read_text() != text), *stale]


def write(crates):
    """Writes all pages anew."""
    FOLDER.mkdir(exist_ok=True)
    for it in differences(crates):
        it.unlink(missing_ok=True)
    for it, text in pages(crates).items():
        it.write_text(text)
