"""The functions of a source file, each with the name that the checker gives it.

A file in the layout of `rt fmt` is read by its indentation: what begins at one column ends with a brace at that column.
"""
import dataclasses
import pathlib
import re

ITEM = re.compile(r"( *)(?:#\[.*\] *)?(?:pub(?:\([\w:]+\))? |default |const |unsafe |extern \"C\" )*(fn|impl|trait|mod)\b(.*)")


@dataclasses.dataclass(frozen=True)
class Function:
    """A function, by its path below the crate, and where its text begins and ends, by characters and by lines. Its attributes above it,
    one a line, belong to it: the checker may note a goal there."""
    path: str
    start: int
    end: int
    lines: range


def module_of(file):
    """The path of the module that stands in a file, which is named from the crate's folder: '' for the crate's root."""
    parts = pathlib.PurePosixPath(file).with_suffix("").parts[1:]
    return "::".join(it for it in parts if it not in ("lib", "main", "mod"))


def parts_of(text):
    """The parts of a text between the commas that stand in no brackets."""
    parts, depth = [""], 0
    for letter in text:
        depth += (letter in "<([") - (letter in ">)]")
        if letter == "," and depth == 0:
            parts.append("")
        else:
            parts[-1] += letter
    return [it.strip() for it in parts]


def type_name(text, parameters):
    """What a type adds to a name: its own name and those of its arguments, but for lifetimes and the block's parameters."""
    path, _, arguments = text.strip().lstrip("&").partition("<")
    own = (re.findall(r"\w+", path) or [""])[-1]
    if own in parameters:
        return "Any"
    kept = [it for it in parts_of(arguments.strip().removesuffix(">")) if it and not it.startswith("'") and it not in parameters]
    names = [own, *(type_name(it, parameters) for it in kept)]
    return "".join(it[:1].upper() + it[1:] for it in names)


def block_name(kind, header):
    """What a block adds to the names of its functions: an `impl` the type and the trait, any other block its own name."""
    header = header.partition("{")[0].partition(" where")[0].strip()
    if kind != "impl":
        return re.match(r"\w+", header)[0]
    parameters = []
    if header.startswith("<"):
        depth = 0
        for end, letter in enumerate(header.replace("->", "  ")):
            depth += (letter == "<") - (letter == ">")
            if depth == 0:
                break
        parameters = [it.removeprefix("const ").partition(":")[0].strip() for it in parts_of(header[1:end])]
        header = header[end + 1:]
    trait, is_of_trait, of_type = header.partition(" for ")
    return type_name(of_type, parameters) + type_name(trait, parameters) if is_of_trait else type_name(header, parameters)


def end_of(lines, first, indent):
    """The line with which an item ends. One with no body ends with a semicolon, behind its clauses."""
    has_body = False
    for at in range(first, len(lines)):
        line = lines[at]
        if line in (indent + "}", indent + "{}") or at == first and re.search(r"\{.*\}$", line):
            return at
        inner = len(line) - len(line.lstrip()) - len(indent)
        has_body = has_body or inner == 0 and line.endswith("{")
        if not has_body and inner <= 4 and line.endswith(";"):
            return at
    return len(lines) - 1


def first_of(lines, at, indent):
    """The line with which an item begins whose keyword stands in this one."""
    while at > 0 and lines[at - 1].startswith(indent + "#["):
        at -= 1
    return at


def header_of(lines, first):
    """The text from a line to the first brace."""
    text = ""
    for line in lines[first:]:
        text += line + " "
        if "{" in line:
            break
    return text


def types_of(folder):
    """The modules in which the types of a crate are declared, by the types' names."""
    found = {}
    for path in sorted((folder / "src").rglob("*.rt")):
        for name in re.findall(r"^(?:pub(?:\([\w:]+\))? )?(?:struct|enum) (\w+)", path.read_text(), re.M):
            found.setdefault(name, []).append(module_of(path.relative_to(folder)))
    return found


def home_of(blocks, module, types):
    """The module after which a function in these blocks is named: that of its type, if just one is declared under the name."""
    homes = types.get(blocks[-1], []) if blocks else []
    return homes[0] if len(homes) == 1 else module


def functions_of(text, module, types=None):
    """The functions of a text, those within others left out. The methods of a type that is declared elsewhere are named after its place."""
    types = types or {}
    lines = text.split("\n")
    starts = [0]
    for line in lines:
        starts.append(starts[-1] + len(line) + 1)
    found, at, blocks = [], 0, []
    while at < len(lines):
        while blocks and at > blocks[-1][1]:
            blocks.pop()
        item = ITEM.fullmatch(lines[at])
        if item:
            indent, kind, rest = item.groups()
            last = end_of(lines, at, indent)
            if kind == "fn":
                blocks_here = [it for it, _ in blocks]
                names = [home_of(blocks_here, module, types), *blocks_here, re.match(r"\s*(\w+)", rest)[1]]
                first = first_of(lines, at, indent)
                found.append(Function("::".join(filter(None, names)), starts[first], starts[last + 1], range(first + 1, last + 2)))
                at = last
            elif last > at:
                header = header_of(lines, at).split(kind, 1)[1]
                blocks.append((block_name(kind, header), last))
        at += 1
    return found
