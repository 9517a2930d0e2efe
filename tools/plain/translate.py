"""Makes plain Rust of Rattle's sources: no contracts, no ghost items, no attributes of proofs, one crate for all.

Each crate becomes a module, and the kit's std and crates become modules of kit.rs. Paths that begin with ::std stay as they are.
"""
import re
from pathlib import Path

WORD = re.compile(r"[A-Za-z_][A-Za-z0-9_]*")
LIFETIME = re.compile(r"'[A-Za-z_][A-Za-z0-9_]*(?!')")
CHAR = re.compile(r"b?'(\\.[^']*|[^\\'])'")
STRING = re.compile(r'b?"(\\.|[^"\\])*"', re.S)
COMMENT = re.compile(r"//[^\n]*")
SPACE = re.compile(r"\s+")
NUMBER = re.compile(r"[0-9][A-Za-z0-9_]*")
PIECES = [COMMENT, STRING, CHAR, LIFETIME, WORD, NUMBER, SPACE]
KEPT_ATTRIBUTES = re.compile(r"#\[(derive|cfg|inline)\b")
PLAIN_DERIVES = {"Clone", "Copy", "Debug", "Default", "Eq", "Hash", "Ord", "PartialEq", "PartialOrd"}
LEFT_OUT = {"line_text": ("told", "told_laws", "told_lines")}  # modules that tell of refused texts, which no planner does
SORTS = {"sort_unstable", "sort_unstable_by", "sort_unstable_by_key"}


def end_of_braces(text, at):
    """The place behind the brace that closes the one at `at`."""
    depth = 0
    while True:
        if text[at] == "{":
            depth += 1
        elif text[at] == "}":
            depth -= 1
            if depth == 0:
                return at + 1
        at += 1


def end_of_clause(text, at):
    """The place behind a `requires` or `ensures`, which has a name perhaps."""
    return end_of_braces(text, text.index("{", at))


def end_of_ghost(text, at):
    """The place behind a ghost item, field or parameter: its `;` or `,`, or before a closing bracket."""
    while text[at] not in ";,)}":
        at = end_of_braces(text, at) if text[at] == "{" else at + 1
    return at + 1 if text[at] in ";," else at


def end_of_attribute(text, at):
    """The place behind the bracket that closes an attribute."""
    depth = 0
    while True:
        piece = STRING.match(text, at)
        if piece:
            at = piece.end()
            continue
        depth += {"[": 1, "]": -1}.get(text[at], 0)
        at += 1
        if depth == 0 and text[at - 1] == "]":
            return at


def stripped(text):
    """The text without contracts, ghosts, comments and the attributes of proofs, as a list of its words."""
    out, at = [], 0
    while at < len(text):
        word, after = next_piece(text, at)
        if word in ("requires", "ensures"):
            after = end_of_clause(text, after)
        elif word == "ghost":
            after = end_of_ghost(text, after)
            drop_pub(out)
        elif word.startswith(("#[", "#![")):
            out.append(plain_attribute(word))
        elif not word.startswith("//"):
            out.append(word)
        at = after
    return out


def next_piece(text, at):
    """The word, space, comment, attribute or mark at the place, and the place behind it."""
    if text.startswith(("#[", "#!["), at):
        end = end_of_attribute(text, at)
        return text[at:end], end
    for pattern in PIECES:
        piece = pattern.match(text, at)
        if piece:
            return piece.group(), piece.end()
    return text[at], at + 1


def drop_pub(out):
    """Drops the `pub` that stood before a ghost."""
    if len(out) > 1 and out[-2] == "pub" and out[-1].isspace():
        del out[-2:]


def plain_attribute(text):
    """The attribute without derives that Rust lacks, or nothing where Rust lacks the attribute."""
    if not KEPT_ATTRIBUTES.match(text):
        return ""
    if not text.startswith("#[derive"):
        return text
    kept = [name for name in WORD.findall(text[len("#[derive"):]) if name in PLAIN_DERIVES]
    return f"#[derive({', '.join(kept)})]" if kept else ""


def crates_of(top, root):
    """The repository's crates that `root` stands on, itself among them, and the kit's that they name."""
    lines = (line.split("#")[0] for line in (top / "crates.txt").read_text().splitlines())
    named = dict(line.split(":") for line in lines if ":" in line)
    uses = {name.split()[0]: below.split() for name, below in named.items()}
    own, of_kit, pending = set(), set(), [root]
    while pending:
        name = pending.pop()
        if name in uses and name not in own:
            own.add(name)
            pending += uses[name]
        elif name not in uses:
            of_kit.add(name)
    return own, of_kit


def comes_after(out, place, mark):
    """Whether the words before the place are this mark."""
    return "".join(out[max(0, place - len(mark)):place]) == mark


def renamed(out, crate, own, of_kit):
    """The words with paths that lead through one crate, in which each crate is a module."""
    modules = {name: f"crate::{name}" for name in own}
    modules |= {name: f"crate::kit::{name}" for name in of_kit | {"std", "core"}}
    modules["crate"] = f"crate::{crate}"
    return [new_word(out, place, modules) for place in range(len(out))]


def new_word(out, place, modules):
    word = out[place]
    if word in modules and out[place + 1:place + 3] == [":", ":"] and not comes_after(out, place, "::"):
        return modules[word]
    if word in SORTS and comes_after(out, place, "."):
        return f"kit_{word}"
    if word == "unwrap" and comes_after(out, place, "."):
        return "kit_unwrap"
    if word == "vec" and out[place + 1:place + 2] == ["!"] and not comes_after(out, place, "::"):
        return "kit_vec"
    return word


def translated(text, crate, own, of_kit):
    body = "".join(renamed(stripped(text), crate, own, of_kit))
    return "use crate::kit::prelude::*;\n" + re.sub(r"\n\s*\n+", "\n", body)


def without_modules(text, left_out):
    """The head of a crate without these modules and what it hands on of them."""
    for name in left_out:
        text = re.sub(rf"^(pub )?(mod {name}|use {name}::[^;]*);\n", "", text, flags=re.M)
    return text


def translate(top, root):
    """The files of plain Rust, by their paths, that stand for the crate `root` of the repository at `top`."""
    own, of_kit = crates_of(top, root)
    files = {"crates.rs": "".join(f'#[path = "{name}/mod.rs"]\npub mod {name};\n' for name in sorted(own))}
    for crate in sorted(own):
        folder = top / "crates" / crate / "src"
        left_out = LEFT_OUT.get(crate, ())
        for path in sorted(path for path in folder.rglob("*.rt") if path.stem not in left_out):
            name = "mod" if path.name == "lib.rt" else str(path.relative_to(folder).with_suffix(""))
            files[f"{crate}/{name}.rs"] = translated(without_modules(path.read_text(), left_out), crate, own, of_kit)
    return files
