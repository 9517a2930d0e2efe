"""The texts that a cell of a table stands for: crates/many_texts/README.md and tests/README.md tell how one is written."""

import pathlib
import re

ROOT = pathlib.Path(__file__).resolve().parent.parent
FOLDERS = [ROOT / "crates/many_texts/rows", ROOT / "examples", ROOT / "examples/small", ROOT / "examples/tutorial", ROOT / "bench/instances", ROOT / "tests/texts"]
TOKEN = re.compile(r"\((?P<inner>[^()]*)\)|\\x(?P<byte>[0-9a-f]{2})|\\(?P<escape>[nrt\\])|(?P<plain>[^()\\]+)")
NAMED = re.compile(r"(?P<name>[a-z0-9-]+(\.[a-z]+)?)(: *(?P<edits>.*))?")
REPEATED = re.compile(r"(?P<text>.+) \* (?P<many>\d+)")
NUMBER = b"<n>"  # in a text that stands many times its number, from 0
ESCAPES = {"n": b"\n", "r": b"\r", "t": b"\t", "\\": b"\\"}


class Wrong(Exception):
    """What is wrong with a row."""


class Texts:
    """What names in parentheses stand for: a file of one of the folders, or a text that a table gives a name."""

    def __init__(self, names=None):
        self.names = {} if names is None else names

    def edited(self, text, edits):
        """A text with pieces replaced, each of which stands in it once."""
        for edit in edits.split(";"):
            old, arrow, new = edit.partition("=>")
            old = self.bytes_of(old.strip())
            if not arrow or text.count(old) != 1:
                raise Wrong(f"{old!r} stands {text.count(old)} times")
            text = text.replace(old, self.bytes_of(new.strip()))
        return text

    def of_name(self, name):
        """The text of a name."""
        if name in self.names:
            return self.names[name]
        files = [folder / name for folder in FOLDERS if (folder / name).is_file()]
        if len(files) != 1:
            raise Wrong(f"{name} is in {len(files)} folders")
        return files[0].read_bytes()

    def text_of(self, inner):
        """What parentheses stand for: nothing, a name's text, the same with pieces replaced, or a text many times, with numbers in it."""
        if named := NAMED.fullmatch(inner):
            text = self.of_name(named["name"])
            return self.edited(text, named["edits"]) if named["edits"] else text
        if repeated := REPEATED.fullmatch(inner):
            text, many = self.bytes_of(repeated["text"]), int(repeated["many"])
            return b"".join(text.replace(NUMBER, b"%d" % number) for number in range(many)) if NUMBER in text else text * many
        if inner:
            raise Wrong(f"({inner}) is no text")
        return b""

    def bytes_of(self, cell):
        """The bytes that a cell stands for."""
        out, at = b"", 0
        while at < len(cell):
            token = TOKEN.match(cell, at)
            if not token:
                raise Wrong(f"{cell[at:]!r} can't be read")
            at = token.end()
            if token["inner"] is not None:
                out += self.text_of(token["inner"])
            elif token["byte"]:
                out += bytes([int(token["byte"], 16)])
            else:
                out += ESCAPES[token["escape"]] if token["escape"] else token["plain"].encode()
        return out
