"""Reads a camera's description, a zip file or XML, into its nodes (GenICam GenApi, the file of RegisterDescription). It comes from
a device, so nothing in it is trusted: how large it gets is bounded, and entities, which can grow without bound, are refused."""

import io
import re
import sys
import zipfile
import zlib
from xml.parsers import expat

from refusal import Refused

MOST_BYTES = 32 << 20
MOST_ELEMENTS = 500_000
MOST_DEPTH = 64

# A node's name is one of a C program, which is also safe to print.
NAME = re.compile(r"[A-Za-z_][A-Za-z0-9_.]{0,199}", re.ASCII)


class Element:
    """An element of the description: its kind without a namespace, its attributes, the elements in it, and its text."""

    __slots__ = ("kind", "attributes", "parts", "pieces", "parent")

    def __init__(self, kind, attributes, parent):
        self.kind, self.attributes, self.parent = kind, attributes, parent
        self.parts, self.pieces = [], []

    @property
    def name(self):
        return self.attributes.get("Name", f"a {self.kind} without a name")

    @property
    def text(self):
        return "".join(self.pieces).strip()

    def all(self, *kinds):
        return [it for it in self.parts if it.kind in kinds]

    def first(self, *kinds):
        return next((it for it in self.parts if it.kind in kinds), None)

    def says(self, kind):
        """The text of the first element of this kind, or None."""
        found = self.first(kind)
        return None if found is None else found.text


class Builder:
    """Makes the elements from what the parser tells."""

    def __init__(self):
        self.root, self.open, self.count = None, [], 0
        self.parser = expat.ParserCreate(namespace_separator=" ")
        self.parser.buffer_text = True
        self.parser.StartElementHandler = self.begins
        self.parser.EndElementHandler = self.ends
        self.parser.CharacterDataHandler = self.tells
        self.parser.StartDoctypeDeclHandler = self.refuses
        self.parser.EntityDeclHandler = self.refuses

    def begins(self, kind, attributes):
        self.count += 1
        if self.count > MOST_ELEMENTS or len(self.open) >= MOST_DEPTH:
            raise Refused(f"the description has more than {MOST_ELEMENTS} elements, or more than {MOST_DEPTH} within each other")
        parent = self.open[-1] if self.open else None
        element = Element(kind.rsplit(" ", 1)[-1], attributes, parent)
        if parent:
            parent.parts.append(element)
        else:
            self.root = element
        self.open.append(element)

    def ends(self, _):
        self.open.pop()

    def tells(self, text):
        self.open[-1].pieces.append(text)

    def refuses(self, *_):
        raise Refused("the description has a DOCTYPE, which none needs, and whose entities could grow without bound")


def bytes_of(path):
    """The bytes of a file, of standard input where the path is `-`."""
    try:
        if path == "-":
            data = sys.stdin.buffer.read(MOST_BYTES + 1)
        else:
            with open(path, "rb") as file:
                data = file.read(MOST_BYTES + 1)
    except OSError as fault:
        raise Refused(f"{path}: {fault.strerror}") from None
    if len(data) > MOST_BYTES:
        raise Refused(f"{path} has more than {MOST_BYTES} bytes, which no description has")
    return data


def unpacked(data):
    """The XML file in a zip file."""
    try:
        with zipfile.ZipFile(io.BytesIO(data)) as archive:
            files = [it for it in archive.infolist() if not it.is_dir()]
            found = [it for it in files if it.filename.lower().endswith(".xml")] or files
            if not found:
                raise Refused("the zip file has no file in it")
            with archive.open(found[0]) as file:
                text = file.read(MOST_BYTES + 1)
    # (the module tells a file with a password by a RuntimeError, and a way of packing that it hasn't by a NotImplementedError)
    except (zipfile.BadZipFile, zlib.error, EOFError, OSError, RuntimeError, ValueError, NotImplementedError) as fault:
        raise Refused(f"the zip file can't be unpacked: {fault}") from None
    if len(text) > MOST_BYTES:
        raise Refused(f"the file in the zip file has more than {MOST_BYTES} bytes, which no description has")
    return text


def parsed(data):
    """The root of an XML file."""
    builder = Builder()
    # A camera may fill what is left of its memory with zeros. (Of UTF-16 the last letter may have one itself.)
    text = data.rstrip(b"\0")
    if text[:2] == b"\xff\xfe" and len(text) % 2:
        text += b"\0"
    try:
        builder.parser.Parse(text, True)
    except (expat.ExpatError, ValueError, LookupError) as fault:
        raise Refused(f"the description isn't XML: {fault}") from None
    if builder.root.kind != "RegisterDescription":
        raise Refused(f"the XML is a {builder.root.kind}, and a camera's description is a RegisterDescription")
    return builder.root


def nodes_of(root):
    """The nodes by their names: those in groups too, and the entries of a StructReg, which are nodes of their own."""
    nodes, left = {}, list(reversed(root.parts))
    while left:
        element = left.pop()
        if element.kind in ("Group", "StructReg"):
            left += reversed(element.parts)
        elif NAME.fullmatch(element.attributes.get("Name", "")):
            nodes.setdefault(element.name, element)
    return nodes


def read(path):
    """The nodes of the description in a file, by their names."""
    data = bytes_of(path)
    return nodes_of(parsed(unpacked(data) if data[:2] == b"PK" else data))
