"""The nodes of a camera's description (GenICam GenApi): what a node's value is, and which registers are written for a new one."""

import contextlib
import math
import re

from formula import Formula, rounded
from places import PLACED, place_of
from refusal import Failed, Refused
from registers import OWN, shown

WHOLE_NUMBER = re.compile(r"[+-]?(?:0[xX][0-9A-Fa-f]{1,16}|[0-9]{1,20})", re.ASCII)
REAL_NUMBER = re.compile(r"[+-]?(?:[0-9]{1,300}\.?[0-9]{0,300}|\.[0-9]{1,300})(?:[eE][+-]?[0-9]{1,3})?", re.ASCII)
ENTRY = re.compile(r"[A-Za-z0-9_.+-]{1,200}", re.ASCII)
MOST_STEPS = 1000
# Nodes that have another node's value, or one of their own.
VALUED = ("Integer", "Float", "Enumeration", "Boolean", "Command")
CONVERTERS = ("Converter", "IntConverter")
KNIVES = ("SwissKnife", "IntSwissKnife")
REAL = ("Float", "FloatReg", "Converter", "SwissKnife")
# What other nodes are, as sentences have it.
OTHERS = {
    "Category": "a category of features",
    "Port": "a port",
    "StringReg": "a text of several registers",
    "String": "a text",
    "Register": "a row of bytes",
}


def whole_number(text):
    if not WHOLE_NUMBER.fullmatch(text):
        raise Refused(f"{text[:60]!r} isn't a whole number")
    digits = text.lstrip("+-")
    number = int(digits, 16) if digits[:2] in ("0x", "0X") else int(digits)
    return -number if text[0] == "-" else number


def number_of(text):
    """A whole number where it's written as one, else a float."""
    if WHOLE_NUMBER.fullmatch(text):
        return whole_number(text)
    if not REAL_NUMBER.fullmatch(text) or not math.isfinite(float(text)):
        raise Refused(f"{text[:60]!r} isn't a number")
    return float(text)


def entries_of(node):
    """The values of an enumeration by their names; what has a space or the like in its name can't be given as a word."""
    named = [(it.says("Symbolic") or it.name, it) for it in node.all("EnumEntry")]
    return {name: whole_number(it.says("Value") or "") for name, it in named if ENTRY.fullmatch(name)}


def holder_of(node):
    """The node that says where a register lies: of an entry its StructReg."""
    return node.parent if node.kind == "StructEntry" else node


def modes_of(node):
    """What the description says of reading and writing a node: RW, RO, WO or NA."""
    return [it.says(kind) for it in (node, holder_of(node)) for kind in ("ImposedAccessMode", "AccessMode")]


class Camera:
    """The nodes, the known registers, and new values of what lies in no register; `writes` has the registers that are to be written."""

    def __init__(self, nodes, registers):
        self.nodes, self.registers = nodes, registers
        self.own, self.numbers, self.formulas, self.path, self.writes, self.steps = {}, {}, {}, [], [], 0

    def node(self, name, node):
        """The node that this one names."""
        found = self.nodes.get(name)
        if found is None:
            raise Refused(f"{node.name} names {name[:60]!r}, and the description has no such node")
        return found

    @contextlib.contextmanager
    def following(self, what, node):
        """While a node is followed: what comes back to itself would never end."""
        if (what, node) in self.path:
            names = [it.name for _, it in [*self.path[self.path.index((what, node)) :], (what, node)]]
            raise Refused(f"the description goes round in a circle: {', '.join(names[:8])}")
        self.path.append((what, node))
        try:
            yield
        finally:
            self.path.pop()

    def either(self, node, kind):
        """The number in the element of this kind, or of the node that its element with `p` before the kind names; else None."""
        said, name = node.says(kind), node.says(f"p{kind}")
        if said is not None:
            return number_of(said)
        return None if name is None else self.read(self.node(name, node))

    def source(self, node):
        """The element that says where a node's value is: that names another node, by a `p` before its kind, or has a number."""
        indexed = node.all("pValueIndexed", "ValueIndexed")
        if node.first("pIndex") and indexed:
            index = rounded(self.read(self.node(node.says("pIndex"), node)))
            found = [it for it in indexed if whole_number(it.attributes.get("Index", "")) == index]
            found += node.all("pValueDefault", "ValueDefault")
        else:
            found = node.all("pValue") + node.all("Value")
        if not found:
            raise Refused(f"{node.name} tells no value, and no node that has it")
        return found[0]

    def target(self, node):
        """The node that has this one's value, or None where the description alone has it."""
        source = self.source(node)
        return self.node(source.text, node) if source.kind.startswith("p") else None

    # Values

    def read(self, node):
        """The number of a node."""
        if node not in self.numbers:
            with self.following("read", node):
                self.numbers[node] = self.worked_out(node)
        return self.numbers[node]

    def worked_out(self, node):
        if node.kind in VALUED:
            source, target = self.source(node), self.target(node)
            value = self.read(target) if target else self.own.get(source, number_of(source.text))
            if node.kind == "Boolean":
                return int(value == self.on_and_off(node)[0])
            return float(value) if node.kind == "Float" else rounded(value)
        if node.kind in CONVERTERS:
            return self.formula(node, "FormulaFrom", TO=self.read(self.named(node, "pValue")))
        if node.kind in KNIVES:
            return self.formula(node, "Formula")
        place = self.place(node)
        return place.value(self.registers.word(place.register, f"{node.name} is in register {shown(place.register)}", place.readable))

    def named(self, node, kind):
        """The node that the element of this kind names."""
        name = node.says(kind)
        if name is None:
            raise Refused(f"{node.name} has no {kind}")
        return self.node(name, node)

    def on_and_off(self, node):
        return [number_of(node.says(kind) or other) for kind, other in (("OnValue", "1"), ("OffValue", "0"))]

    def formula(self, node, kind, **given):
        """The value of a node's formula, with these variables and its own ones."""
        parts = {it.attributes.get("Name"): it for it in node.all("pVariable", "Constant", "Expression")}

        def variable(name):
            if name not in given and name in parts:
                given[name] = self.variable(node, parts[name], variable)
            return given.get(name)

        element = node.first(kind)
        if element is None:
            raise Refused(f"{node.name} has no {kind}")
        return self.formula_in(element, node).value(variable)

    def formula_in(self, element, node):
        if element not in self.formulas:
            self.formulas[element] = Formula(element.text, node.kind.startswith("Int"))
        return self.formulas[element]

    def variable(self, node, part, variable):
        """The number of a variable, a constant or an expression of a node."""
        if part.kind == "Constant":
            return number_of(part.text)
        if part.kind == "Expression":
            with self.following("read", part):
                return self.formula_in(part, node).value(variable)
        named, (_, _, what) = self.node(part.text, node), part.attributes["Name"].partition(".")
        if what in ("", "Value"):
            return self.read(named)
        if what in ("Min", "Max", "Inc"):
            return self.limit(named, what)
        if what[:6] == "Entry." and what[6:] in entries_of(named):
            return entries_of(named)[what[6:]]
        raise Refused(f"{node.name} wants {what} of {named.name}, which isn't known here")

    def limit(self, node, kind):
        """The least or greatest number of a node, or the step between them: what it says itself, else what its register takes."""
        with self.following(kind, node):
            said = self.either(node, kind) if node.kind in VALUED else None
            if said is not None:
                return said
            if node.kind in VALUED and self.target(node):
                return self.limit(self.target(node), kind)
            if node.kind in PLACED and node.kind != "FloatReg":
                place = self.place(node)
                return {"Min": place.least, "Max": place.most, "Inc": 1}[kind]
            raise Refused(f"{node.name} tells no {kind}")

    # Registers

    def place(self, node):
        """Where a register is."""
        holder = holder_of(node)
        if node.kind not in PLACED:
            raise Refused(f"{node.name} is {OTHERS.get(node.kind, f'a node of the kind {node.kind}')}, which is no number in a register")
        port = self.nodes.get(holder.says("pPort"))
        if port and port.first("ChunkID", "pChunkID", "EventID"):
            raise Refused(f"{node.name} comes with an image or an event, by the port {port.name}, and is in no register")
        length = self.either(holder, "Length")
        length = 4 if length is None else rounded(length)
        return place_of(node, holder, self.address(holder, length), length, "WO" not in modes_of(node), whole_number)

    def address(self, holder, length):
        """The sum of what a register's elements say of its address."""
        parts = holder.all("Address", "pAddress", "IntSwissKnife", "pIndex")
        if all(it.kind == "pIndex" for it in parts):
            raise Refused(f"{holder.name} tells no address")
        address = 0
        for part in parts:
            if part.kind == "Address":
                address += whole_number(part.text)
            elif part.kind == "IntSwissKnife":
                address += self.read(part)
            elif part.kind == "pAddress":
                address += rounded(self.read(self.node(part.text, holder)))
            else:
                address += rounded(self.read(self.node(part.text, holder))) * self.offset(part, holder, length)
        return address

    def offset(self, part, holder, length):
        """How far the registers are apart that an index counts: as far as they are long, where it isn't said."""
        if "pOffset" in part.attributes:
            return rounded(self.read(self.node(part.attributes["pOffset"], holder)))
        return whole_number(part.attributes["Offset"]) if "Offset" in part.attributes else length

    def located(self, node):
        """Where the register is that a node's value comes from."""
        with self.following("locate", node):
            if node.kind in KNIVES:
                raise Refused(f"{node.name} is worked out by a formula, and is in no register of its own")
            if node.kind not in (*VALUED, *CONVERTERS):
                return self.place(node)
            target = self.target(node) if node.kind in VALUED else self.named(node, "pValue")
            if target is None:
                raise Refused(f"{node.name} is in the description alone, and in no register")
            return self.located(target)

    # New values

    def write(self, node, value):
        """Notes what has to be written so that a node has this number."""
        self.steps += 1
        if self.steps > MOST_STEPS:
            raise Refused(f"the new values go to more than {MOST_STEPS} nodes")
        with self.following("write", node):
            for mode in modes_of(node):
                if mode in ("RO", "NA"):
                    raise Refused(f"{self.path[0][1].name} can't be written, since {node.name} has the access mode {mode}")
            if node.kind in VALUED:
                self.write_valued(node, value)
            elif node.kind in CONVERTERS:
                self.write(self.named(node, "pValue"), self.formula(node, "FormulaTo", FROM=value))
            elif node.kind in KNIVES:
                raise Refused(f"{node.name} is worked out by a formula, and can't be written")
            else:
                self.write_register(self.place(node), value)

    def write_valued(self, node, value):
        if node.kind in ("Integer", "Float"):
            value = rounded(value) if node.kind == "Integer" else value
            self.check(node, value)
        if node.kind == "Boolean":
            value = self.on_and_off(node)[0 if value else 1]
        source, target = self.source(node), self.target(node)
        if target:
            self.write(target, value)
        else:
            self.own[source] = value
            self.numbers.clear()
        for copy in node.all("pValueCopy"):
            self.write(self.node(copy.text, node), value)

    def check(self, node, value):
        """Whether a node's limits allow a value, as far as they are known."""

        def limit(kind):
            try:
                return self.either(node, kind)
            except Failed:
                raise
            except Refused:
                return None

        least, most, step = limit("Min"), limit("Max"), limit("Inc")
        if least is not None and value < least:
            raise Refused(f"{value} is below the least value of {node.name}, {least}")
        if most is not None and value > most:
            raise Refused(f"{value} is above the greatest value of {node.name}, {most}")
        unknown = least is None and node.first("Min", "pMin")
        if node.kind == "Integer" and step and step > 0 and not unknown and (value - (least or 0)) % step:
            raise Refused(f"{value} isn't a value of {node.name}: they go from {least or 0} on in steps of {step}")

    def write_register(self, place, value):
        if place.register in OWN:
            raise Refused(f"{place.node.name} is in register {shown(place.register)}, which gevacq writes itself{OWN[place.register]}")
        word = 0
        if not place.whole:
            place.raw(value)
            why = f"{place.node.name} has {len(place.bits)} of the bits of register {shown(place.register)} (0x{place.mask:08x})"
            word = self.registers.word(place.register, why, place.readable)
        word = place.composed(value, word)
        self.writes.append((place.register, word))
        self.registers.known[place.register] = word
        self.numbers.clear()

    def execute(self, node):
        """Notes what has to be written for a command."""
        value = self.either(node, "CommandValue")
        if value is None:
            raise Refused(f"{node.name} tells no value of its command")
        if self.target(node) is None:
            raise Refused(f"{node.name} is a command without a register")
        self.write(node, value)

    # Texts

    def assign(self, node, text):
        """Notes what has to be written so that a node has the value that a user spells so."""
        self.write(node, self.meant(node, text))

    def meant(self, node, text):
        if node.kind == "Command":
            raise Refused(f"{node.name} is a command, and takes no value")
        if node.kind == "Boolean":
            if text.lower() not in ("0", "1", "false", "true"):
                raise Refused(f"{node.name} takes true or false, and not {text}")
            return int(text.lower() in ("1", "true"))
        if node.kind == "Enumeration":
            entries = entries_of(node)
            if text not in entries:
                raise Refused(f"{node.name} takes {', '.join(entries) or 'nothing'}, and not {text}")
            return entries[text]
        if node.kind not in (*VALUED, *CONVERTERS, *KNIVES):
            self.place(node)
        number = number_of(text)
        if node.kind not in REAL and not isinstance(number, int):
            raise Refused(f"{node.name} takes whole numbers, and not {text}")
        return number

    def told(self, node):
        """A node's value as a user spells it."""
        value = self.read(node)
        if node.kind == "Boolean":
            return "true" if value else "false"
        if node.kind == "Enumeration":
            return next((name for name, number in entries_of(node).items() if number == value), str(value))
        return str(value)
