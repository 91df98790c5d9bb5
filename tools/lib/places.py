"""Where a register of a description lies, as bits of one word of four bytes, which is what a camera's READREG and WRITEREG take
(GenICam GenApi, node types IntReg, MaskedIntReg, StructReg and FloatReg)."""

import math
import struct

from formula import rounded
from refusal import Refused
from registers import shown

MASKED = ("MaskedIntReg", "StructEntry")
PLACED = ("IntReg", "FloatReg", *MASKED)


class Place:
    """The bits of a value from its lowest on: each the number of a bit of the word in the register, whose lowest is 0."""

    def __init__(self, node, register, bits, readable):
        self.node, self.register, self.bits, self.readable = node, register, bits, readable
        self.mask = sum(1 << it for it in bits)
        self.whole = self.mask == 0xFFFFFFFF
        # The least and the greatest whole number in so many bits.
        self.least = -(1 << len(bits) - 1) if is_signed(node) else 0
        self.most = self.least + (1 << len(bits)) - 1

    def value(self, word):
        """The number in the word."""
        raw = sum((word >> bit & 1) << at for at, bit in enumerate(self.bits))
        if self.node.kind == "FloatReg":
            number = struct.unpack(">f", struct.pack(">I", raw))[0]
            if not math.isfinite(number):
                raise Refused(f"{self.node.name} has no number in register {shown(self.register)}, but {number}")
            return number
        return raw - (1 << len(self.bits)) if is_signed(self.node) and raw >> len(self.bits) - 1 else raw

    def raw(self, number):
        """The bits of a number, which has to fit."""
        name, count, least = self.node.name, len(self.bits), self.least
        if self.node.kind == "FloatReg":
            try:
                return struct.unpack(">I", struct.pack(">f", number))[0]
            except (OverflowError, struct.error):
                raise Refused(f"{number} is no float of 4 bytes, as {name} takes it") from None
        number = rounded(number)
        if not least <= number <= self.most:
            bits = "1 bit" if count == 1 else f"{count} bits"
            raise Refused(f"{name} takes {least} to {self.most}, the numbers of {bits}, and not {number}")
        return number & (1 << count) - 1

    def composed(self, number, word):
        """The word with the number in it."""
        raw = self.raw(number)
        return word & ~self.mask | sum((raw >> at & 1) << bit for at, bit in enumerate(self.bits))


def is_signed(node):
    return node.says("Sign") == "Signed"


def little_endian(node, holder):
    """Whether its lowest byte comes first, as where nothing is said."""
    said = node.says("Endianess") or holder.says("Endianess") or "LittleEndian"
    if said not in ("LittleEndian", "BigEndian"):
        raise Refused(f"the Endianess of {node.name} is {said}, and neither LittleEndian nor BigEndian")
    return said == "LittleEndian"


def bits_of(node, length, little, whole_number):
    """The bits of the register that are the value's, the register's lowest being 0."""
    if node.kind not in MASKED:
        return range(length * 8)
    said = [node.says("Bit")] * 2 if node.first("Bit") else [node.says("LSB"), node.says("MSB")]
    if None in said:
        raise Refused(f"{node.name} tells no Bit, and not both of LSB and MSB")
    # In a big-endian register bit 0 is the highest.
    ends = sorted(it if little else length * 8 - 1 - it for it in map(whole_number, said))
    if not 0 <= ends[0] <= ends[1] < length * 8:
        raise Refused(f"{node.name} has bits beyond its {length} bytes")
    return range(ends[0], ends[1] + 1)


def place_of(node, holder, address, length, readable, whole_number):
    """The place of a register of so many bytes at an address; `holder` is the node that says where, a StructReg of its entries."""
    if not 1 <= length <= 1 << 16:
        raise Refused(f"{node.name} has {length} bytes")
    little = little_endian(node, holder)
    if not 0 <= address <= (1 << 32) - length:
        raise Refused(f"{node.name} lies at {address}, and addresses have 32 bits")
    if node.kind == "FloatReg" and length != 4:
        raise Refused(f"{node.name} is a float of {length} bytes, and a register that is read or written at once has 4")
    register, bits = None, []
    for bit in bits_of(node, length, little, whole_number):
        at = address + (bit // 8 if little else length - 1 - bit // 8)
        if register not in (None, at & ~3):
            raise Refused(f"{node.name} has {length} bytes at {shown(address)}, and a register that is read or written at once has 4")
        register = at & ~3
        bits.append((3 - at % 4) * 8 + bit % 8)
    return Place(node, register, bits, readable)
