"""Formulas of GenICam descriptions: those of SwissKnife and Converter, in double floats, and those of IntSwissKnife and IntConverter,
in whole numbers of 64 bits (GenICam GenApi, node types SwissKnife and Converter). Operators bind as in C, `**` most of all, `=` and
`<>` compare, and of `?:`, `&&` and `||` just those parts are worked out that decide. Nothing of it is given to Python's `eval`."""

import math
import re

from refusal import Refused

MOST_CHARACTERS = 65_536

TOKEN = re.compile(
    r"\s*(?:(?P<hex>0[xX][0-9A-Fa-f]+)|(?P<number>(?:\d+\.?\d*|\.\d+)(?:[eE][+-]?\d+)?)|(?P<name>[A-Za-z_][A-Za-z0-9_.]*)"
    r"|(?P<sign>\*\*|<<|>>|<>|<=|>=|&&|\|\||[-+*/%&|^~=<>?:(),]))"
)

# How tightly the operators of two operands bind; `**` is read before a sign.
BINDS = {"||": 1, "&&": 2, "|": 3, "^": 4, "&": 5, "=": 6, "<>": 6, "<": 7, ">": 7, "<=": 7, ">=": 7, "<<": 8, ">>": 8}
BINDS |= {"+": 9, "-": 9, "*": 10, "/": 10, "%": 10}


def wrapped(number):
    """The number as one of 64 bits with a sign."""
    return ((number + (1 << 63)) & ((1 << 64) - 1)) - (1 << 63)


def rounded(number):
    """The nearest whole number, a half away from 0."""
    return number if isinstance(number, int) else int(math.copysign(math.floor(abs(number) + 0.5), number))


def quotient(left, right):
    """The quotient of whole numbers, cut towards 0."""
    return abs(left) // abs(right) * (1 if (left < 0) == (right < 0) else -1)


def whole_power(base, exponent):
    if exponent < 0:
        raise ValueError("an exponent is below 0")
    return pow(base, exponent, 1 << 64)


def shifted(left, right, leftwards):
    if not 0 <= right < 64:
        raise ValueError("a shift isn't one by 0 to 63 bits")
    return left << right if leftwards else left >> right


def round_to(number, digits=0):
    scale = 10.0 ** math.trunc(digits)
    return math.copysign(math.floor(abs(number) * scale + 0.5) / scale, number)


COMMON = {
    "=": lambda a, b: int(a == b),
    "<>": lambda a, b: int(a != b),
    "<": lambda a, b: int(a < b),
    ">": lambda a, b: int(a > b),
    "<=": lambda a, b: int(a <= b),
    ">=": lambda a, b: int(a >= b),
    "+": lambda a, b: a + b,
    "-": lambda a, b: a - b,
    "*": lambda a, b: a * b,
}
BITS = {
    "&": lambda a, b: a & b,
    "|": lambda a, b: a | b,
    "^": lambda a, b: a ^ b,
    "<<": lambda a, b: shifted(a, b, True),
    ">>": lambda a, b: shifted(a, b, False),
}
WHOLE = {**COMMON, **BITS, "/": quotient, "%": lambda a, b: a - b * quotient(a, b), "**": whole_power}
REAL = {**COMMON, "/": lambda a, b: a / b, "%": math.fmod, "**": math.pow}

# Functions, with the least and the greatest number of their arguments.
WHOLE_FUNCTIONS = {"SGN": (1, 1, lambda a: (a > 0) - (a < 0)), "NEG": (1, 1, lambda a: -a), "ABS": (1, 1, abs)}
REAL_FUNCTIONS = {
    **WHOLE_FUNCTIONS,
    "SQRT": (1, 1, math.sqrt),
    "SIN": (1, 1, math.sin),
    "COS": (1, 1, math.cos),
    "TAN": (1, 1, math.tan),
    "ASIN": (1, 1, math.asin),
    "ACOS": (1, 1, math.acos),
    "ATAN": (1, 1, math.atan),
    "EXP": (1, 1, math.exp),
    "LN": (1, 1, math.log),
    "LG": (1, 1, math.log10),
    "TRUNC": (1, 1, math.trunc),
    "FLOOR": (1, 1, math.floor),
    "CEIL": (1, 1, math.ceil),
    "ROUND": (1, 2, round_to),
    "E": (0, 0, lambda: math.e),
    "PI": (0, 0, lambda: math.pi),
}


def shown(text):
    """The formula as a sentence can have it."""
    return text if len(text) <= 100 else f"{text[:97]}..."


def tokens_of(text):
    """The tokens of a formula, each its kind and its text, and at the end one of the kind `end`."""
    text = text.strip()
    if len(text) > MOST_CHARACTERS:
        raise Refused(f"a formula has more than {MOST_CHARACTERS} characters")
    at, found = 0, []
    while at < len(text):
        token = TOKEN.match(text, at)
        if not token:
            raise Refused(f"the formula {shown(text)} isn't understood at {text[at:at + 10]}")
        found.append((token.lastgroup, token[token.lastgroup]))
        at = token.end()
    return [*found, ("end", "its end")]


class Parser:
    """Reads a formula into tuples: ("number", n), ("name", text), (operator, operand..), ("call", name, arguments), ("?", ..)."""

    def __init__(self, text, whole):
        self.text, self.whole = text.strip(), whole
        self.tokens, self.at = tokens_of(text), 0

    def parse(self):
        tree = self.conditional()
        if self.tokens[self.at][0] != "end":
            self.fails()
        return tree

    def fails(self):
        raise Refused(f"the formula {shown(self.text)} isn't understood at {self.tokens[self.at][1]}")

    def takes(self, *signs):
        """The next token, where it's one of these signs, which is then read."""
        kind, text = self.tokens[self.at]
        if kind == "sign" and text in signs:
            self.at += 1
            return text
        return None

    def wants(self, sign):
        if not self.takes(sign):
            self.fails()

    def conditional(self):
        condition = self.binary(1)
        if not self.takes("?"):
            return condition
        chosen = self.conditional()
        self.wants(":")
        return ("?", condition, chosen, self.conditional())

    def binary(self, least):
        left = self.signed()
        while True:
            kind, sign = self.tokens[self.at]
            if kind != "sign" or BINDS.get(sign, 0) < least:
                return left
            self.at += 1
            left = (sign, left, self.binary(BINDS[sign] + 1))

    def signed(self):
        sign = self.takes("+", "-", "~")
        if not sign:
            return self.power()
        operand = self.signed()
        if operand[0] == "**":
            raise Refused(f"the formula {shown(self.text)} has {sign} before a power, without brackets that tell which comes first")
        return (f"sign{sign}", operand)

    def power(self):
        base = self.primary()
        if not self.takes("**"):
            return base
        exponent = self.signed()
        if exponent[0] == "**":
            raise Refused(f"the formula {shown(self.text)} has a power of a power, without brackets that tell which comes first")
        return ("**", base, exponent)

    def primary(self):
        if self.takes("("):
            inner = self.conditional()
            self.wants(")")
            return ("sign+", inner)
        kind, text = self.tokens[self.at]
        if kind not in ("hex", "number", "name"):
            self.fails()
        self.at += 1
        if kind != "name":
            return ("number", self.number(kind, text))
        return self.call(text) if self.takes("(") else ("name", text)

    def number(self, kind, text):
        if kind == "number" and not text.isdigit():
            if self.whole:
                raise Refused(f"the formula {shown(self.text)} has {text}, and wants whole numbers")
            if not math.isfinite(float(text)):
                raise Refused(f"the formula {shown(self.text)} has {text}, which is too large")
            return float(text)
        # (what is longer is no number of 64 bits, but for zeros)
        number = int(text, 16 if kind == "hex" else 10) if len(text) <= 40 else 1 << 64
        if number >> 64:
            raise Refused(f"the formula {shown(self.text)} has a number of more than 64 bits")
        return wrapped(number) if self.whole else float(number)

    def call(self, name):
        arguments = []
        if not self.takes(")"):
            arguments.append(self.conditional())
            while self.takes(","):
                arguments.append(self.conditional())
            self.wants(")")
        known = (WHOLE_FUNCTIONS if self.whole else REAL_FUNCTIONS).get(name.upper())
        if not known or not known[0] <= len(arguments) <= known[1]:
            numbers = "whole numbers" if self.whole else "numbers"
            raise Refused(f"the formula {shown(self.text)} has {name} of {len(arguments)}, which is no function of {numbers}")
        return ("call", name.upper(), arguments)


class Formula:
    """A formula, of whole numbers or of floats."""

    def __init__(self, text, whole):
        self.text, self.whole = text.strip(), whole
        self.tree = Parser(text, whole).parse()

    def value(self, variable):
        """Its value, where `variable` gives the number of a name, and None for one that there isn't."""
        try:
            return self.of(self.tree, variable)
        except ZeroDivisionError:
            why = "it divides by 0"
        except OverflowError:
            why = "a number is too large"
        except ValueError as fault:
            why = str(fault)
        raise Refused(f"the formula {shown(self.text)} can't be worked out: {why}")

    def of(self, tree, variable):
        while tree[0] in ("?", "sign+"):
            tree = tree[1] if tree[0] == "sign+" else tree[2] if self.of(tree[1], variable) else tree[3]
        # (a row of operators is gone along in a loop, and not by a call for each)
        row = []
        while tree[0] in BINDS:
            row.append((tree[0], tree[2]))
            tree = tree[1]
        value = self.operand(tree, variable)
        for sign, right in reversed(row):
            if sign in ("&&", "||"):
                decided = bool(value) == (sign == "||")
                value = self.fits(int(bool(value if decided else self.of(right, variable))))
            else:
                value = self.operate(sign, value, self.of(right, variable))
        return value

    def operand(self, tree, variable):
        """Of what is no row of operators."""
        kind = tree[0]
        if kind == "number":
            return tree[1]
        if kind == "name":
            return self.named(tree[1], variable)
        if kind == "call":
            functions = WHOLE_FUNCTIONS if self.whole else REAL_FUNCTIONS
            return self.fits(functions[tree[1]][2](*(self.of(it, variable) for it in tree[2])))
        if kind == "**":
            return self.operate(kind, self.of(tree[1], variable), self.of(tree[2], variable))
        if kind in ("sign-", "sign~"):
            value = self.of(tree[1], variable)
            return self.fits(-value if kind == "sign-" else ~self.bits(value))
        return self.of(tree, variable)

    def named(self, name, variable):
        value = variable(name)
        if value is None and not self.whole and name in ("E", "PI"):
            value = REAL_FUNCTIONS[name][2]()
        if value is None:
            raise Refused(f"the formula {shown(self.text)} has {name}, which is no variable of its node")
        return self.fits(rounded(value) if self.whole else value)

    def operate(self, sign, left, right):
        if self.whole:
            return self.fits(WHOLE[sign](left, right))
        if sign in BITS:
            return self.fits(BITS[sign](self.bits(left), self.bits(right)))
        return self.fits(REAL[sign](left, right))

    def bits(self, value):
        return value if self.whole else wrapped(math.trunc(value))

    def fits(self, value):
        if self.whole:
            return wrapped(value)
        value = float(value)
        if not math.isfinite(value):
            raise OverflowError
        return value
