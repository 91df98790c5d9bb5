"""What features a description has, a line for each."""

from genapi import entries_of
from refusal import Refused
from registers import shown

# What a feature is to its user, by the kind of its node.
TYPES = {
    **{kind: "Integer" for kind in ("Integer", "IntReg", "MaskedIntReg", "StructEntry", "IntConverter", "IntSwissKnife")},
    **{kind: "Float" for kind in ("Float", "FloatReg", "Converter", "SwissKnife")},
    **{kind: "String" for kind in ("String", "StringReg")},
    **{kind: kind for kind in ("Boolean", "Command", "Enumeration", "Register")},
}
# Nodes that are features where a description has no categories: those that aren't there for others alone.
FEATURES = ("Integer", "Float", "String", "Boolean", "Command", "Enumeration")


def features_of(nodes):
    """Each feature once, with the category that it's in, in the order of the categories from Root on."""
    if "Root" not in nodes:
        return [(node, "-") for node in nodes.values() if node.kind in FEATURES]
    found, seen, left = [], set(), [(nodes["Root"], "-")]
    while left:
        node, category = left.pop()
        if node in seen:
            continue
        seen.add(node)
        if node.kind == "Category":
            named = [nodes[it.text] for it in node.all("pFeature") if it.text in nodes]
            left += [(it, node.name) for it in reversed(named)]
        elif node.kind in TYPES:
            found.append((node, category))
    return found


def line_of(camera, node, category):
    """Its name, type, category and register, or `-`, the bits of it that are its own where it hasn't all, and its entries."""
    told = f"{node.name} type={TYPES[node.kind]} category={category} register="
    try:
        place = camera.located(node)
        told += shown(place.register) + ("" if place.whole else f" mask=0x{place.mask:08x}")
    except Refused:
        told += "-"
    if node.kind != "Enumeration":
        return told
    try:
        return f"{told} entries={','.join(entries_of(node)) or '-'}"
    except Refused:
        return f"{told} entries=-"


def lines(camera):
    for node, category in features_of(camera.nodes):
        yield line_of(camera, node, category)
