"""Tree files as nodes, and what is wrong with the shape of one (docs/FORMATS.md, refusal 3), in words.

The proved program says which node is refused; this says why to a person. tests/package/refusals holds it to the judge: it finds a fault in
exactly the nodes in which the judge does.
"""
import struct

import marks

NONE = 65535
NAMES = ["io", "strings", "type", "env", "import", "net", "re", "process", "lists"]

# What a child may be: a word for it, and the tags.
EXPRESSION = ("an expression", frozenset(range(0x01, 0x0A)))
STATEMENT = ("a statement", frozenset(range(0x10, 0x1E)) - {0x1A})
ELIF = ("an elif", frozenset([0x1A]))
INITIALIZER = ("a let or an expression statement, or 65535 for none,", frozenset([0x10, 0x11]))
SUPERCLASS = ("a variable, or 65535 for none,", frozenset([0x04]))
METHOD = ("a define", frozenset([0x1C]))
MAY_BE_ABSENT = (INITIALIZER, SUPERCLASS)


def word(what):
    return [("word", what, None)]


def op(most):
    return [("op", "its operator", most)]


def child(what, role):
    return [("child", what, role)]


def rest(what, role):
    return [("rest", what, role)]


def counted(what, role):
    return [("counted", what, role)]


MARK = [("mark", "its mark", None)]
NAME = [("name", "its name", None)]
PARAMETERS = [("counted", "parameter", None)]
SIDES = child("its left side", EXPRESSION) + child("its right side", EXPRESSION)
VALUE = [("maybe", "its value", EXPRESSION)]

# The kind's word, as bin/tree has it, and its payload, item by item.
FORMS = {
    0x01: ("number", word("its first word") + word("its second word") + word("its third word") + word("its last word")),
    0x02: ("text", word("its name")),
    0x03: ("other", word("its word")),
    0x04: ("variable", NAME + MARK),
    0x05: ("unary", op(2) + MARK + child("its operand", EXPRESSION)),
    0x06: ("binary", op(12) + MARK + SIDES),
    0x07: ("logical", op(2) + MARK + SIDES),
    0x08: ("call", child("its callee", EXPRESSION) + MARK + rest("argument", EXPRESSION)),
    0x09: ("function", PARAMETERS + rest("body statement", STATEMENT)),
    0x10: ("expression", child("its expression", EXPRESSION)),
    0x11: ("let", NAME + MARK + VALUE),
    0x12: ("block", rest("statement", STATEMENT)),
    0x13: ("while", MARK + child("its condition", EXPRESSION) + child("its body", STATEMENT)),
    0x14: ("for", MARK + child("its initializer", INITIALIZER) + child("its condition", EXPRESSION) + child("its increment", EXPRESSION)
           + child("its body", STATEMENT)),
    0x15: ("for-in", MARK + child("its collection", EXPRESSION) + child("its body", STATEMENT) + [("pairs", "variable", None)]),
    0x16: ("break", MARK),
    0x17: ("continue", MARK),
    0x18: ("return", MARK + VALUE),
    0x19: ("if", MARK + child("its condition", EXPRESSION) + counted("statement", STATEMENT) + counted("elif", ELIF) + rest("else statement", STATEMENT)),
    0x1A: ("elif", child("its condition", EXPRESSION) + rest("statement", STATEMENT)),
    0x1B: ("try", child("its body", STATEMENT) + NAME + MARK + child("its catch body", STATEMENT)),
    0x1C: ("define", NAME + MARK + PARAMETERS + rest("body statement", STATEMENT)),
    0x1D: ("class", NAME + MARK + child("its superclass", SUPERCLASS) + counted("method", METHOD) + rest("static method", METHOD)),
    0x1E: ("program", rest("statement", STATEMENT)),
    0x3E: ("program", rest("statement", STATEMENT)),
}
PROGRAMS = {0x1E, 0x3E}
WIDE = 0x3E  # the tag of a program in whose tree a mark has two words


class Fault(Exception):
    """What is wrong with a node, in words."""


class Node:
    """A field: the byte that it starts at, its tag and its payload; and whether the last field says that marks are wide."""

    def __init__(self, at, tag, payload):
        self.at, self.tag, self.payload, self.wide = at, tag, payload, False
        self.words = struct.unpack(f">{len(payload) // 2}H", payload[:len(payload) // 2 * 2])

    def size(self, sort):
        """The words that an item takes."""
        return 2 if self.wide and sort in ("mark", "any mark") else 1

    def kind(self):
        return FORMS[self.tag][0] if self.tag in FORMS else f"node of tag {self.tag:02X}"


def read(data):
    """The whole fields, and what is wrong with the frame behind them, or None."""
    nodes, at = [], 0
    while at < len(data):
        left = len(data) - at
        if left < 3:
            return nodes, f"byte {at}: {many(left, 'byte')} where a header of 3 is due"
        tag, size = struct.unpack_from(">BH", data, at)
        if left - 3 < size:
            return nodes, f"byte {at}: a payload of {many(size, 'byte')} is due where the file ends after {left - 3}"
        nodes.append(Node(at, tag, data[at + 3:at + 3 + size]))
        at += 3 + size
    for node in nodes:
        node.wide = nodes[-1].tag == WIDE
    return nodes, None if nodes else "there are no bytes"


def items(node):
    """The items of a payload one by one, as (what sort, what it is, its first word's index, its role): as far as the payload fits its tag, then a
    Fault."""
    kind, form = FORMS.get(node.tag, (None, None))
    if kind is None:
        raise Fault(f"no node has the tag {node.tag:02X}")
    if len(node.payload) % 2:
        raise Fault(f"its payload has {many(len(node.payload), 'byte')}, and is made of words of two")
    at = 0
    for sort, what, role in form:
        for piece in spread(node, sort, what, len(node.words) - at, node.words[at] if at < len(node.words) else 0):
            size = node.size(piece[0])
            if at + size > len(node.words):
                raise Fault(f"its payload ends where {'words' if size > 1 else 'word'} {at}{f' and {at + 1}' if size > 1 else ''}, {piece[1]}, is due")
            yield piece[0], piece[1], at, role
            at += size
    if at < len(node.words):
        raise Fault(f"its payload has {many(len(node.words), 'word')}, and is to end after {at}")


def spread(node, sort, what, left, first):
    """The items that an item of a form stands for, where so many words are left, the next of which is `first`."""
    if sort in ("rest", "maybe"):
        n = left if sort == "rest" else min(left, 1)
        return [("child", f"{what} {k}" if sort == "rest" else what) for k in range(n)]
    if sort == "counted":
        return counted_words(what, left, first)
    if sort == "pairs":
        pairs = -(-left // (1 + node.size("mark")))
        return [pair for k in range(max(1, pairs)) for pair in name_and_mark(f"{what} {k}")]
    return [(sort, what)]


def counted_words(what, left, n):
    # one word more than is left tells that it is due
    few = min(n, left)
    each = name_and_mark if what == "parameter" else lambda one: [("child", one)]
    return [("count", f"how many {what}s there are")] + [piece for k in range(few) for piece in each(f"{what} {k}")]


def name_and_mark(what):
    return [("name", f"the name of {what}"), ("any mark", f"the mark of {what}")]


def own_words(node):
    """The items of a node, as far as they fit."""
    found = []
    try:
        for item in items(node):
            found.append(item)
    except Fault:
        pass
    return found


def fault(nodes, i):
    """What is wrong with the shape of node i, or None."""
    node = nodes[i]
    try:
        is_program = node.tag in PROGRAMS
        if (i + 1 == len(nodes)) != is_program:
            raise Fault("a program stands here, and it must be the last node" if is_program else "the last node must be a program")
        for sort, what, at, role in items(node):
            lawful(nodes, i, sort, role, f"word {at}, {what},", node.words[at])
    except Fault as problem:
        return str(problem)
    return None


def lawful(nodes, i, sort, role, where, value):
    if sort == "op" and not 1 <= value <= role:
        raise Fault(f"{where} is {value}, and must be 1 to {role}")
    if sort == "name" and value == NONE:
        raise Fault(f"{where} is 65535, which is a name in a text alone")
    if sort == "child" and not (value == NONE and role in MAY_BE_ABSENT):
        due, tags = role
        if value >= i:
            raise Fault(f"{where} is node {value}, and {due} below node {i} is due")
        if nodes[value].tag not in tags:
            raise Fault(f"{where} is node {value}, {article(nodes[value].kind())}, and {due} is due")


def children(nodes, i):
    """The nodes that node i names as its children and that stand below it, as often as it names them."""
    node = nodes[i]
    return [node.words[at] for sort, _, at, _ in own_words(node) if sort == "child" and node.words[at] < i]


def own(node, sort):
    """The node's own word of this sort, its name or its mark, or None."""
    for found, what, at, _ in own_words(node):
        if found == sort and what.startswith("its "):
            wide = node.size(sort) > 1
            return marks.of(node.words[at] << 16 | node.words[at + 1] if wide else node.words[at], wide)
    return None


def many(n, what):
    return f"{n} {what}" if n == 1 else f"{n} {what}s"


def article(kind):
    return f"{'an' if kind[0] in 'aeiou' else 'a'} {kind}"
