"""A refusal for whoever has to find it: the node's kind, its mark or its nearest owner's, and what is wrong with it.

usage: refusal.py words NUMBER PLACE TREE                    one line for people
       refusal.py json STATUS FILE IMAGE LENGTH TREE WORDS   one JSON line: of an image, of a refusal (WORDS is its line) or of a failure (WORDS says what)

bin/lower calls it. TREE is where the bytes can be read; one of more than 1 MiB, which is never accepted, is not looked at.
"""
import json
import os
import re
import sys

import marks
import treefile

LARGEST = 1 << 20
FRAME, MANY, SHAPE, TREE, DEPTH = 1, 2, 3, 4, 5
AT_A_NODE = {SHAPE, TREE, DEPTH, *range(7, 19), 27}  # the place of another number is no node
REFUSED = re.compile(r"refused (\d+) (\w+)(?: at node (\d+)| after (\d+) whole fields)?: (.*)")


def explained(data, number, place):
    """What is known of the place: kind, name, mark, the owner that has the mark, the fault."""
    nodes, frame = treefile.read(data)
    if number == FRAME:
        return {"fault": frame}
    if number == MANY:
        return {"fault": f"there are {len(nodes)} nodes"}
    if number not in AT_A_NODE or place >= len(nodes):
        return {}
    owners = owners_of(nodes, place)
    told = {"kind": nodes[place].kind(), "name": treefile.own(nodes[place], "name"), "mark": None, "owner": None}
    for node in owners:
        told["mark"] = treefile.own(nodes[node], "mark")
        if told["mark"] is not None:
            told["owner"] = None if node == place else {"node": node, "kind": nodes[node].kind()}
            break
    if nodes[-1].wide:
        told["line"], told["column"] = marks.place(told["mark"], True)
    told["fault"] = fault(nodes, number, place, len(owners))
    return told


def owners_of(nodes, place):
    """The node, the node that has it as a child, and so on; of several the lowest."""
    chain = [place]
    for i in range(place + 1, len(nodes)):
        if chain[-1] in treefile.children(nodes, i):
            chain.append(i)
    return chain


def fault(nodes, number, place, depth):
    if number == SHAPE:
        return treefile.fault(nodes, place)
    if number == DEPTH:
        return f"it is {depth} deep"
    if number != TREE:
        return None
    parents = [i for i in range(len(nodes)) for child in treefile.children(nodes, i) if child == place]
    return f"it is a child of {', then of '.join(f'node {i}' for i in parents)}" if parents else "it is no node's child"


def words(told):
    """The explanation as a part of a line."""
    parts = []
    if told.get("kind"):
        kind = told["kind"] + ("" if told["name"] is None else f" of name {name(told['name'])}")
        owner = told["owner"]
        around = f" in the {owner['kind']} at node {owner['node']}" if owner else ""
        parts.append(f"{kind}{around}, {marks.words(told['mark'], 'line' in told)}")
    if told.get("fault"):
        parts.append(told["fault"])
    return "; ".join(parts)


def name(number):
    return f"{number} ({treefile.NAMES[number]})" if number < len(treefile.NAMES) else str(number)


def looked_at(tree, number, place):
    """The explanation of a refusal of the tree in a file, or nothing where it cannot be told."""
    try:
        if not tree or os.path.getsize(tree) > LARGEST:
            return {}
        with open(tree, "rb") as file:
            return explained(file.read(), number, place)
    except OSError:
        return {}


def file_name(key, name):
    """A name as JSON can have it: bytes that are no UTF-8 become U+FFFD, and the name stands beside it in hexadecimal."""
    raw = os.fsencode(name)
    text = raw.decode("utf-8", "replace")
    return {key: text} if text.encode() == raw else {key: text, key + "_hex": raw.hex()}


def json_line(status, file, image, length, tree, line, visits):
    told = {**file_name("file", file), "status": status}
    refused = REFUSED.fullmatch(line) if status == 1 else None
    if status == 0:
        told.update({"number": 0, "place": 0, "length": length, "visits": visits, **(file_name("image", image) if image else {"image": None})})
    elif refused:
        number, place = int(refused[1]), int(refused[3] or refused[4] or 0)
        told.update({"number": number, "cause": refused[2], "place": place, "length": 0, "visits": 0, "image": None, "rule": refused[5]})
        told.update({key: value for key, value in looked_at(tree, number, place).items() if value is not None})
    else:
        told["error"] = os.fsencode(line).decode("utf-8", "replace")
    return json.dumps(told)


def main(arguments):
    if arguments[0] == "words":
        number, place, tree = arguments[1:]
        print(words(looked_at(tree, int(number), int(place))))
    else:
        status, file, image, length, tree, line, visits = arguments[1:]
        print(json_line(int(status), file, image, int(length), tree, line, int(visits)))


if __name__ == "__main__":
    main(sys.argv[1:])
