"""What bin/mend makes of the program's bytes: a line of number, place, length and entries, then the list, then the mended image."""
import os
import struct
import sys
import tempfile

import marks

CAUSES = {19: "Image frame after {} whole fields: a header or a payload runs past the end, or there is no field at all",
          20: "Image rule at field {}: a field that cannot follow, or an instruction whose fact fails, and no jump that is replaced"}
WIDE = 11  # bytes of an instruction whose mark has four


class Failed(Exception):
    """What could not be written."""


def taken_apart(data):
    """Number and place; the list, and the image."""
    line, _, rest = data.partition(b"\n")
    number, place, length, entries = map(int, line.split())
    if len(rest) != 8 * entries + length:
        raise Failed("the program's bytes could not be held")
    return number, place, rest[:8 * entries], rest[8 * entries:]


def codes(image):
    """For each prototype where its instructions begin, how many they are, and the bytes of each."""
    at = 0
    while at < len(image) and image[at] == 0x41:
        captures, count = struct.unpack_from(">2H", image, at + 9)
        at += 13 + 5 * captures
        size = 3 + struct.unpack_from(">H", image, at + 1)[0]
        yield at, count, size
        at += count * size


def lines(listed, image):
    """A line for each jump that was replaced."""
    found = list(codes(image))
    for prototype, index, _, a, b, c in struct.iter_unpack(">2H4B", listed):
        at, count, size = found[prototype]
        mark = int.from_bytes(image[at + index * size + 7:at + index * size + size], "big")
        wide = b * 256 + c
        to = index + (wide - 65536 if wide > 32767 else wide)
        what = {1: ", a stray continue,", 2: ", a stray break,"}.get(a, "")
        where = "" if 0 <= to < count else f", outside its {count} instruction{'s' if count > 1 else ''}"
        marked = marks.words(marks.of(mark, size == WIDE), size == WIDE)
        yield f"mended: prototype {prototype}, instruction {index}, {marked}: Jmp {a} {b} {c}{what} led to {to}{where}\n"


def beside(name, data):
    """The data in a file beside the name that it is to have, and that file's name; none where a device, a pipe or a link has the name."""
    if os.path.islink(name) or (os.path.exists(name) and not os.path.isfile(name)):
        return None
    part = tempfile.NamedTemporaryFile(dir=os.path.dirname(name) or ".", prefix=".mend.", delete=False)
    try:
        with part:
            part.write(data)
        os.umask(mask := os.umask(0))
        os.chmod(part.name, 0o666 & ~mask)
    except BaseException:
        os.unlink(part.name)
        raise
    return part.name


def poured(name, data):
    with open(name, "wb") as file:
        file.write(data)


def named(name, part):
    os.replace(part, name)


def tried(do, name, *words):
    try:
        return do(name, *words)
    except OSError as problem:
        raise Failed(f"{name} cannot be written") from problem


def printed(data):
    try:
        with open(1, "wb", closefd=False) as out:
            out.write(data)
    except OSError as problem:
        raise Failed("the image could not be written") from problem


def write(files, image):
    """All of it or, as far as it can be taken back, nothing: no file has its name before every byte is written, those to standard output too."""
    parts = {}
    try:
        for name, data in files:
            parts[name] = tried(beside, name, data)
        for name, data in files:
            if not parts[name]:
                tried(poured, name, data)
        if image is not None:
            printed(image)
        for name in [name for name in parts if parts[name]]:
            tried(named, name, parts[name])
            parts[name] = None
    finally:
        for part in filter(None, parts.values()):
            os.unlink(part)


def main(made, shown, output, listing):
    with open(made, "rb") as file:
        number, place, listed, image = taken_apart(file.read())
    if number:
        words = CAUSES[number].format(place) if number in CAUSES else f"by cause {number} at {place}"
        print(f"refused {number} {words} ({shown.translate({c: '?' for c in [*range(32), 127]})})", file=sys.stderr)
        return 1
    write([(name, data) for name, data in ((listing, listed), (output, image)) if name], None if output else image)
    sys.stderr.writelines(lines(listed, image))
    return 0


if __name__ == "__main__":
    try:
        sys.exit(main(*sys.argv[1:]))
    except Failed as problem:
        print(f"mend: {problem}", file=sys.stderr)
        sys.exit(2)
