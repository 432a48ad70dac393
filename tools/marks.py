"""Marks for people (docs/FORMATS.md, "Marks"): a narrow one, of 16 bits, is the script's line; a wide one, of 32, has the line in its high half and
the column in its low half, where 0 is no column. The largest number of each width is no mark."""
NONE, NONE_WIDE = 0xFFFF, 0xFFFFFFFF


def of(number, wide):
    """The number, or None where it says that there is no mark."""
    return None if number == (NONE_WIDE if wide else NONE) else number


def place(mark, wide):
    """Line and column of a mark; column None where there is none, both where there is no mark."""
    if mark is None:
        return None, None
    return (mark >> 16, mark & 0xFFFF or None) if wide else (mark, None)


def shown(mark, wide):
    """`12` or `12:5`."""
    line, column = place(mark, wide)
    return "none" if line is None else f"{line}" if column is None else f"{line}:{column}"


def words(mark, wide):
    """`mark 12`, `mark 12:5` or `no mark`."""
    return "no mark" if mark is None else f"mark {shown(mark, wide)}"
