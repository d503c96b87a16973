"""Names by the ends of the ranges of their classes (XML 1.0, 2.3, productions 4 and 4a), and characters by theirs (2.2, production 2)."""

from .form import MARK, counted, refused

STARTS = [(0x3A, 0x3A), (0x41, 0x5A), (0x5F, 0x5F), (0x61, 0x7A), (0xC0, 0xD6), (0xD8, 0xF6), (0xF8, 0x2FF), (0x370, 0x37D),
          (0x37F, 0x1FFF), (0x200C, 0x200D), (0x2070, 0x218F), (0x2C00, 0x2FEF), (0x3001, 0xD7FF), (0xF900, 0xFDCF),
          (0xFDF0, 0xFFFD), (0x10000, 0xEFFFF)]
LATER = [(0x2D, 0x2E), (0x30, 0x39), (0xB7, 0xB7), (0x300, 0x36F), (0x203F, 0x2040)]
CHARS = [(0x9, 0xA), (0xD, 0xD), (0x20, 0xD7FF), (0xE000, 0xFFFD), (0x10000, 0x10FFFF)]


def ends(ranges):
    return sorted({code for pair in ranges for code in pair})


def is_in(code, ranges):
    return any(first <= code <= last for first, last in ranges)


def beside(ranges, around):
    """The codes next to the ends of ranges that are in none of them, and stand within the ranges around."""
    near = {code for first, last in ranges for code in (first - 1, last + 1)}
    return sorted(code for code in near if not is_in(code, ranges) and is_in(code, around))


def spaced(code):
    return code in (0x9, 0xA, 0xD, 0x20)


def rows():
    starts = "".join(f"<!ELEMENT {chr(code)} EMPTY>" for code in ends(STARTS))
    later = "".join(f"<!ELEMENT a{chr(code)} EMPTY>" for code in ends(STARTS + LATER))
    no_start = [code for code in beside(STARTS, CHARS) if not spaced(code)]
    no_name = [code for code in beside(STARTS + LATER, CHARS) if not spaced(code) and chr(code) != MARK]
    return [counted("names by their first characters", starts, len(ends(STARTS))),
            counted("names by their later characters", later, len(ends(STARTS + LATER))),
            *(refused(f"U+{code:04X} begins no name", f"¶<!ELEMENT {chr(code)} EMPTY>", "E20 Malformed @") for code in no_start),
            *(refused(f"U+{code:04X} is in no name", f"¶<!ELEMENT a{chr(code)} EMPTY>", "E20 Malformed @") for code in no_name)]
