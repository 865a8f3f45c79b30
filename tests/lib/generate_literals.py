"""Makes literals as JSON: the name of each and the text of its value, with the bits of a float or the value of any other, or None if the
written rules refuse it.
"""
import decimal
import re
import struct

# Each literal of a float with the format of its bits.
FLOATS = {"F32": "F32", "F64": "F64", "AbstractFloat": "F64"}
# The formats, each with struct's codes of a float and of its bits, the bits after the exponent, and the least number that is infinite.
FORMATS = {"F32": ("<f", "<I", 23, 2**128), "F64": ("<d", "<Q", 52, 2**1024)}
# The bounds of integers. An f16 is the integer of its bits.
INTEGERS = {f"U{bits}": (0, 2**bits - 1) for bits in (16, 32, 64)}
INTEGERS |= {f"I{bits}": (-(2 ** (bits - 1)), 2 ** (bits - 1) - 1) for bits in (16, 32, 64)}
INTEGERS |= {"AbstractInt": INTEGERS["I64"], "F16": INTEGERS["U16"]}
# Enough digits for the middle of any two f64, and less than the distance of any two of their middles.
EXACT, LITTLE = decimal.Context(prec=1300), decimal.Decimal("1e-900")


def middles(kind):
    """Yields numbers at and near the middle of two neighbouring floats, with the bits of the nearest one, at the middle the even one."""
    of_float, of_bits, digits, infinite = FORMATS[kind]
    (one,) = struct.unpack(of_bits, struct.pack(of_float, 1.0))
    # The greatest exponent is twice that of 1.
    greatest = 2 * one + 2**digits - 1
    for bits in (0, 1, 2**digits - 1, 2**digits, one, one + 1, greatest - 1, greatest):
        after = bits + 1 if bits < greatest else None
        low, high = (struct.unpack(of_float, struct.pack(of_bits, it))[0] for it in (bits, bits + 1))
        middle = (decimal.Decimal(low) + min(decimal.Decimal(high), infinite)) / 2
        yield middle - LITTLE, bits
        yield middle, after if bits % 2 else bits
        yield middle + LITTLE, after


def spellings(number):
    """Returns texts of a number that is not 0, with its point at several positions."""
    text = f"{number:f}"
    whole, fraction = text.split(".") if "." in text else (text, "0")
    return f"{whole}.{fraction}", f"{(whole + fraction).lstrip('0')}e-{len(fraction)}", f"0.{whole}{fraction}E+{len(whole)}"


def floats(rows):
    """Yields floats of rows that have a text and the bits of each format, and those near the middle of two."""
    for row in rows:
        for name, kind in FLOATS.items():
            yield name, row["text"], row[kind]
            # An integer is a number too.
            if re.fullmatch(r"-?\d+\.0", row["text"]):
                yield name, row["text"].removesuffix(".0"), row[kind]
    with decimal.localcontext(EXACT):
        near = {kind: list(middles(kind)) for kind in FORMATS}
    for name, kind in FLOATS.items():
        sign = 2 ** (8 * struct.calcsize(FORMATS[kind][1]) - 1)
        for number, bits in near[kind]:
            for text in spellings(number):
                yield name, text, bits
                yield name, f"-{text}", None if bits is None else bits + sign


def integers():
    """Yields integers at the bounds of their types and next to them, and forms that no integer has."""
    for name, (least, greatest) in INTEGERS.items():
        yield from ((name, str(value), value) for value in (least, greatest))
        yield from ((name, str(value), None) for value in (least - 1, greatest + 1))
        yield from ((name, text, None) for text in ("1.0", "1e0", "-0"))


def literals(rows):
    """Returns all literals, each a name, the text of its value and the wanted result."""
    return [*floats(rows), *integers(), ("Bool", "false", "false"), ("Bool", "true", "true")]
