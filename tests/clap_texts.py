"""Texts for option values that the program refuses: clap's own for numbers, and the others, which have clap's form."""

FOR_MORE = b"\nFor more information, try '--help'.\n"
DIGITS = b"a number has only decimal digits, such as 5"
KILOBYTES = b"kilobytes are an even number in decimal digits, such as 48"


def reason(value: str, least: int, most: int, form: bytes) -> bytes:
    """Why the text of a number of at most 64 bits is refused: the reason by clap, or else this form of the option."""
    digits = value[1:] if value[:1] == "+" else value
    if not value:
        return b"cannot parse integer from empty string"
    if not digits or not all("0" <= digit <= "9" for digit in digits):
        return b"invalid digit found in string"
    if int(digits) >= 2**64:
        return b"number too large to fit in target type"
    if not least <= int(digits) <= most:
        return f"{int(digits)} is not in {least}..={most}".encode()
    return form


def refused(value: str, name: str, why: bytes) -> bytes:
    """The text for a value of the option that clap shows by this name, such as `--vlan <N>`."""
    return f"error: invalid value '{value}' for '{name}': ".encode() + why + b"\n" + FOR_MORE
