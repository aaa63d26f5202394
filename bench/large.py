"""A module of nearly 262,144 bytes, the most that is decoded."""

# i32.const 123456, drop
DROP = bytes([0x41, 0xC0, 0xC4, 0x07, 0x1A])


def leb(number: int) -> bytes:
    out = bytearray()
    while True:
        byte = number & 0x7F
        number >>= 7
        out.append(byte | (0x80 if number else 0))
        if not number:
            return bytes(out)


def sized(content: bytes) -> bytes:
    return leb(len(content)) + content


def section(number: int, content: bytes) -> bytes:
    return bytes([number]) + sized(content)


def vector(items: list[bytes]) -> bytes:
    return leb(len(items)) + b"".join(items)


def module(functions: int = 13, drops: int = 3999) -> bytes:
    """So many functions, of twice as many instructions as they drop numbers, and one; the first is exported."""
    body = sized(b"\x00" + DROP * drops + b"\x41\x00\x0b")
    return (
        b"\0asm\1\0\0\0"
        + section(1, vector([b"\x60\x00\x01\x7f"]))
        + section(3, vector([b"\x00"] * functions))
        + section(7, vector([sized(b"invoke") + b"\x00\x00"]))
        + section(10, vector([body] * functions))
    )
