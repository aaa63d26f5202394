#!/usr/bin/env python3
"""Writes src/table.rt: multiples of the base point of edwards25519, prepared for a sum.

usage: ./table.py > src/table.rt
"""
P = 2**255 - 19
D = -121665 * pow(121666, P - 2, P) % P
BASE = (
    15112221349535400772501151409588531511454012693041857206046113283949847762202,
    46316835694926478169428394003475163141307993866256225615783033603165251855960,
)
WINDOWS = 16
ROWS = 15

Point = tuple[int, int]


def total(a: Point, b: Point) -> Point:
    """The sum of two points (RFC 8032, section 5.1.4)."""
    joint = D * a[0] * b[0] * a[1] * b[1]
    x = (a[0] * b[1] + b[0] * a[1]) * pow(1 + joint, P - 2, P)
    y = (a[1] * b[1] + a[0] * b[0]) * pow(1 - joint, P - 2, P)
    return x % P, y % P


def words(number: int) -> list[str]:
    """The four words of a number, low word first."""
    return [f"0x{number >> 64 * place & 2**64 - 1:016x}," for place in range(4)]


def row(a: Point) -> list[str]:
    """y - x, y + x and 2 d x y."""
    x, y = a
    numbers = (y - x) % P, (y + x) % P, 2 * D * x * y % P
    return [word for number in numbers for word in words(number)]


def main() -> None:
    print("//! Multiples of the base point, written by table.py: for each of 16 windows w and of 1 to 15 as k,")
    print("//! of [k 2^(16 w)]B the y less the x, their sum, and 2 d x y, each in four words.")
    print()
    print(f"pub(crate) static MULTIPLES: [[[u64; 12]; {ROWS}]; {WINDOWS}] = [")
    first = BASE
    for _ in range(WINDOWS):
        print("    [")
        point = first
        for _ in range(ROWS):
            print("        [")
            for word in row(point):
                print(f"            {word}")
            print("        ],")
            point = total(point, first)
        print("    ],")
        for _ in range(12):
            point = total(point, point)
        first = point
    print("];")


main()
