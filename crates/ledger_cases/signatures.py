#!/usr/bin/env python3
"""Writes the groups of `stdin` and `stdout` beside this file that are of Ed25519 (RFC 8032): cases and their answers.

The answers come from three places, none of which is the program that is tried: the vectors of RFC 8032, section 7.1;
the program of its section 6 (python/rfc8032.py); and, for keys and messages at random, the Python package
`cryptography`, which calls OpenSSL. Whatever can be asked of two of them is, and they have to agree. usage: signatures.py
"""
import pathlib
import random
import sys
from typing import NamedTuple

from cryptography.exceptions import InvalidSignature
from cryptography.hazmat.primitives.asymmetric.ed25519 import Ed25519PrivateKey, Ed25519PublicKey
from cryptography.hazmat.primitives.serialization import Encoding, PublicFormat

HERE = pathlib.Path(__file__).parent
sys.path.insert(0, str(HERE.resolve().parents[1] / "python"))
from rfc8032 import (
    G,
    p,
    point_add,
    point_compress,
    point_decompress,
    point_equal,
    point_mul,
    q,
    recover_x,
    secret_expand,
    secret_to_public,
    sha512_modq,
    sign,
    verify,
)

# What the first group begins with, and the first one behind all of them, which make.py writes.
FIRST, BEHIND = "\n\n# ed25519: RFC 8032, section 7.1", "\n\n# wire: open definitions"

# ---- lines

questions: list[str] = []
answers: list[str] = []


def title(text: str) -> None:
    for lines in (questions, answers):
        lines.extend(["", *(f"# {line}" for line in f"ed25519: {text}".split("\n"))])


def case(words: str, answer: str, note: str = "") -> None:
    questions.append(f"{words} # {note}" if note else words)
    answers.append(answer)


def hexed(data: bytes) -> str:
    return data.hex() or "-"


def public_case(seed: bytes, public: bytes, note: str = "") -> None:
    assert secret_to_public(seed) == public
    case(f"public {seed.hex()}", public.hex(), note)


def sign_case(seed: bytes, message: bytes, signature: bytes, note: str = "") -> None:
    assert sign(seed, message) == signature
    case(f"sign {seed.hex()} {hexed(message)}", signature.hex(), note)


def verify_case(key: bytes, message: bytes, signature: bytes, note: str = "") -> None:
    good = verify(key, message, signature)
    case(f"verify {key.hex()} {hexed(message)} {signature.hex()}", "good" if good else "bad", note)


def small_order_case(key: bytes, note: str = "") -> None:
    point = point_decompress(key)
    small = point is not None and point_equal(point_mul(8, point), (0, 1, 1, 0))
    case(f"small_order {key.hex()}", "small" if small else "not small", note)


def key_case(key: bytes, note: str = "") -> None:
    point = point_decompress(key)
    good = point is not None and not point_equal(point_mul(8, point), (0, 1, 1, 0))
    case(f"key {key.hex()}", "good" if good else "bad", note)


# ---- the vectors of RFC 8032, section 7.1: seed, public key, message, signature


class Vector(NamedTuple):
    name: str
    seed: str
    public: str
    message: str
    signature: str


VECTORS = [
    Vector(
        "TEST 1",
        "9d61b19deffd5a60ba844af492ec2cc44449c5697b326919703bac031cae7f60",
        "d75a980182b10ab7d54bfed3c964073a0ee172f3daa62325af021a68f707511a",
        "",
        "e5564300c360ac729086e2cc806e828a84877f1eb8e5d974d873e065224901555"
        "fb8821590a33bacc61e39701cf9b46bd25bf5f0595bbe24655141438e7a100b",
    ),
    Vector(
        "TEST 2",
        "4ccd089b28ff96da9db6c346ec114e0f5b8a319f35aba624da8cf6ed4fb8a6fb",
        "3d4017c3e843895a92b70aa74d1b7ebc9c982ccf2ec4968cc0cd55f12af4660c",
        "72",
        "92a009a9f0d4cab8720e820b5f642540a2b27b5416503f8fb3762223ebdb69da"
        "085ac1e43e15996e458f3613d0f11d8c387b2eaeb4302aeeb00d291612bb0c00",
    ),
    Vector(
        "TEST 3",
        "c5aa8df43f9f837bedb7442f31dcb7b166d38535076f094b85ce3a2e0b4458f7",
        "fc51cd8e6218a1a38da47ed00230f0580816ed13ba3303ac5deb911548908025",
        "af82",
        "6291d657deec24024827e69c3abe01a30ce548a284743a445e3680d7db5ac3ac"
        "18ff9b538d16f290ae67f760984dc6594a7c15e9716ed28dc027beceea1ec40a",
    ),
    Vector(
        "TEST 1024",
        "f5e5767cf153319517630f226876b86c8160cc583bc013744c6bf255f5cc0ee5",
        "278117fc144c72340f67d0f2316e8386ceffbf2b2428c9c51fef7c597f1d426e",
        "08b8b2b733424243760fe426a4b54908632110a66c2f6591eabd3345e3e4eb98"
        "fa6e264bf09efe12ee50f8f54e9f77b1e355f6c50544e23fb1433ddf73be84d8"
        "79de7c0046dc4996d9e773f4bc9efe5738829adb26c81b37c93a1b270b20329d"
        "658675fc6ea534e0810a4432826bf58c941efb65d57a338bbd2e26640f89ffbc"
        "1a858efcb8550ee3a5e1998bd177e93a7363c344fe6b199ee5d02e82d522c4fe"
        "ba15452f80288a821a579116ec6dad2b3b310da903401aa62100ab5d1a36553e"
        "06203b33890cc9b832f79ef80560ccb9a39ce767967ed628c6ad573cb116dbef"
        "efd75499da96bd68a8a97b928a8bbc103b6621fcde2beca1231d206be6cd9ec7"
        "aff6f6c94fcd7204ed3455c68c83f4a41da4af2b74ef5c53f1d8ac70bdcb7ed1"
        "85ce81bd84359d44254d95629e9855a94a7c1958d1f8ada5d0532ed8a5aa3fb2"
        "d17ba70eb6248e594e1a2297acbbb39d502f1a8c6eb6f1ce22b3de1a1f40cc24"
        "554119a831a9aad6079cad88425de6bde1a9187ebb6092cf67bf2b13fd65f270"
        "88d78b7e883c8759d2c4f5c65adb7553878ad575f9fad878e80a0c9ba63bcbcc"
        "2732e69485bbc9c90bfbd62481d9089beccf80cfe2df16a2cf65bd92dd597b07"
        "07e0917af48bbb75fed413d238f5555a7a569d80c3414a8d0859dc65a46128ba"
        "b27af87a71314f318c782b23ebfe808b82b0ce26401d2e22f04d83d1255dc51a"
        "ddd3b75a2b1ae0784504df543af8969be3ea7082ff7fc9888c144da2af58429e"
        "c96031dbcad3dad9af0dcbaaaf268cb8fcffead94f3c7ca495e056a9b47acdb7"
        "51fb73e666c6c655ade8297297d07ad1ba5e43f1bca32301651339e22904cc8c"
        "42f58c30c04aafdb038dda0847dd988dcda6f3bfd15c4b4c4525004aa06eeff8"
        "ca61783aacec57fb3d1f92b0fe2fd1a85f6724517b65e614ad6808d6f6ee34df"
        "f7310fdc82aebfd904b01e1dc54b2927094b2db68d6f903b68401adebf5a7e08"
        "d78ff4ef5d63653a65040cf9bfd4aca7984a74d37145986780fc0b16ac451649"
        "de6188a7dbdf191f64b5fc5e2ab47b57f7f7276cd419c17a3ca8e1b939ae49e4"
        "88acba6b965610b5480109c8b17b80e1b7b750dfc7598d5d5011fd2dcc5600a3"
        "2ef5b52a1ecc820e308aa342721aac0943bf6686b64b2579376504ccc493d97e"
        "6aed3fb0f9cd71a43dd497f01f17c0e2cb3797aa2a2f256656168e6c496afc5f"
        "b93246f6b1116398a346f1a641f3b041e989f7914f90cc2c7fff357876e506b5"
        "0d334ba77c225bc307ba537152f3f1610e4eafe595f6d9d90d11faa933a15ef1"
        "369546868a7f3a45a96768d40fd9d03412c091c6315cf4fde7cb68606937380d"
        "b2eaaa707b4c4185c32eddcdd306705e4dc1ffc872eeee475a64dfac86aba41c"
        "0618983f8741c5ef68d3a101e8a3b8cac60c905c15fc910840b94c00a0b9d0",
        "0aab4c900501b3e24d7cdf4663326a3a87df5e4843b2cbdb67cbf6e460fec350"
        "aa5371b1508f9f4528ecea23c436d94b5e8fcd4f681e30a6ac00a9704a188a03",
    ),
    Vector(
        "TEST SHA(abc)",
        "833fe62409237b9d62ec77587520911e9a759cec1d19755b7da901b96dca3d42",
        "ec172b93ad5e563bf4932c70e1245034c35467ef2efd4d64ebf819683467e2bf",
        "ddaf35a193617abacc417349ae20413112e6fa4e89a97ea20a9eeee64b55d39a"
        "2192992a274fc1a836ba3c23a3feebbd454d4423643ce80e2a9ac94fa54ca49f",
        "dc2a4459e7369633a52b1bf277839a00201009a3efbf3ecb69bea2186c26b589"
        "09351fc9ac90b3ecfdfbc7c66431e0303dca179c138ac17ad9bef1177331a704",
    ),
]


def vector_cases() -> None:
    title("RFC 8032, section 7.1: the public key and the signature of each vector, by its text, and each verified.")
    for vector in VECTORS:
        seed, public, message, signature = (bytes.fromhex(text) for text in vector[1:])
        public_case(seed, public, vector.name)
        sign_case(seed, message, signature, vector.name)
        verify_case(public, message, signature, vector.name)
    title("The same signatures, but for one bit or byte of the key, the message or the signature.")
    for vector in VECTORS:
        _, public, message, signature = (bytes.fromhex(text) for text in vector[1:])
        verify_case(flipped(public, 100), message, signature, "the key")
        verify_case(flipped(public, 255), message, signature, "the sign of the key's x")
        verify_case(public, message + b"\0", signature, "a zero behind the message")
        verify_case(public, message, flipped(signature, 7), "R")
        verify_case(public, message, flipped(signature, 255), "the sign of R's x")
        verify_case(public, message, flipped(signature, 256), "S")


def flipped(data: bytes, bit: int) -> bytes:
    return (int.from_bytes(data, "little") ^ 1 << bit).to_bytes(len(data), "little")


# ---- numbers at their bounds


def scalar_cases() -> None:
    title(
        "S at its bounds: L is the order of the base point. A key whose point is neutral makes each R = [S]B hold,\n"
        "so what is refused here is S alone. S + L is the same number modulo L, and refused."
    )
    neutral = point_compress((0, 1, 1, 0))
    small = ((0, "0"), (1, "1"), (2**252, "2^252"), (q - 1, "L - 1"))
    large = ((q, "L"), (q + 1, "L + 1"), (2**253 - 1, "2^253 - 1"), (2 * q - 1, "2 L - 1"), (2 * q, "2 L"))
    larger = ((2**255 - 1, "2^255 - 1"), (2**256 - 1, "2^256 - 1"))
    for s, note in small + large + larger:
        verify_case(neutral, b"S", point_compress(point_mul(s, G)) + s.to_bytes(32, "little"), note)
    for vector in VECTORS:
        _, public, message, signature = (bytes.fromhex(text) for text in vector[1:])
        s = int.from_bytes(signature[32:], "little")
        verify_case(public, message, signature[:32] + (s + q).to_bytes(32, "little"), f"S + L, {vector.name}")


def encoding_cases() -> None:
    title(
        "Keys and commitments that are no encodings (section 5.1.3): y of p or more, which stand for smaller ones\n"
        "modulo p; x = 0 with the sign 1. As key beside R = [S]B, and as R beside the neutral key and S = 0."
    )
    neutral = point_compress((0, 1, 1, 0))
    for key, note in bad_encodings():
        assert point_decompress(key) is None
        s = 5
        verify_case(key, b"key", point_compress(point_mul(s, G)) + s.to_bytes(32, "little"), f"key, {note}")
        verify_case(neutral, b"R", key + bytes(32), f"R, {note}")
        small_order_case(key, note)
    title("A y at which no x is on the curve, as key and as R; the greatest y of a point, and the y of the base point.")
    for y in (2, 7, p - 2):
        key = y.to_bytes(32, "little")
        assert point_decompress(key) is None
        verify_case(key, b"", bytes(64), f"key, y = {y if y < 10 else 'p - 2'}")
        verify_case(neutral, b"", key + bytes(32), f"R, y = {y if y < 10 else 'p - 2'}")
    greatest = next(y for y in range(p - 1, 0, -1) if y != p - 1 and recover_x(y, 0) is not None)
    for key in (greatest.to_bytes(32, "little"), (greatest | 1 << 255).to_bytes(32, "little"), point_compress(G)):
        verify_case(key, b"", key + bytes(32))
        verify_case(neutral, b"", key + bytes(32))
        verify_case(neutral, b"", key + (1).to_bytes(32, "little"))
        small_order_case(key)


def bad_encodings() -> list[tuple[bytes, str]]:
    made = []
    for over in (0, 1, 3, 18):
        for sign in (0, 1):
            made.append(((p + over | sign << 255).to_bytes(32, "little"), f"y = p + {over}, sign {sign}"))
    made.append(((1 | 1 << 255).to_bytes(32, "little"), "y = 1, x = 0, sign 1"))
    made.append(((p - 1 | 1 << 255).to_bytes(32, "little"), "y = p - 1, x = 0, sign 1"))
    return made


# ---- points of small order


def small_points() -> list[tuple[bytes, int]]:
    """The eight points whose order divides 8, with their orders."""
    y = 3
    while True:
        point = point_decompress(y.to_bytes(32, "little"))
        if point is not None:
            torsion = point_mul(q, point)
            if not point_equal(point_mul(4, torsion), (0, 1, 1, 0)):
                break
        y += 1
    found = []
    for factor in range(8):
        point = point_mul(factor, torsion)
        order = next(n for n in (1, 2, 4, 8) if point_equal(point_mul(n, point), (0, 1, 1, 0)))
        found.append((point_compress(point), order))
    assert len({key for key, _ in found}) == 8
    return sorted(found, key=lambda entry: (entry[1], entry[0]))


def small_order_cases() -> None:
    points = small_points()
    title("The eight points of small order.")
    for key, order in points:
        small_order_case(key, f"order {order}")
    title("Keys of which none is of small order: those of the vectors, and sums of them with such points.")
    for vector in VECTORS:
        public = bytes.fromhex(vector.public)
        small_order_case(public, vector.name)
    first = point_decompress(bytes.fromhex(VECTORS[0].public))
    assert first is not None
    for key, order in points[1:]:
        torsion = point_decompress(key)
        assert torsion is not None
        small_order_case(point_compress(point_add(first, torsion)), f"the key of TEST 1 and a point of order {order}")
    title(
        "Points of small order as key and as R, with S = 0. The equation R + [k]A = 0 has no cofactor (section 5.1.7\n"
        "takes either), so the answer rests on k modulo L modulo 8, and so on the message: by the program of section 6."
    )
    for key, order in points:
        for commitment, other in points:
            verify_case(key, b"small", commitment + bytes(32), f"key of order {order}, R of order {other}")
    title("A key of small order beside R = [S]B, for S = 7: right where k is a multiple of its order.")
    for key, order in points:
        for message in (b"", b"a"):
            signature = point_compress(point_mul(7, G)) + (7).to_bytes(32, "little")
            verify_case(key, message, signature, f"key of order {order}")
    title("A key with a part of small order: with no cofactor right where k modulo L is a multiple of its order.")
    secret, _ = secret_expand(bytes.fromhex(VECTORS[0].seed))
    for key, order in points[1:]:
        torsion = point_decompress(key)
        assert torsion is not None
        mixed = point_compress(point_add(first, torsion))
        for message in (b"", b"1"):
            r = sha512_modq(message + b"r")
            commitment = point_compress(point_mul(r, G))
            s = (r + sha512_modq(commitment + mixed + message) * secret) % q
            verify_case(mixed, message, commitment + s.to_bytes(32, "little"), f"key with a part of order {order}")


# ---- keys to take in


def key_cases() -> None:
    points = small_points()
    title(
        "Public keys to take in are encodings of points that are not of small order: those of the vectors, and 200 of\n"
        "seeds at random."
    )
    for vector in VECTORS:
        key_case(bytes.fromhex(vector.public), vector.name)
    draw = random.Random(8032)
    for _ in range(200):
        private = Ed25519PrivateKey.from_private_bytes(draw.randbytes(32))
        key_case(private.public_key().public_bytes(Encoding.Raw, PublicFormat.Raw))
    title("Bytes that are no encoding, those of small order, and sums of a key with these.")
    for key, note in bad_encodings():
        key_case(key, note)
    for y in (2, 7, p - 2):
        key_case(y.to_bytes(32, "little"), f"y = {y if y < 10 else 'p - 2'}")
    for key, order in points:
        key_case(key, f"order {order}")
    first = point_decompress(bytes.fromhex(VECTORS[0].public))
    assert first is not None
    for key, order in points[1:]:
        torsion = point_decompress(key)
        assert torsion is not None
        key_case(point_compress(point_add(first, torsion)), f"the key of TEST 1 and a point of order {order}")
    title("200 lists of 32 bytes at random, of which about half are encodings.")
    for _ in range(200):
        key_case(draw.randbytes(32))


# ---- keys and messages at random


def random_cases() -> None:
    title(
        "200 keys and messages of 0 to 1,023 bytes at random, by the Python package cryptography over OpenSSL:\n"
        "a public key, a signature, or one that is verified; half of these have a bit turned."
    )
    draw = random.Random(25519)
    for place in range(200):
        seed = draw.randbytes(32)
        message = draw.randbytes(draw.randrange(1024))
        private = Ed25519PrivateKey.from_private_bytes(seed)
        public = private.public_key().public_bytes(Encoding.Raw, PublicFormat.Raw)
        signature = private.sign(message)
        if place % 4 == 0:
            public_case(seed, public)
        elif place % 4 == 1:
            sign_case(seed, message, signature)
        else:
            if place % 4 == 3:
                signature = flipped(signature, draw.randrange(512))
            assert verified(public, message, signature) == verify(public, message, signature) == (place % 4 == 2)
            verify_case(public, message, signature)


def verified(public: bytes, message: bytes, signature: bytes) -> bool:
    try:
        Ed25519PublicKey.from_public_bytes(public).verify(signature, message)
        return True
    except (InvalidSignature, ValueError):
        return False


def bad_lines() -> None:
    title("What is no case.")
    seed, public, message, signature = VECTORS[1][1:]
    for line, note in (
        ("", "no verb"),
        ("public", "no seed"),
        (f"public {seed[:-2]}", "31 bytes"),
        (f"public {seed}00", "33 bytes"),
        (f"public {seed[:-1]}g", "no hex"),
        (f"sign {seed}", "no message"),
        (f"verify {public} {message} {signature[:-2]}", "63 bytes"),
        (f"verify {public} {message} {signature} 00", "a word more"),
        (f"key {public} 00", "a word more"),
        (f"refuse {public}", "no verb of these"),
    ):
        case(line, "bad line", note)


def main() -> None:
    vector_cases()
    scalar_cases()
    encoding_cases()
    small_order_cases()
    key_cases()
    random_cases()
    bad_lines()
    for name, lines in (("stdin", questions), ("stdout", answers)):
        before, _, behind = (HERE / name).read_text().partition(BEHIND)
        (HERE / name).write_text(before.split(FIRST)[0] + "\n" + "\n".join(lines) + BEHIND + behind)


if __name__ == "__main__":
    main()
