#!/usr/bin/env python3
"""Writes the last groups of `stdin` and `stdout`: open definitions, memberships, amendments, modules files and tags of one ledger.

Rules are those of docs/RULES.md. Bytes come from node/regtuma/wire.py; ids and tags from `hashlib`, `hmac` and the program of RFC 8032.
"""
import hashlib
import hmac
import json
import pathlib
import sys
from collections.abc import Callable

HERE = pathlib.Path(__file__).parent
sys.path[:0] = [str(HERE.resolve().parents[1] / it) for it in ("node", "python", "test")]
import editions
import rfc8032
from regtuma.wire import Amendment, Call, Definition, Member, Membership, Payload, Read, Upgrade, Write

FIRST = "# wire: open definitions"

Row = tuple[str, str]

M2 = "4146715e99eba415ef0805fd0978db6de1a469951cd8ea428eb534c835b0327e"
B_KEY = "d75a980182b10ab7d54bfed3c964073a0ee172f3daa62325af021a68f707511a"
# The public keys of the seeds that are a name with zeros behind it.
SEEDED = {"B": bytes.fromhex("ccbc3da2c4267cc8553be0c7b5790cc75a121297528462c3d2cc679d16eb8684"),
          "C": bytes.fromhex("6f7e716f4d2c8f14cd26c027c167610cfffefa9c61aa045006e299be8b98487f")}
OWNERS = {public: name for name, public in SEEDED.items()}
NONCE = "000102030405060708090a0b0c0d0e0f"
NO_NONCE = bytes(16)
UPGRADED, AMENDED = b"\0kv", b"\0"
SEVEN = "0061736d010000000105016000017f03020100070a0106696e766f6b6500000a0601040041070b"
PUTS = ("0061736d01000000010d0260047f7f7f7f017f6000017f02140106666162726963097075745f7374617465000003020101050301000107"
        "0a0106696e766f6b6500010a11010f00410041014101410110001a41000b0b08010041000b026131")


def same(text: str) -> str:
    return f"{text}, same bytes"


def of_payload(payload: Payload, text: str) -> list[Row]:
    """What a payload is, the id of its proposal, and A's tag under the key `Jefe`."""
    whole = payload.encode()
    return [
        (f"payload {whole.hex()}", same(text)),
        (f"tx_id {whole.hex()}", hashlib.sha256(payload.proposal.encode()).hexdigest()),
        (f"tag 4a656665 {whole.hex()}", hmac.digest(b"Jefe", whole, "sha256").hex()),
    ]


def put(key: bytes, value: Definition | Membership, seen: str = "-") -> str:
    return f"r:0x{key.hex()}@{seen} w:0x{key.hex()}=0x{value.encode().hex()}"


def definitions() -> list[Row]:
    rest = "07*32 00000047 0003 274127"
    opened = Definition(17, bytes.fromhex(M2), 141, "'A'")
    rows = [(f"definition {form} {rest}", same(f"definition := {int(form, 16)} {'07' * 32} 71 'A'")) for form in ("11", "12")]
    rows += [(f"definition {form} {rest}", "refused 303") for form in ("10", "13", "21", "81", "91")]
    rows += [
        ("definition 11", "refused 301"),
        ("definition 11 07*32 00000000 0003 274127", "refused 304"),
        ("definition 12 07*32 00000047 0000", "refused 304"),
        (f"definition 11 {rest} 00", "refused 305"),
        (f"definition {opened.encode().hex()}", same(f"definition := 17 {M2} 141 'A'")),
    ]
    rows += of_payload(Payload.of_change(Upgrade("kv", opened, NO_NONCE)), f"kv := 17 {M2} 141 'A' {put(UPGRADED, opened)}")
    return rows + [(f"payload 00 026b76 {form} 07*32", "refused 303") for form in ("10", "13")]


def memberships() -> list[Row]:
    kept = "0141 00 0142 00"
    sixteen = [bytes([97 + place]) * 32 for place in range(16)]
    greatest = Membership(2**32 - 1, [Member(name.decode(), bytes.fromhex(B_KEY)) for name in sixteen], "~" * 1024)
    shown = ",".join(f"{name.decode()}={B_KEY}" for name in sixteen)
    return [
        ("membership 01 00000001 01 0141 00 0003 274127", same("1 A 'A'")),
        ("membership 01 00000000 01 0141 00 0003 274127", same("0 A 'A'")),
        (f"membership 01 00000002 02 {kept} 0003 274127", same("2 A,B 'A'")),
        (f"membership 01 00000002 02 0141 00 0142 01 {B_KEY} 000b 4f52282741272c27422729", same(f"2 A,B={B_KEY} OR('A','B')")),
        (f"membership {greatest.encode().hex()}", same(f"4294967295 {shown} {'~' * 1024}")),
        ("membership 01 00000001 02 0142 00 0141 00 0003 274127", "refused 303"),
        ("membership 01 00000001 02 0141 00 0141 00 0003 274127", "refused 303"),
        (f"membership 01 00000001 02 0141 00 0141 01 {B_KEY} 0003 274127", "refused 303"),
        ("membership 00 00000001 01 0141 00 0003 274127", "refused 303"),
        ("membership 02 00000001 01 0141 00 0003 274127", "refused 303"),
        ("membership 01 00000001 01 0141 02 0003 274127", "refused 303"),
        ("membership 01 00000001 01 012f 00 0003 274127", "refused 303"),
        ("membership 01 00000001 01 0141 00 0003 271f27", "refused 303"),
        ("membership 01 00000001 00 0003 274127", "refused 304"),
        ("membership 01 00000001 11 0141 00 0003 274127", "refused 304"),
        ("membership 01 00000001 01 00 00 0003 274127", "refused 304"),
        ("membership 01 00000001 01 21 41*33 00 0003 274127", "refused 304"),
        ("membership 01 00000001 01 0141 00 0000", "refused 304"),
        ("membership 01 00000001 01 0141 00 0401 7e*1025", "refused 304"),
        ("membership 00*0", "refused 301"),
        ("membership 01 000000", "refused 301"),
        ("membership 01 00000001", "refused 301"),
        ("membership 01 00000001 01 0141 01 07*31", "refused 301"),
        ("membership 01 00000001 01 0141 00 0003 2741", "refused 301"),
        ("membership 01 00000001 01 0141 00 0003 274127 00", "refused 305"),
    ]


def amendments() -> list[Row]:
    first = Membership(1, [Member("A")], "'A'")
    second = Membership(2, [Member("A"), Member("B", bytes.fromhex(B_KEY))], "OR('A','B')")
    rows = of_payload(Payload.of_change(Amendment(first, NO_NONCE)), f"members := 1 A 'A' {put(AMENDED, first)}")
    rows += of_payload(
        Payload.of_change(Amendment(second, NO_NONCE), (2, 0)),
        f"members := 2 A,B={B_KEY} OR('A','B') {put(AMENDED, second, '2.0')}",
    )
    whole = Payload.of_change(Amendment(first, b"\2" * 16)).encode()
    return rows + [
        (f"payload {whole.hex()}", same(f"members := 1 A 'A' nonce {'02' * 16} {put(AMENDED, first)}")),
        ("payload 80", "refused 301"),
        (f"payload 80 {first.encode().hex()} 00*15", "refused 301"),
        (f"payload {whole.hex()} 00", "refused 305"),
        ("payload 80 02", "refused 303"),
        ("payload 80 01 00000001 00", "refused 304"),
        ("payload 7f", "refused 304"),
        ("payload 81", "refused 304"),
    ]


def endorsements() -> list[Row]:
    def opened(form: int, policy: str) -> str:
        return put(UPGRADED, Definition(form, b"\x08" * 32, 71, policy))

    def behind(policy: str) -> str:
        return f"r:0x006b76@1.0 / w:0x006b76=0x{Definition(17, bytes([8]) * 32, 71, policy).encode().hex()}"

    def members(words: str) -> list[Member]:
        split = [word.partition("!") for word in words.split("+")]
        return [Member(name, SEEDED[seed] if seed else None) for name, _, seed in split]

    def amended(serial: int, words: str, policy: str, seen: str = "-") -> str:
        return f"a:{serial},{words},{policy} {put(AMENDED, Membership(serial, members(words), policy), seen)}"

    first, only_b = Membership(1, [Member("A")], QA), Membership(1, [Member("B")], QB)
    after_b = f"/ w:0x00=0x{only_b.encode().hex()}"
    cases = [
        (f"A/A 'A' | u17:8,71,'B' {opened(17, chr(39) + 'B' + chr(39))}", True),
        (f"A/A 'A' | u18:8,71,'B' {opened(18, QB)}", True),
        (f"A/A 'A' | u17:7,71,'B' {put(UPGRADED, Definition(17, bytes([7]) * 32, 71, QB))}", True),
        (f"B/B 'A' | u17:8,71,'B' {opened(17, QB)}", False),
        (f"A/A 'A' | u17:8,71,'B' {opened(1, QB)}", False),
        (f"A/A 'A' | u17:8,71,'B' {opened(18, QB)}", False),
        (f"A/A 'A' | u17:8,71,'C' {opened(17, QC)}", False),
        (f"A/A 'A' | u17:8,71,OR('A','C') {opened(17, 'OR(' + QA + ',' + QC + ')')}", False),
        (f"A/A 'A' | u17:8,71,OR( {opened(17, 'OR(')}", False),
        (f"B/B 'A' | {behind(QB)}", True),
        (f"A/A 'A' | {behind(QB)}", False),
        (f"A/A 'A' | {behind('OR(' + QA + ',' + QC + ')')}", True),
        (f"A/A 'A' | {behind(QC)}", False),
        (f"C/C 'A' | {behind(QC)}", False),
        (f"A/A 'A' | {behind('OR(')}", False),
        (f"A/A 'A' | {amended(1, 'A', QA)}", True),
        (f"A/A,B/B 'A' | {amended(1, 'A+B', QA)}", True),
        (f"A/A 'A' | {amended(1, 'B', QB)}", True),
        (f"B/B 'A' | {amended(1, 'A', QA)}", False),
        (f"B/B 'A' | {amended(1, 'B', QB)}", False),
        (f"A/A 'A' | {amended(0, 'A', QA)}", False),
        (f"A/A 'A' | {amended(2, 'A', QA)}", False),
        (f"A/A 'A' | {amended(1, 'A+C', QA)}", False),
        (f"A/A 'A' | {amended(1, 'A', QB)}", False),
        (f"A/A 'A' | {amended(1, 'A', 'OR(')}", False),
        ("A/A 'A' | a:1,A,'A' r:0x006b76@-", False),
        (f"A/A 'A' | a:1,A,'A' w:0x00=0x{first.encode().hex()}", False),
        (f"A/A 'A' | a:1,A,'A' r:0x00@- r:a@- w:0x00=0x{first.encode().hex()}", False),
        (f"A/A 'A' | {amended(1, 'A', QA)} w:a=1", False),
        (f"A/A 'A' | a:1,A,'A' {put(AMENDED, only_b)}", False),
        (f"A/A 'A' | r:0x006b76@- {after_b}", False),
        (f"A/A OR('A','B') | r:0x006b76@- {after_b}", False),
        (f"B/B OR('A','B') | r:0x006b76@- {after_b}", True),
        (f"B/B OR('A','B') | {amended(2, 'A+B', QA)} {after_b}", True),
        (f"A/A OR('A','B') | {amended(2, 'A+B', QA)} {after_b}", False),
        (f"B/B OR('A','B') | {amended(1, 'A+B', QA)} {after_b}", False),
        (f"B/B OR('A','B') | u17:8,71,'B' {opened(17, QB)} {after_b}", True),
        (f"B/B OR('A','B') | u17:8,71,'A' {opened(17, QA)} {after_b}", False),
        (f"A/A OR('A','B') | u17:8,71,'B' {opened(17, QB)} {after_b}", False),
        ("A/A 'A' | r:0x006b76@- / w:0x00=01", True),
        (f"A/A 'A' | r:0x006b76@- / w:0x00=0x{Membership(1, [Member('C')], QC).encode().hex()}", True),
        (f"A/A 'A' | {amended(1, 'A', QA)} / w:0x00=0x{Membership(1, [Member('C')], QC).encode().hex()}", True),
    ]
    twice = f"{after_b} / w:0x00=0x{only_b.encode().hex()}"
    seen = [
        (f"A/A 'A' | {amended(1, 'A', QA, '1.0')}", False),
        (f"A/A 'A' | u17:8,71,'B' {put(UPGRADED, Definition(17, bytes([8]) * 32, 71, QB), '1.0')}", False),
        (f"B/B OR('A','B') | {amended(2, 'A+B', QA, '1.0')} {after_b}", True),
        (f"B/B OR('A','B') | {amended(2, 'A+B', QA, '1.1')} {after_b}", False),
        (f"B/B OR('A','B') | {amended(2, 'A+B', QA, '2.0')} {after_b}", False),
        (f"B/B OR('A','B') | {amended(2, 'A+B', QA, '1.0')} {twice}", True),
        (f"B/B OR('A','B') | {amended(2, 'A+B', QA, '1.511')} {twice}", True),
        (f"B/B OR('A','B') | {amended(2, 'A+B', QA, '2.0')} {twice}", True),
        (f"B/B OR('A','B') | {amended(2, 'A+B', QA, '3.0')} {twice}", False),
        (f"A/A 'A' | u17:8,71,'B' {put(UPGRADED, Definition(17, bytes([8]) * 32, 71, QB), '1.0')} / w:0x006b76=1", True),
        (f"A/A 'A' | u17:8,71,'B' {put(UPGRADED, Definition(17, bytes([8]) * 32, 71, QB), '2.0')} / w:0x006b76=1", False),
    ]
    one_key = [
        (f"A/A 'A' | {amended(1, 'A!C+B', QA)}", True),
        (f"A/A 'A' | {amended(1, 'A!B+B', QA)}", False),
        (f"A/A 'A' | {amended(1, 'A!B+B!C', QA)}", True),
        (f"A/A 'A' | {amended(1, 'A!B+B!B', QA)}", False),
        (f"A/A 'A' | {amended(1, 'A!B', QA)}", True),
        (f"B!B AND('A','B') | r:0x006b76@- / w:0x00=0x{Membership(1, members('A!B+B'), 'AND(' + QA + ',' + QB + ')').encode().hex()}", False),
        (f"A!B,B!B AND('A','B') | r:0x006b76@- / w:0x00=0x{Membership(1, members('A!B+B'), 'AND(' + QA + ',' + QB + ')').encode().hex()}", False),
        (f"A!C,B!B AND('A','B') | r:0x006b76@- / w:0x00=0x{Membership(1, members('A!C+B'), 'AND(' + QA + ',' + QB + ')').encode().hex()}", True),
    ]
    rows = [(f"endorsed A,B {case}", endorsed) for case, endorsed in cases + seen]
    rows += [(f"endorsed A,B! {case}", endorsed) for case, endorsed in one_key]
    return [(case, "true" if endorsed else "false") for case, endorsed in rows]


def simulations() -> list[Row]:
    call = "kv() r:0x006b76@{} w:a=1"

    def upgraded(form: int, fuel: int, policy: str) -> str:
        value = Definition(form, b"\7" * 32, fuel, policy)
        return f"kv := {form} {'07' * 32} {fuel} {policy} {put(UPGRADED, value)}"

    def amended(serial: int, seen: str = "-") -> str:
        return f"members := {serial} A 'A' {put(AMENDED, Membership(serial, [Member('A')], QA), seen)}"

    cases = [
        ("u17:7,71,'A' | ", f"{upgraded(17, 71, QA)} / {call.format('1.0')}"),
        ("u17:7,71,'Z' | ", f"{upgraded(17, 71, QZ)} / {call.format('1.0')}"),
        ("u17:7,70,'A' | ", f"{upgraded(17, 70, QA)} / refused 403"),
        ("u17:8,71,'A' | ", f"refused 406 / {call.format('-')}"),
        ("u18:7,71,'A'", "refused 406"),
        ("u17:7,71,'A", "refused 407"),
        ("u17:7,71,OutOf(2,'Z')", "refused 407"),
        ("u17:8,71,'A", "refused 406"),
        ("a:1,A,'A' | ", f"{amended(1)} / {call.format('-')}"),
        ("a:1,A,'A' | a:1,A,'A' | a:2,A,'A'", f"{amended(1)} / refused 408 / {amended(2, '1.0')}"),
        ("a:0,A,'A' | ", f"refused 408 / {call.format('-')}"),
        ("a:2,A,'A'", "refused 408"),
        ("a:1,A,'Z'", "refused 408"),
        ("a:1,A,'A", "refused 408"),
        ("a:1,B,'B'", "refused 408"),
        ("a:1,A+B,'A'", "refused 408"),
    ]
    return [(f"simulate kv 71 {PUTS} | {case}", answer) for case, answer in cases]


Changes = dict[str, object]


def line(fields: Changes, without: str = "") -> str:
    return "event " + json.dumps({name: held for name, held in fields.items() if name != without}, separators=(",", ":"))


def begins() -> list[Row]:
    """Begins of upgrades to open definitions, and of amendments."""
    opened: Changes = {"do": "begin", "fuel": 141, "module": M2, "nonce": NONCE, "peer": 0, "policy": QA, "profile": 17,
                       "seat": 3, "upgrade": "kv"}
    b: Changes = {"name": "B", "public": B_KEY}
    amend: Changes = {"do": "begin", "members": [{"name": "A"}, b], "nonce": NONCE, "peer": 0, "policy": "OR('A','B')", "seat": 3,
                      "serial": 2}
    read: Callable[[str], str] = lambda text: f"begin 0.3 members := {text} {NONCE}"
    many = [{"name": chr(65 + place)} for place in range(17)]
    rows = [(line(opened | {"profile": form}), f"begin 0.3 kv := {form} {M2} 141 'A' {NONCE}") for form in (17, 18)]
    rows += [(line(opened | {"profile": form}), "bad line") for form in (16, 19, 33, 273, 2**32 + 17, "17", 17.0)]
    rows += [
        (line(amend), read(f"2 A,B={B_KEY} OR('A','B')")),
        (line(dict(reversed(amend.items())) | {"members": [{"name": "A"}, dict(reversed(b.items()))]}), read(f"2 A,B={B_KEY} OR('A','B')")),
        (line(amend | {"members": [{"name": "A"}, b | {"public": B_KEY.upper()}]}), read(f"2 A,B={B_KEY} OR('A','B')")),
        (line(amend | {"members": [{"name": "A"}], "policy": QA, "serial": 0}), read("0 A 'A'")),
        (line(amend | {"members": many[:16], "policy": QZ, "serial": 2**32 - 1}), read(f"4294967295 {','.join('ABCDEFGHIJKLMNOP')} 'Z'")),
    ]
    wrong: list[Changes] = [{"serial": held} for held in (-1, 1.0, 2**32, 2**64, "1", None)]
    wrong += [{"members": held} for held in ([], many, {"name": "A"}, "A", ["A"], [[]], [{}], [{"public": B_KEY}], [{"name": 1}])]
    wrong += [{"members": [{"name": "B"}, {"name": "A"}]}, {"members": [{"name": "A"}, {"name": "A"}]}]
    wrong += [{"members": [{"name": name}]} for name in ("", "A" * 33, "A/")]
    wrong += [{"members": [b | {"public": held}]} for held in ("", "-", B_KEY[:62], B_KEY + "00", B_KEY[:63], "x" * 64, 1, None)]
    wrong += [{"members": [b | {"key": "4a656665"}]}, {"members": [{"name": "A", "kept": True}]}]
    wrong += [{"nonce": NONCE[:30]}, {"policy": ""}, {"policy": "~" * 1025}, {"peer": -1}, {"seat": "3"}, {"do": "amend"}]
    wrong += [{"upgrade": "kv"}, {"chaincode": "kv"}, {"more": 1}]
    rows += [(line(amend | change), "bad line") for change in wrong]
    return rows + [(line(amend, without), "bad line") for without in amend]


def own_simulations() -> list[Row]:
    call = f"simulate kv 71 {PUTS} | "
    return [(call, "kv() r:0x006b76@- w:a=1"), (f"under 2 {call}", "kv() r:0x006b76@-")]


def modules() -> list[Row]:
    digest = hashlib.sha256(bytes.fromhex(SEVEN)).hexdigest()
    entry = f'{{"module":"{SEVEN}","profile":1}}'

    def of(count: int) -> str:
        return "modules [" + ",".join([entry] * count) + "]"

    refused = [
        (801, ["", "[", "[]]", "modules"]),
        (802, ["{}", "null", entry, "[1]", "[[]]", "[{}]", f'[{{"module":"{SEVEN}"}}]', '[{"profile":1}]', f'[{{"module":"{SEVEN}","name":"kv","profile":1}}]',
               '[{"module":1,"profile":1}]', '[{"module":"0","profile":1}]', '[{"module":"0x","profile":1}]', f'[{{"module":"{SEVEN}","profile":"1"}}]']),
        (803, [f'[{{"module":"{SEVEN}","profile":{number}}}]' for number in (0, 3, 17, 257)]),
        (804, [f'[{{"module":"{held}","profile":1}}]' for held in ("", "00", "0061736d", "0061736d01000000")] + [f'[{entry},{{"module":"00","profile":2}}]']),
    ]
    rows = [(of(count), f"read modules={count}" + f" {digest}" * count) for count in (0, 1, 64)] + [(of(65), "refused 803")]
    rows += [(f'modules [{entry},{{"profile":2,"module":"{SEVEN.upper()}"}}]', f"read modules=2 {digest} {digest}/2")]
    return rows + [(f"modules {text}", f"refused {number}") for number, texts in refused for text in texts]


def signed_for(signer: str, ledger: bytes, data: bytes) -> str:
    """A signature of some bytes for one ledger alone, by the seed that is a name with zeros behind it."""
    return rfc8032.sign(signer.encode().ljust(32, b"\0"), b"\xfftag " + ledger + data).hex()


def bound_bytes() -> list[Row]:
    call = Call("kv", b"", NO_NONCE)
    wrote = Payload(call, reads=[Read(UPGRADED, None)], writes=[Write(b"a", b"1")]).encode()
    ledgers = [bytes([7]) * 32, bytes(range(32)), bytes(32)]
    texts = [b"", b"\xff", call.encode(), wrote, b"\xfftag " + ledgers[0] + wrote]
    return [(f"bound B {it.hex()} {data.hex()}".rstrip(), signed_for("B", it, data)) for it in ledgers for data in texts]


def bound_tags() -> list[Row]:
    """Tags under rules 2, and under rules 1: those of one kind are wrong under the other."""
    both = "AND('A','B')"
    upgraded = f"u:7,71,'B' {put(UPGRADED, Definition(1, bytes([7]) * 32, 71, QB))}"

    def stands(*members: Member) -> str:
        return f"r:0x006b76@- / w:0x00=0x{Membership(1, members, both).encode().hex()}"

    def amended(*members: Member) -> str:
        shown = "+".join(f"{it.name}!{OWNERS[it.public]}" if it.public else it.name for it in members)
        return f"a:1,{shown},'A' {put(AMENDED, Membership(1, members, QA))}"

    own_a, kept_b = Member("A", SEEDED["C"]), Member("B")
    taken, own_b = Member("A", SEEDED["B"]), Member("B", SEEDED["C"])
    second = [
        ("A,B! B@B 'B'", True),
        ("A,B! B!B 'B'", False),
        ("A,B! B*B 'B'", False),
        ("A,B! B@A 'B'", False),
        ("A,B! B/B 'B'", False),
        ("A,B! B?B 'B'", False),
        ("A,B! B!B,B@B 'B'", True),
        ("A,B! B@B 'A'", False),
        ("A,B! A/A 'A'", True),
        ("A,B! A@A 'A'", False),
        (f"A,B! A/A,B@B {both}", True),
        (f"A,B! A/A,B!B {both}", False),
        (f"A!,B! A@A,B@B {both}", True),
        ("A!,B! A@B,B@A OR('A','B')", False),
        ("A,B! D@D OR('A','B')", False),
        (f"A,B! B@B 'B' | {upgraded}", True),
        (f"A,B! B!B 'B' | {upgraded}", False),
        (f"A,B! A@C,B@B {both} | {stands(own_a, kept_b)}", True),
        (f"A,B! A!C,B@B {both} | {stands(own_a, kept_b)}", False),
        (f"A,B! A*C,B@B {both} | {stands(own_a, kept_b)}", False),
        (f"A,B! A@C,B!B {both} | {stands(own_a, kept_b)}", False),
        (f"A,B! A@C,B*B {both} | {stands(own_a, kept_b)}", False),
        (f"A,B! A/A,B@B {both} | {stands(own_a, kept_b)}", False),
        (f"A,B! A@B,B@B {both} | {stands(taken, kept_b)}", False),
        (f"A,B! A/A,B@B {both} | {stands(taken, kept_b)}", True),
        (f"A,B! A/A 'A' | {amended(own_a, kept_b)}", True),
        (f"A,B! A/A 'A' | {amended(taken, kept_b)}", False),
        (f"A,B! A/A 'A' | {amended(taken, own_b)}", True),
        (f"A,B! A/A 'A' | {amended(own_a, own_b)}", False),
    ]
    first = [
        ("A,B! B@B 'B'", False),
        ("A,B! B*B 'B'", False),
        (f"A,B! A!C,B!B {both} | {stands(own_a, kept_b)}", True),
        (f"A,B! A@C,B@B {both} | {stands(own_a, kept_b)}", False),
    ]
    rows = [(f"under 2 endorsed {case}", endorsed) for case, endorsed in second] + [(f"endorsed {case}", endorsed) for case, endorsed in first]
    return [(case, "true" if endorsed else "false") for case, endorsed in rows]


QA, QB, QC, QZ = "'A'", "'B'", "'C'", "'Z'"

GROUPS: list[tuple[str, Callable[[], list[Row]]]] = [
    (f"{FIRST} begin with 17 and 18, by the profile; with 16, 19 or another byte there is none (303)", definitions),
    ("# wire: a membership is the byte 01, a serial number, 1 to 16 members, each a name and a key, whose names ascend, and a policy's text", memberships),
    ("# wire: an amendment is the byte 80, a membership and a nonce; no name has so many bytes", amendments),
    ("# endorsement_policy: an upgrade to an open definition needs a policy of organisations, and no module that is installed; a call under one"
     " falls under its text, whatever that names. An amendment has to be to the next membership that can be used, and falls under the"
     " policy that stands; whose tags are right is by who stands. Neither an upgrade nor an amendment has read a key newer than it stands"
     " before the block, and no two members have one public key, be it kept", endorsements),
    ("# simulator: an open definition is of a module at hand (406) and of a policy, whatever it names (407); an amendment is 408 where"
     " its membership may not come next", simulations),
    ("# json_events: upgrades to open definitions, and amendments", begins),
    ("# json_genesis: a modules file: 0 to 64 modules, and what is refused", modules),
    ("# org_keys: what is signed for one ledger alone has in front the byte ff, `tag ` and the digest; signatures by the program of RFC 8032", bound_bytes),
    ("# endorsement_policy: under rules 2 public keys, be they listed, kept or members' own, are of one ledger alone; under rules 1 no key is", bound_tags),
    ("# mvcc_validate: under rules 2 no read is current of a key that a VALID transaction of the same block wrote, and a range is as it was"
     " before the block too", editions.versions),
    ("# host_api: under rules 2 chaincode writes and deletes keys that begin with its name and / alone (-2)", editions.own_keys),
    ("# simulator: under rules 2 a put of another key is left out", own_simulations),
    ("# endorsement_policy: under rules 2 a call that claims a write or a delete of another key is not endorsed", editions.claims),
]


def main() -> None:
    groups = [(title, make()) for title, make in GROUPS]
    for name, part in (("stdin", 0), ("stdout", 1)):
        kept = (HERE / name).read_text().split(f"\n{FIRST}")[0].rstrip("\n")
        lines = [text for title, rows in groups for text in ("", title, *(row[part] for row in rows))]
        (HERE / name).write_text("\n".join([kept, *lines]) + "\n")


if __name__ == "__main__":
    main()
