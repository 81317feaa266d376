#!/usr/bin/env python3
"""Compares what `cert_key` reads of certificates with what Python's `cryptography` says of them.

The certificates are made by `cryptography` and by openssl: RSA, P-256 and Ed25519, issued again for the same key, signed by
another authority, of version 1, with times from 1950 on and with GeneralizedTime. Each is also damaged: cut short, with a
byte changed, with a length in more bytes than it needs, with bytes after it, or with another time. A certificate that
`cryptography` reads must be read here, with the same public key, subject and times; of the others, which `cryptography`
refuses for what is not read here, the differences are counted, and those that Python refuses for a length or a time must be
refused here too.

It also compares the texts of names. Each name is made here byte by byte, and its text is made from what RFC 4514 says; damaged
ones are read by a reader of this file. If the two write alike, the texts are those of `cryptography` and of openssl too. They
write other texts by design for these: `cryptography` leaves bytes past ASCII and control characters other than NUL as they are,
writes the text of a BMPString or TeletexString, and of a value whose type has no short name; openssl writes hexadecimal digits
in upper case, short names for more types, and the attributes of one RDN in the opposite order.

The rows are answered by the program `floor_rows`, which `rt try` builds in seconds; it proves nothing. It needs python3,
its package `cryptography`, openssl and rt.

usage: certificates [--rows | --name-rows]     prints the rows that crates/floor_rows has of them, and nothing is tried
"""
import datetime
import random
import re
import subprocess
import sys
import tempfile
from pathlib import Path

from cryptography import x509
from cryptography.hazmat.primitives import hashes, serialization
from cryptography.hazmat.primitives.asymmetric import ec, ed25519, rsa
from cryptography.x509.oid import NameOID

TOP = Path(__file__).resolve().parent.parent
UTC = datetime.timezone.utc


def name(text):
    return x509.Name([x509.NameAttribute(NameOID.COUNTRY_NAME, "DE"), x509.NameAttribute(NameOID.COMMON_NAME, text)])


def issue(key, signer, subject, first, last, issuer=None):
    builder = (
        x509.CertificateBuilder()
        .subject_name(name(subject))
        .issuer_name(name(issuer or subject))
        .public_key(key.public_key())
        .serial_number(random.randrange(1, 2**100))
        .not_valid_before(first)
        .not_valid_after(last)
        .add_extension(x509.BasicConstraints(ca=True, path_length=None), critical=True)
    )
    digest = None if isinstance(signer, ed25519.Ed25519PrivateKey) else hashes.SHA256()
    return builder.sign(signer, digest).public_bytes(serialization.Encoding.DER)


def version_1():
    """A certificate of version 1, which openssl makes without the field of its version."""
    with tempfile.TemporaryDirectory() as folder:
        def openssl(*words):
            return subprocess.run(["openssl", *words], cwd=folder, check=True, capture_output=True).stdout
        openssl("ecparam", "-name", "prime256v1", "-genkey", "-noout", "-out", "key")
        openssl("req", "-new", "-key", "key", "-subj", "/CN=version 1", "-out", "request")
        return openssl("x509", "-req", "-in", "request", "-key", "key", "-days", "30", "-outform", "DER")


def at(year, month=1, day=1, hour=0, minute=0, second=0):
    return datetime.datetime(year, month, day, hour, minute, second)


def originals():
    rsa_key = rsa.generate_private_key(65537, 2048)
    ec_key = ec.generate_private_key(ec.SECP256R1())
    ed_key = ed25519.Ed25519PrivateKey.generate()
    return {
        "RSA": issue(rsa_key, rsa_key, "rsa", at(2024, 2, 29, 23, 59, 59), at(2034)),
        "P-256": issue(ec_key, ec_key, "p-256", at(2025, 6, 30), at(2035, 12, 31, 12, 30, 15)),
        "Ed25519": issue(ed_key, ed_key, "ed25519", at(2026), at(2027)),
        "issued again for the same key": issue(ed_key, ed_key, "ed25519", at(2027), at(2028)),
        "signed by another": issue(ed_key, ec_key, "ed25519", at(2026), at(2027), "p-256"),
        "1950 and GeneralizedTime": issue(ed_key, ed_key, "ed25519", at(1950), at(2050)),
        "the last UTCTime": issue(ed_key, ed_key, "ed25519", at(2049, 12, 31, 23, 59, 59), at(9999, 12, 31, 23, 59, 59)),
        "1999 and 2000": issue(ed_key, ed_key, "ed25519", at(1999, 12, 31), at(2000, 2, 29)),
        "version 1": version_1(),
    }


def length_at(der, place):
    """How many bytes the header of the element there has, and its content."""
    first = der[place + 1]
    if first < 128:
        return 2, first
    more = first - 128
    return 2 + more, int.from_bytes(der[place + 2 : place + 2 + more], "big")


def elements(der, place, end):
    found = []
    while place < end:
        header, content = length_at(der, place)
        found.append((place, header, content))
        place += header + content
    return found


def fields(der):
    """The places of the fields of tbsCertificate."""
    outer, _ = length_at(der, 0)
    header, content = length_at(der, outer)
    return elements(der, outer + header, outer + header + content)


def longer_length(der, place):
    """The element there with its length in one byte more."""
    header, content = length_at(der, place)
    size = max(1, (content.bit_length() + 7) // 8) + (1 if content >= 128 else 0)
    return der[: place + 1] + bytes([128 + size]) + content.to_bytes(size, "big") + der[place + header :]


def damaged(der, chance):
    found = fields(der)
    places = [0, length_at(der, 0)[0]] + [place for place, _, _ in found]
    for place in places:
        yield "a length in more bytes", longer_length(der, place)
    yield "a byte after", der + b"\0"
    yield "cut short", der[:-1]
    for _ in range(40):
        end = chance.randrange(len(der))
        yield "cut short", der[:end]
    until = sum(found[6 if der[found[0][0]] == 160 else 5][:2])
    for _ in range(120):
        place = chance.randrange(until)
        yield "a byte changed", der[:place] + bytes([chance.randrange(256)]) + der[place + 1 :]
    validity = found[4 if der[found[0][0]] == 160 else 3]
    start = validity[0] + validity[1]
    for place, header, content in elements(der, start, start + validity[2]):
        text = der[place + header : place + header + content]
        for other in times(text, chance):
            yield "another time", der[: place + header] + other + der[place + header + content :]


def times(text, chance):
    """Texts of the length of a time, most of them no real times."""
    year = text[:-11]
    for rest in [b"0631000000Z", b"0230120000Z", b"0229120000Z", b"1301000000Z", b"0001000000Z", b"0100000000Z",
                 b"0101240000Z", b"0101006000Z", b"0101000060Z", b"0101000000+", b"0101000000z", b"01010 0000Z", b"1231235959Z"]:
        yield year + rest
    for _ in range(10):
        digit = chance.randrange(len(year))
        yield year[:digit] + b"%d" % chance.randrange(10) + text[digit + 1 :]


def read_by_python(der):
    """What `cryptography` says of it, or why it does not."""
    try:
        certificate = x509.load_der_x509_certificate(der)
        first, last = certificate.not_valid_before_utc, certificate.not_valid_after_utc
        subject = certificate.subject.public_bytes()
        # The bytes of the key as they are: its own writer may spell a key in another way.
        found = fields(der)
        key = found[6 if der[found[0][0]] == 160 else 5]
        public_key = der[key[0] : key[0] + key[1] + key[2]]
        certificate.public_key()
    except Exception as error:
        return None, f"{type(error).__name__}: {error}"
    return (public_key.hex(), subject.hex(), int(first.timestamp()), int(last.timestamp())), None


def lines_of(parts):
    if parts is None:
        return ["none"]
    public_key, subject, first, last = parts
    return [f"public key {public_key}", f"subject {subject}", f"from {first} to {last}"]


def rows_answered(rows):
    """What the program says of each row."""
    with tempfile.TemporaryDirectory() as folder:
        given = Path(folder) / "rows"
        given.write_text("".join(row + "\n" for row in rows))
        with given.open() as lines:
            run = subprocess.run(["rt", "try"], cwd=TOP / "crates" / "floor_rows", stdin=lines, capture_output=True, text=True)
    blocks, block = [], None
    for line in run.stdout.splitlines():
        line = line.removeprefix("| ")
        if line.startswith(("key_parts", "name_text", "moment_text")):
            block = []
            blocks.append(block)
        elif block is not None and line.startswith("  "):
            block.append(line[2:])
    if len(blocks) != sum(not row.startswith("text ") for row in rows):
        sys.exit(f"{len(blocks)} answers to {len(rows)} rows\n{run.stdout[-2000:]}\n{run.stderr[-2000:]}")
    return blocks


def answers(certificates):
    """What the program says of each."""
    # A row is shown with its answer, and the program may write 1 MiB: so the bytes are in texts, which are not shown.
    return rows_answered([row for n, der in enumerate(certificates)
                          for row in (f"text c{n} = ${{hex {der.hex()}}}", f"key_parts = ${{c{n}}}")])


def print_rows():
    for what, der in originals().items():
        if what in ("RSA",):
            continue
        print(f"# {what}")
        print(f"key_parts = ${{hex {der.hex()}}}")
        for line in lines_of(read_by_python(der)[0]):
            print(f"  {line}")


# ---- names

SHORT = {"2.5.4.3": "CN", "2.5.4.7": "L", "2.5.4.8": "ST", "2.5.4.10": "O", "2.5.4.11": "OU", "2.5.4.6": "C", "2.5.4.9": "STREET",
         "0.9.2342.19200300.100.1.25": "DC", "0.9.2342.19200300.100.1.1": "UID"}
UTF8, PRINTABLE, TELETEX, IA5, BMP = 12, 19, 20, 22, 30
CN, L, O, OU, C, DC = "2.5.4.3", "2.5.4.7", "2.5.4.10", "2.5.4.11", "2.5.4.6", "0.9.2342.19200300.100.1.25"
EMAIL, SERIAL, UUID = "1.2.840.113549.1.9.1", "2.5.4.5", "2.25.9223372036854775807"


def tlv(tag, content):
    size = len(content)
    if size < 128:
        return bytes([tag, size]) + content
    digits = size.to_bytes((size.bit_length() + 7) // 8, "big")
    return bytes([tag, 128 + len(digits)]) + digits + content


def oid_content(text):
    arcs = [int(arc) for arc in text.split(".")]
    content = b""
    for number in [arcs[0] * 40 + arcs[1], *arcs[2:]]:
        digits = [number % 128]
        while number >= 128:
            number //= 128
            digits.insert(0, 128 + number % 128)
        content += bytes(digits)
    return content


def name_der(rdns):
    """A name of RDNs, each of attributes: type, tag and value."""
    return tlv(48, b"".join(tlv(49, b"".join(tlv(48, tlv(6, oid_content(of)) + tlv(tag, value)) for of, tag, value in rdn)) for rdn in rdns))


def escaped(value):
    text = ""
    for place, byte in enumerate(value):
        character = chr(byte)
        if not 32 <= byte <= 126:
            text += f"\\{byte:02x}"
        elif character in '"+,;<>\\' or (place == 0 and character in "# ") or (place == len(value) - 1 and character == " "):
            text += "\\" + character
        else:
            text += character
    return text


def name_text(rdns):
    def attribute(of, tag, value):
        if of not in SHORT or tag not in (UTF8, PRINTABLE, IA5):
            return f"{SHORT.get(of, of)}=#{tlv(tag, value).hex()}"
        return f"{SHORT[of]}={escaped(value)}"
    return ",".join("+".join(attribute(*one) for one in rdn) for rdn in reversed(rdns))


class Refused(Exception):
    pass


def read_tlv(der):
    """An element at the front, and what is after it."""
    if len(der) < 2 or (der[1] >= 128 and not (129 <= der[1] <= 131 and len(der) >= der[1] - 126)):
        raise Refused
    header = 2 if der[1] < 128 else der[1] - 126
    size = der[1] if der[1] < 128 else int.from_bytes(der[2:header], "big")
    whole = der[: header + size]
    if len(whole) < header + size or whole != tlv(der[0], whole[header:]):
        raise Refused
    return der[0], whole[header:], der[header + size :]


def read_all(tag, content):
    found = []
    while content:
        own, inside, content = read_tlv(content)
        if own != tag:
            raise Refused
        found.append(inside)
    return found


def read_oid(content):
    numbers, value = [], 0
    for byte in content:
        if value == 0 and byte == 128:
            raise Refused
        value = value * 128 + byte % 128
        if byte < 128:
            numbers.append(value)
            value = 0
    if value or not numbers or max(numbers) >= 2**63:
        raise Refused
    first = min(numbers[0] // 40, 2)
    return ".".join(str(arc) for arc in [first, numbers[0] - 40 * first, *numbers[1:]])


def read_attribute(content):
    tag, of, rest = read_tlv(content)
    kind, value, rest = read_tlv(rest)
    if tag != 6 or rest or kind % 32 == 31:
        raise Refused
    return read_oid(of), kind, value


def text_of_der(der):
    try:
        tag, content, rest = read_tlv(der)
        if tag != 48 or rest:
            raise Refused
        rdns = [[read_attribute(one) for one in read_all(48, inside)] for inside in read_all(49, content)]
        if [] in rdns:
            raise Refused
        return name_text(rdns)
    except Refused:
        return None


def names():
    """Names, and what each is for."""
    return {
        "empty": [],
        "one RDN": [[(CN, UTF8, b"a")]],
        "several RDNs, the last first": [[(C, PRINTABLE, b"DE")], [(O, UTF8, b"Example GmbH")], [(CN, UTF8, b"spire")]],
        "each short name": [[(of, UTF8, (name + "x").encode()[:2])] for of, name in SHORT.items()],
        "a multi-valued RDN": [[(C, PRINTABLE, b"DE")], [(CN, UTF8, b"b"), (L, UTF8, b"c"), (OU, UTF8, b"a")]],
        "a SET that is not sorted": [[(OU, UTF8, b"a"), (CN, UTF8, b"b")]],
        "umlauts": [[(O, UTF8, "Grün & Söhne".encode())], [(CN, UTF8, "ß".encode())]],
        "comma, plus, quote and others": [[(CN, UTF8, b'a,b+c"d;e<f>g\\h=i')]],
        "a # first": [[(CN, UTF8, b"#1#")]],
        "spaces": [[(CN, UTF8, b"  a  ")], [(OU, UTF8, b" ")], [(O, UTF8, b"a b")]],
        "a # after a space": [[(CN, UTF8, b" #")]],
        "control characters": [[(CN, UTF8, b"a\nb\x1b[31m\x00\x7f")]],
        "an empty value": [[(CN, UTF8, b"")], [(O, PRINTABLE, b"")]],
        "DC as an IA5String": [[(DC, IA5, b"org")], [(DC, IA5, b"example")]],
        "emailAddress": [[(CN, UTF8, b"a")], [(EMAIL, IA5, b"a@example.org")]],
        "serialNumber": [[(SERIAL, PRINTABLE, b"17"), (CN, UTF8, b"a")]],
        "a BMPString and a TeletexString": [[(CN, BMP, "ü".encode("utf-16-be"))], [(O, TELETEX, b"\xfc")]],
        "a UTF8String that is no UTF-8": [[(CN, UTF8, b"\xff")]],
        "large numbers of a type": [[(UUID, UTF8, b"a")], [("0.39.127.128", UTF8, b"")], [("1.0", UTF8, b"")], [("2.0", UTF8, b"")]],
        "a long value": [[(CN, UTF8, b"x" * 300)]],
    }


def wrong_names():
    """Names that are not of the form."""
    good = name_der([[(C, PRINTABLE, b"DE")], [(CN, UTF8, b"ab")]])
    attribute = tlv(6, oid_content(CN)) + tlv(UTF8, b"ab")
    yield "an RDN without an attribute", tlv(48, tlv(49, b""))
    yield "a SEQUENCE for a SET", tlv(48, tlv(48, tlv(48, attribute)))
    yield "a SET for a SEQUENCE", tlv(49, tlv(49, tlv(48, attribute)))
    yield "no value", tlv(48, tlv(49, tlv(48, tlv(6, oid_content(CN)))))
    yield "two values", tlv(48, tlv(49, tlv(48, attribute + tlv(UTF8, b""))))
    yield "a type without a number", tlv(48, tlv(49, tlv(48, tlv(6, b"") + tlv(UTF8, b"a"))))
    yield "a type that does not end", tlv(48, tlv(49, tlv(48, tlv(6, b"\x55\x84") + tlv(UTF8, b"a"))))
    yield "a type with a byte too many", tlv(48, tlv(49, tlv(48, tlv(6, b"\x55\x80\x04") + tlv(UTF8, b"a"))))
    yield "a type of 2^63", tlv(48, tlv(49, tlv(48, tlv(6, oid_content("2.25." + str(2**63))) + tlv(UTF8, b"a"))))
    yield "a tag of two bytes", tlv(48, tlv(49, tlv(48, tlv(6, oid_content(CN)) + tlv(31, b"a"))))
    yield "a byte after", good + b"\0"
    yield "cut short", good[:-1]
    yield "a length in more bytes", bytes([48, 129]) + good[1:]


def damaged_name(der, chance):
    for _ in range(30):
        place = chance.randrange(len(der))
        yield der[:place] + bytes([chance.randrange(256)]) + der[place + 1 :]
    for _ in range(5):
        yield der[: chance.randrange(len(der))]


def others_agree(what, rdns, der):
    """What `cryptography` and openssl write, if they write as is written here."""
    if any(of not in SHORT or tag not in (UTF8, PRINTABLE, IA5) for rdn in rdns for of, tag, _ in rdn) or "not sorted" in what:
        return 0
    text, agreed = name_text(rdns), 0
    key = ed25519.Ed25519PrivateKey.generate()
    made = issue(key, key, "x", at(2026), at(2027))
    place, header, content = fields(made)[5]
    inside = made[length_at(made, 0)[0] :]
    start = length_at(made, 0)[0]
    head, size = length_at(made, start)
    body = made[start + head : place] + der + made[place + header + content : start + head + size]
    whole = tlv(48, tlv(48, body) + made[start + head + size :])
    if all(32 <= byte <= 126 for rdn in rdns for _, _, value in rdn for byte in value) and rdns:
        certificate = x509.load_der_x509_certificate(whole)
        assert certificate.subject.rfc4514_string() == text, (what, certificate.subject.rfc4514_string(), text)
        agreed += 1
    if all(len(rdn) == 1 for rdn in rdns) and rdns and "no UTF-8" not in what and "empty value" not in what:
        # RFC2253 without esc_msb's upper case: the digits after a \\ are compared in lower case.
        ran = subprocess.run(["openssl", "x509", "-inform", "DER", "-noout", "-subject", "-nameopt", "RFC2253"],
                             input=whole, capture_output=True, check=True)
        said = re.sub(r"\\[0-9A-F]{2}", lambda pair: pair.group().lower(), ran.stdout.decode().removeprefix("subject=").rstrip("\n"))
        if not re.search(r"street=", said):
            assert said == text, (what, said, text)
            agreed += 1
    return agreed


def moments():
    """Seconds, and the dates that Python has for them."""
    first = datetime.datetime(1, 1, 1, tzinfo=UTC)
    seconds = [0, -1, 59, 86399, 86400, 951782399, 951782400, 1795771490, 2524607999, 2524608000, 253402300799, -62135596800, -631152000]
    for second in seconds:
        yield second, (first + datetime.timedelta(seconds=second + 62135596800)).strftime("%Y-%m-%dT%H:%M:%SZ").rjust(20, "0")
    yield -62167219200, "0000-01-01T00:00:00Z"
    for second in (-62167219201, 253402300800, -(2**63), 2**63 - 1):
        yield second, str(second)


def name_rows():
    for what, rdns in names().items():
        yield what, name_der(rdns), name_text(rdns)
    for what, der in wrong_names():
        yield what, der, None


def try_names(chance):
    cases, agreed = [], 0
    for what, rdns in names().items():
        der = name_der(rdns)
        assert text_of_der(der) == name_text(rdns), what
        agreed += others_agree(what, rdns, der)
        cases.append((what, der, name_text(rdns)))
        cases += [(what + ", damaged", other, text_of_der(other)) for other in damaged_name(der, chance)]
    cases += [(what, der, None) for what, der in wrong_names()]
    rows = [f"name_text = ${{hex {der.hex()}}}" if der else "name_text" for _, der, _ in cases]
    wanted = ["none" if text is None else f"text {text}".rstrip() for _, _, text in cases]
    rows += [f"moment_text = {second}" for second, _ in moments()]
    wanted += [text for _, text in moments()]
    found = [" ".join(block).rstrip() for block in rows_answered(rows)]
    wrong = [(row, want, have) for row, want, have in zip(rows, wanted, found, strict=True) if want != have]
    for row, want, have in wrong:
        print(f"{row}\n  here {have}\n  there {want}")
    unread = sum(text is None for _, _, text in cases)
    print(f"{len(cases)} names: {len(cases) - unread} with a text, {unread} without; {agreed} texts as `cryptography` or openssl"
          f" writes them; {len(rows) - len(cases)} moments, {len(wrong)} wrong")
    return wrong


def main():
    chance = random.Random(1)
    if sys.argv[1:] == ["--name-rows"]:
        for what, der, text in name_rows():
            print(f"# {what}\nname_text = ${{hex {der.hex()}}}\n  {'none' if text is None else 'text ' + text}")
        for second, text in moments():
            print(f"moment_text = {second}\n  {text}")
        return
    if sys.argv[1:] == ["--rows"]:
        print_rows()
        return
    cases = []
    for what, der in originals().items():
        cases.append((what, "as it was made", der))
        cases += [(what, how, other) for how, other in damaged(der, chance)]
    read, refused, more, wrong = 0, 0, {}, 0
    for (what, how, der), found in zip(cases, answers([der for _, _, der in cases])):
        parts, why = read_by_python(der)
        if parts is not None:
            if found == lines_of(parts):
                read += 1
                continue
        elif found == ["none"]:
            refused += 1
            continue
        elif how not in ("a length in more bytes", "a byte after", "cut short", "another time"):
            more[why.split(":")[0]] = more.get(why.split(":")[0], 0) + 1
            continue
        wrong += 1
        print(f"{what}, {how}: {der.hex()}\n  here {found}\n  there {parts} {why}")
    print(f"{len(cases)} certificates: {read} read alike, {refused} refused by both, {sum(more.values())} read here alone {more}, {wrong} wrong")
    wrong += len(try_names(chance))
    sys.exit(1 if wrong else 0)


main()
