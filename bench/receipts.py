"""Receipts, snapshots and a configuration, always the same: a chain of documents, each under the key of the one before."""
import base64
import hashlib
import heapq
import random
import tempfile

from texts import url_text

DOMAIN = "a.example"
ENDPOINT = "spiffe://a.example/bundle"
SIZES = {"small": [16_384, 65_536], "usual": [4_096, 16_384]}
KINDS = list(SIZES)
# How many receipts a state holds if nothing else is said.
USUAL_LIMIT = 65_536
# So many bytes of lines are sorted in memory at once.
PART_BYTES = 268_435_456


def rsa(der, n):
    return f'{{"e":"AQAB","kty":"RSA","n":"{n}","use":"x509-svid","x5c":["{base64.b64encode(der).decode()}"]}}'


def small(random_):
    """One short authority, and its certificate."""
    der = random_.randbytes(12)
    return [rsa(der, "AQAB")], der


def usual(random_):
    """As servers publish them: an RSA and an EC certificate's authority, and one for JWTs. Some 2,800 bytes."""
    der = random_.randbytes(880)
    other = base64.b64encode(random_.randbytes(500)).decode()
    x, y = url_text(random_, 32), url_text(random_, 32)
    kid = url_text(random_, 24)
    return [
        rsa(der, url_text(random_, 256)),
        f'{{"crv":"P-256","kty":"EC","use":"x509-svid","x":"{x}","x5c":["{other}"],"y":"{y}"}}',
        f'{{"e":"AQAB","kid":"{kid}","kty":"RSA","n":"{url_text(random_, 256)}","use":"jwt-svid"}}',
    ], der


def forty(random_):
    """Forty short authorities, each with its certificate."""
    ders = [random_.randbytes(12) for _ in range(40)]
    return [rsa(der, "AQAB") for der in ders], ders[0]


MAKERS = {"small": small, "usual": usual, "forty": forty}


def document(authorities, sequence):
    return f'{{"keys":[{",".join(sorted(authorities))}],"spiffe_sequence":{sequence}}}'


SEED_DER = b"the first one"
SEED = document([rsa(SEED_DER, "AQAB")], 1)


def lines(kind, count):
    """Receipts in the order of the chain, from documents with the sequence number 2 on."""
    random_ = random.Random(f"{kind} {count}")
    voucher, key = SEED, SEED_DER
    for sequence in range(2, count + 2):
        authorities, der = MAKERS[kind](random_)
        text = document(authorities, sequence)
        voucher_id = hashlib.sha256(f"{DOMAIN}\n{voucher}".encode()).hexdigest()
        key_id = hashlib.sha256(key).hexdigest()
        yield f'{{"doc":{text},"domain":"{DOMAIN}","endpoint":"{ENDPOINT}","key":"{key_id}","voucher":"{voucher_id}"}}\n'
        voucher, key = text, der


def config_text():
    """In its canonical form."""
    relationship = (
        f'{{"domain":"{DOMAIN}","endpoint":"{ENDPOINT}","profile":"https_spiffe","url":"https://bundles.a.example/"}}'
    )
    return f'{{"relationships":[{relationship}],"seeds":[{{"bundle":{SEED},"domain":"{DOMAIN}"}}]}}'


def write_config(folder):
    path = folder / "config"
    path.write_text(config_text())
    return path


def write_receipts(folder, kind, count):
    """The configuration, and this many receipts."""
    path = folder / f"{kind}-{count}"
    if not path.exists():
        with path.open("w") as file:
            file.write(config_text() + "\n")
            file.writelines(lines(kind, count))
    return path


def write_snapshot(folder, kind, count):
    path = folder / f"{kind}-{count}.snapshot"
    if not path.exists():
        write_state(path, kind, count)
    return path


def write_state(path, kind, count):
    """A state file with this many receipts. The last line of their chain is returned."""
    digest = hashlib.sha256(config_text().encode()).hexdigest()
    with path.open("w") as file:
        file.write(f'{{"config":"{digest}","format":2}}\n')
        last = write_sorted(file, lines(kind, count), path.parent)
        file.write(f'{{"count":{count},"distrusts":0}}\n')
    return last


def write_sorted(file, lines_, folder):
    """Writes the lines in order, and returns the one that came last. If there are many, sorted parts of them are put in
    files of the folder, so that not all are in memory."""
    parts, part, length, last = [], [], 0, ""
    for last in lines_:
        part.append(last)
        length += len(last)
        if length >= PART_BYTES:
            parts.append(sorted_part(part, folder))
            part, length = [], 0
    file.writelines(heapq.merge(*parts, sorted(part)))
    for done in parts:
        done.close()
    return last


def sorted_part(part, folder):
    """A file without a name that has the lines in order."""
    file = tempfile.TemporaryFile("w+", dir=folder)
    file.writelines(sorted(part))
    file.seek(0)
    return file


def limit_words(count):
    """The arguments with which a command may hold this many receipts: none if it may anyway."""
    return ["--most-receipts", str(count)] if count > USUAL_LIMIT else []
