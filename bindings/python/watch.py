"""Prints the current bundles of the running replica whose socket is named, and then each that changes, until it is
interrupted: the trust domain, the document id, and the key ids of the X.509 authorities."""
import hashlib
import sys

from fedbundle_client import Client

try:
    for update in Client(sys.argv[1]).watch(every=1.0):
        if update.error:
            print(update.error, file=sys.stderr, flush=True)  # no replica: ..
        elif update.bundle:
            keys = [hashlib.sha256(certificate).hexdigest() for certificate in update.bundle.x509_authorities]
            print(update.domain, update.bundle.id, f"[{' '.join(keys)}]", flush=True)
        else:
            print(update.domain, "none", flush=True)
except KeyboardInterrupt:
    pass
