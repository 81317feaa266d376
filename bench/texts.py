"""Texts of which documents and receipts are made."""
import base64
import json


def url_text(random_, count):
    """This many random bytes, as base64url without padding."""
    return base64.urlsafe_b64encode(random_.randbytes(count)).rstrip(b"=").decode()


def compact(value):
    return json.dumps(value, sort_keys=True, separators=(",", ":"))
