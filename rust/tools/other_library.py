#!/usr/bin/env python3
"""Tokens by another library, to see that each side takes what the other makes: by Python's joserfc or, where that isn't installed, by
Python's own json, hmac and base64 modules. Both spell what isn't ASCII by escapes with small letters.

Standard input: one request a line, its fields in hexadecimal, `-` for no bytes.

    sign SECRET KID PAYLOAD     HS256 under a header with this `kid`
    verify SECRET TOKEN

Standard output: the library's name; then for each request the token as it is, or `kid` and payload in hexadecimal, or `refused`.
"""

import base64
import hashlib
import hmac
import json
import sys

try:
    from joserfc import jwk, jws
    from joserfc.errors import JoseError
except ImportError:
    jws = None


def encoded(data):
    return base64.urlsafe_b64encode(data).rstrip(b"=")


def decoded(text):
    return base64.urlsafe_b64decode(text + b"=" * (-len(text) % 4))


def mac(secret, signed):
    return hmac.new(secret, signed, hashlib.sha256).digest()


def sign(secret, kid, payload):
    header = {"alg": "HS256", "kid": kid.decode("utf-8")}
    if jws:
        return jws.serialize_compact(header, payload, jwk.OctKey.import_key(secret)).encode()
    signed = encoded(json.dumps(header).encode()) + b"." + encoded(payload)
    return signed + b"." + encoded(mac(secret, signed))


def verify(secret, token):
    """`kid` and payload, or nothing."""
    if jws:
        try:
            found = jws.deserialize_compact(token, jwk.OctKey.import_key(secret))
        except JoseError:
            return None
        return found.protected["kid"], found.payload
    signed, _, signature = token.rpartition(b".")
    header, payload = (decoded(part) for part in signed.split(b"."))
    if not hmac.compare_digest(decoded(signature), mac(secret, signed)):
        return None
    return json.loads(header)["kid"], payload


def field(word):
    return b"" if word == "-" else bytes.fromhex(word)


def word(data):
    return data.hex() or "-"


def main():
    print("joserfc" if jws else "json and hmac")
    for line in sys.stdin:
        request, *fields = line.split()
        fields = [field(text) for text in fields]
        if request == "sign":
            print(sign(*fields).decode())
        else:
            found = verify(*fields)
            print(" ".join((word(found[0].encode("utf-8")), word(found[1]))) if found else "refused")


if __name__ == "__main__":
    main()
