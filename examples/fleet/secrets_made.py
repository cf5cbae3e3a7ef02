"""Certificates, nkeys and credentials for `test`, made by openssl. https://github.com/nats-io/nkeys says how an nkey is
spelled, and https://docs.nats.io (Securing NATS, JWT) what a server in operator mode wants.
"""

import base64
import json
import os
import subprocess

OPERATOR, ACCOUNT, USER, SEED = 14 << 3, 0, 20 << 3, 18 << 3
# What is before the 32 bytes of an Ed25519 key in PKCS 8.
PKCS8 = bytes.fromhex("302e020100300506032b657004220420")
CURVE = ["-newkey", "ec", "-pkeyopt", "ec_paramgen_curve:prime256v1", "-nodes"]


def openssl(folder, *words, **given):
    done = subprocess.run(["openssl", *map(str, words)], cwd=folder, capture_output=True, check=True, **given)
    return done.stdout


def authority(folder, name="ca"):
    openssl(folder, "req", "-x509", *CURVE, "-keyout", f"{name}.key", "-out", f"{name}.crt", "-subj", f"/CN={name}",
        "-days", 30)


def certificate(folder, name, alternative):
    """A certificate of the authority `ca`."""
    (folder / f"{name}.ext").write_text(f"subjectAltName={alternative}\n")
    openssl(folder, "req", *CURVE, "-keyout", f"{name}.key", "-out", f"{name}.csr", "-subj", f"/CN={name}")
    openssl(folder, "x509", "-req", "-in", f"{name}.csr", "-CA", "ca.crt", "-CAkey", "ca.key", "-CAcreateserial",
        "-days", 30, "-extfile", f"{name}.ext", "-out", f"{name}.crt")


def checked(data):
    """The bytes with their CRC-16 (XMODEM) behind them, in base 32."""
    remainder = 0
    for byte in data:
        remainder ^= byte << 8
        for _ in range(8):
            remainder = (remainder << 1 ^ (0x1021 if remainder & 0x8000 else 0)) & 0xFFFF
    return base64.b32encode(data + remainder.to_bytes(2, "little")).decode().rstrip("=")


class Nkey:
    """A pair of keys of an operator, an account or a user."""

    def __init__(self, folder, kind):
        self.folder, raw = folder, os.urandom(32)
        self.file = folder / f"{kind}{raw[:4].hex()}.der"
        self.file.write_bytes(PKCS8 + raw)
        words = ["-inform", "DER", "-in", self.file, "-pubout", "-outform", "DER"]
        self.public = checked(bytes([kind]) + openssl(folder, "pkey", *words)[-32:])
        self.seed = checked(bytes([SEED | kind >> 5, (kind & 31) << 3]) + raw)

    def signed(self, data):
        message = self.folder / "message"
        message.write_bytes(data)
        words = ["-sign", "-keyform", "DER", "-inkey", self.file, "-rawin", "-in", message]
        return openssl(self.folder, "pkeyutl", *words)


def spelled(data):
    return base64.urlsafe_b64encode(data).rstrip(b"=")


def token(issuer, subject, name, nats):
    """What an issuer says of a subject (a JWT)."""
    head = {"typ": "JWT", "alg": "ed25519-nkey"}
    claims = {"jti": name, "iat": 1735689600, "iss": issuer.public, "name": name, "sub": subject.public, "nats": nats}
    data = b".".join(spelled(json.dumps(part).encode()) for part in (head, claims))
    return (data + b"." + spelled(issuer.signed(data))).decode()


def operator_mode(folder):
    """The lines of a server's configuration, and writes the credentials of a user to the file `user.creds`."""
    operator, system, account, user = (Nkey(folder, kind) for kind in (OPERATOR, ACCOUNT, ACCOUNT, USER))
    limits = dict.fromkeys(["subs", "data", "payload", "imports", "exports", "conn", "leaf"], -1) | {"wildcards": True}
    stores = dict.fromkeys(["mem_storage", "disk_storage", "streams", "consumer"], -1)
    described = {"type": "account", "version": 2}
    tokens = {
        account.public: token(operator, account, "fleet", described | {"limits": limits | stores}),
        system.public: token(operator, system, "system", described | {"limits": limits}),
    }
    of_user = token(account, user, "host", {"type": "user", "version": 2, "subs": -1, "data": -1, "payload": -1})
    (folder / "user.creds").write_text(
        f"-----BEGIN NATS USER JWT-----\n{of_user}\n------END NATS USER JWT------\n\n"
        f"-----BEGIN USER NKEY SEED-----\n{user.seed}\n------END USER NKEY SEED------\n"
    )
    preload = ", ".join(f'{public}: "{text}"' for public, text in tokens.items())
    own = token(operator, operator, "operator", {"type": "operator", "version": 2})
    return [f'operator: "{own}"', f"system_account: {system.public}", "resolver: MEMORY",
        f"resolver_preload: {{ {preload} }}"]
