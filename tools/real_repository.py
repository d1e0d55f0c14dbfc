#!/usr/bin/env python3
"""Repositories that another implementation signs: by keys of Python's `cryptography`.

    tools/real_repository.py FOLDER [KIND [ROLES]]  writes one into FOLDER: root.json, which is trusted, metadata/ and targets/
    tools/real_repository.py --cases FILE           writes the cases that `trials` answers on them, and on them with wrong signatures

KIND is ed25519, ecdsa (P-256), rsa (RSASSA-PSS) or mixed, where the three keys of each role are one of each kind. The root is rotated once:
root 1 has three keys and root 2 three others, and root 2 is signed by all of them. Each role has three keys, of which two have to sign, and a
role `packages` is delegated, with ROLES others, which list nothing, by its keys. Snapshots are consistent; a target lies under its digest, a dot and its whole name. Keys of Ed25519 and P-256
are made of fixed secrets; those of RSA, and the salts of its signatures, are fresh in each run.
"""
import functools
import hashlib
import json
import os
import sys

import case_files
from cryptography.hazmat.primitives import hashes, serialization
from cryptography.hazmat.primitives.asymmetric import ec, padding, rsa
from cryptography.hazmat.primitives.asymmetric.ed25519 import Ed25519PrivateKey

EXPIRES, NOW = "2999-12-31T23:59:59Z", "2026-01-01T00:00:00Z"
HELLO, APP = b"hello, world\n", b"an application\n" * 100
ROLES = ("root 1", "root 2", "timestamp", "snapshot", "targets", "packages")


def canonical(value):
    """Canonical JSON, of values without floats whose texts are ASCII, where only quotes and backslashes are escaped."""
    if isinstance(value, dict):
        return "{" + ",".join(canonical(name) + ":" + canonical(value[name]) for name in sorted(value)) + "}"
    if isinstance(value, list):
        return "[" + ",".join(map(canonical, value)) + "]"
    if isinstance(value, str):
        return '"' + value.replace("\\", "\\\\").replace('"', '\\"') + '"'
    return json.dumps(value)


def digest(data):
    return hashlib.sha256(data).hexdigest()


def secret_of(name):
    return hashlib.sha256(name.encode()).digest()


class Key:
    """A key: its secret, and its JSON and identifier. `form` says which of the spellings of an ECDSA key it takes."""

    def __init__(self, name, kind, form):
        self.kind, scheme = kind, kind
        if kind == "ed25519":
            self.secret = Ed25519PrivateKey.from_private_bytes(secret_of(name))
            public = self.secret.public_key().public_bytes_raw().hex()
        elif kind == "ecdsa":
            self.secret = ec.derive_private_key(int.from_bytes(secret_of(name)) >> 1, ec.SECP256R1())
            kind, scheme = ("ecdsa", "ecdsa-sha2-nistp256", "ecdsa")[form], "ecdsa-sha2-nistp256"
            public = self.point() if form == 2 else self.pem()
        else:
            self.secret = rsa.generate_private_key(65537, 2048)
            scheme, public = "rsassa-pss-sha256", self.pem()
        self.json = {"keytype": kind, "scheme": scheme, "keyval": {"public": public}}
        self.id = digest(canonical(self.json).encode())

    def pem(self):
        """The public key as SubjectPublicKeyInfo in PEM (RFC 7468, 13)."""
        form = serialization.PublicFormat.SubjectPublicKeyInfo
        return self.secret.public_key().public_bytes(serialization.Encoding.PEM, form).decode()

    def point(self):
        """The point of P-256, uncompressed, in hexadecimal (SEC 1, 2.3.3)."""
        form = serialization.PublicFormat.UncompressedPoint
        return self.secret.public_key().public_bytes(serialization.Encoding.X962, form).hex()

    def signature(self, data):
        if self.kind == "ed25519":
            return self.secret.sign(data)
        if self.kind == "ecdsa":
            return self.secret.sign(data, ec.ECDSA(hashes.SHA256(), deterministic_signing=True))
        pss = padding.PSS(mgf=padding.MGF1(hashes.SHA256()), salt_length=32)
        return self.secret.sign(data, pss, hashes.SHA256())

    def sign(self, body):
        return {"keyid": self.id, "sig": self.signature(canonical(body).encode()).hex()}


@functools.cache
def keys(kind, role):
    """The three keys of a role in a repository of this kind."""
    kinds = ("ed25519", "ecdsa", "rsa") if kind == "mixed" else (kind,) * 3
    return [Key(f"{role} {i}", it, i) for i, it in enumerate(kinds)]


def body(kind, version, **members):
    return {"_type": kind, "spec_version": "1.0.31", "version": version, "expires": EXPIRES, **members}


def spoil(signature):
    """The same with the lowest bit of its last byte turned."""
    sig = bytes.fromhex(signature["sig"])
    return {**signature, "sig": bytes([*sig[:-1], sig[-1] ^ 1]).hex()}


class Repository:
    """Its documents by their files' names. `signers` are the roles whose keys sign a document, where these aren't its own, and `spoilt` is
    how many signatures of a document are wrong, for each role whose keys sign it, the first or, where the number is negative, the last.
    `others` is how many roles are delegated beside `packages`."""

    def __init__(self, kind="ed25519", signers=None, spoilt=None, others=0):
        self.kind, self.signers, self.spoilt = kind, signers or {}, spoilt or {}
        self.trusted = self.signed("root 1", self.root(1))
        packages = self.signed("packages", body("targets", 1, targets={"packages/app.bin": described(APP)}))
        empty = self.signed("packages", body("targets", 1, targets={})) if others else None
        delegated = {"packages": packages} | {f"other {i}": empty for i in range(others)}
        roles = [{"name": it, "paths": [f"{it}/*"], "terminating": False, **self.policy("packages")} for it in delegated]
        delegations = {"keys": self.listed("packages"), "roles": roles}
        note = {"note": 'a "quoted" text, and a \\'}
        hello = {**described(HELLO), "custom": note}
        targets = self.signed("targets", body("targets", 1, targets={"hello.txt": hello}, delegations=delegations))
        meta = {f"{it}.json": {"version": 1, **described(text)} for it, text in {"targets": targets, **delegated}.items()}
        snapshot = self.signed("snapshot", body("snapshot", 1, meta=meta))
        timestamp = self.signed("timestamp", body("timestamp", 1, meta={"snapshot.json": {"version": 1, **described(snapshot)}}))
        self.metadata = {
            "1.root.json": self.trusted,
            "2.root.json": self.signed("root 2", self.root(2), ["root 1", "root 2"]),
            "timestamp.json": timestamp,
            "1.snapshot.json": snapshot,
            "1.targets.json": targets,
            **{f"1.{it.replace(' ', '%20')}.json": text for it, text in delegated.items()},
        }
        self.targets = {f"{digest(data)}.{name}": data for name, data in (("hello.txt", HELLO), ("packages/app.bin", APP))}

    def listed(self, *roles):
        """The keys of roles, as a document lists them."""
        return {key.id: key.json for role in roles for key in keys(self.kind, role)}

    def policy(self, role):
        return {"keyids": [key.id for key in keys(self.kind, role)], "threshold": 2}

    def root(self, version):
        roles = {role: self.policy(role) for role in ("timestamp", "snapshot", "targets")}
        roles["root"] = self.policy(f"root {version}")
        listed = self.listed(f"root {version}", "timestamp", "snapshot", "targets")
        return body("root", version, consistent_snapshot=True, keys=listed, roles=roles)

    def signed(self, role, document, signers=None):
        signatures = []
        for signer in self.signers.get(role, signers or [role]):
            made = [key.sign(document) for key in keys(self.kind, signer)]
            wrong = self.spoilt.get(role, 0)
            at = range(wrong) if wrong >= 0 else range(3 + wrong, 3)
            signatures += [spoil(it) if i in at else it for i, it in enumerate(made)]
        return json.dumps({"signatures": signatures, "signed": document}, separators=(",", ":")).encode()


def described(data):
    return {"length": len(data), "hashes": {"sha256": digest(data)}}


def write(folder, kind="ed25519", others="0"):
    repository = Repository(kind, others=int(others))
    files = {"root.json": repository.trusted}
    files |= {f"metadata/{name}": data for name, data in repository.metadata.items()}
    files |= {f"targets/{name}": data for name, data in repository.targets.items()}
    for name, data in files.items():
        os.makedirs(os.path.dirname(f"{folder}/{name}"), exist_ok=True)
        with open(f"{folder}/{name}", "wb") as file:
            file.write(data)


# ---- cases

LOADED = "root 2 timestamp 1 snapshot 1 targets 1 packages 1"
TOLD = {"root 2": "root", "packages": "targets"}
FOUND = ["hello.txt false 13", "packages/app.bin false 1500"]


def load(name, repository, words, scheme="standard"):
    """A case of a load, which says these words."""
    files = {it: data.decode() for it, data in repository.metadata.items() if it != "1.root.json"}
    case = {"call": "load", "name": name, "scheme": scheme, "now": NOW, "base": "http://h/m/", "root": repository.trusted.decode()}
    return {**case, "files": files, "loads": [{}], "find": ["hello.txt", "packages/app.bin"], "words": words}


def save(name, repository, target, data):
    """A case of a target that is saved."""
    metadata = {it: text.decode() for it, text in repository.metadata.items()}
    folder = os.path.dirname(f"/out/{target}")
    calls = ["saved", f"create_temp({folder})", f"append({folder}/TEMP, {len(data)})", f"rename({folder}/TEMP, /out/{target})"]
    targets = {it: data.decode() for it, data in repository.targets.items()}
    case = {"call": "save_target", "name": name, "scheme": "standard", "now": NOW, "root": repository.trusted.decode()}
    return {**case, "metadata": metadata, "targets": targets, "target": target, "outdir": "/out", "folders": ["/out"], "words": calls}


def ed25519_cases():
    """Each role below its threshold, and signed by the keys of another."""
    yield load("a repository that another implementation signed", Repository(), [LOADED, *FOUND])
    every = {role: 1 for role in ROLES}
    yield load("one signature of each role is spoilt", Repository(spoilt=every), [LOADED, *FOUND])
    yield load("the trusted root is below its threshold", Repository(spoilt={"root 1": 2}), ["VerifyTrustedMetadata SignatureThreshold"])
    others = {"root 2": "timestamp", "timestamp": "snapshot", "snapshot": "timestamp", "targets": "packages", "packages": "targets"}
    for role, other in others.items():
        refused = [f"VerifyMetadata {TOLD.get(role, role)} SignatureThreshold"]
        yield load(f"{role} is below its threshold", Repository(spoilt={role: 2}), refused)
        yield load(f"{role} is signed by the keys of {other}", Repository(signers={role: [other]}), refused)
    for old in ("root 1", "root 2"):
        alone = Repository(signers={"root 2": [old]})
        yield load(f"root 2 is signed by the keys of {old} alone", alone, ["VerifyMetadata root SignatureThreshold"])
    yield load("by the scheme for demonstrations", Repository(), ["VerifyTrustedMetadata SignatureThreshold"], scheme="demo")
    yield save("a target", Repository(), "hello.txt", HELLO)
    yield save("a target of the delegated role", Repository(), "packages/app.bin", APP)


def cases():
    yield from ed25519_cases()
    for kind in ("ecdsa", "rsa", "mixed"):
        yield load(f"a repository of {kind} keys that another implementation signed", Repository(kind), [LOADED, *FOUND])
        first, last = ({role: number for role in ROLES} for number in (1, -1))
        yield load(f"{kind}: the first signature of each role is spoilt", Repository(kind, spoilt=first), [LOADED, *FOUND])
        yield load(f"{kind}: the last signature of each role is spoilt", Repository(kind, spoilt=last), [LOADED, *FOUND])
        trusted = Repository(kind, spoilt={"root 1": -2})
        yield load(f"{kind}: the trusted root is below its threshold", trusted, ["VerifyTrustedMetadata SignatureThreshold"])
        for role, number in (("timestamp", 2), ("packages", -2)):
            refused = [f"VerifyMetadata {TOLD.get(role, role)} SignatureThreshold"]
            yield load(f"{kind}: {role} is below its threshold", Repository(kind, spoilt={role: number}), refused)
        yield save(f"{kind}: a target of the delegated role", Repository(kind), "packages/app.bin", APP)


def main(words):
    if len(words) == 2 and words[0] == "--cases":
        case_files.write(words[1], cases(), "cryptography")
    elif len(words) in (1, 2, 3) and not words[0].startswith("-") and {*words[1:2]} <= {"ed25519", "ecdsa", "rsa", "mixed"}:
        write(*words)
    else:
        print(__doc__, file=sys.stderr)
        return 2
    return 0


if __name__ == "__main__":
    sys.exit(main(sys.argv[1:]))
