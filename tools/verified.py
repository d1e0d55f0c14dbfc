#!/usr/bin/env python3
"""Verifies each signature of a repository by Python's `cryptography`, and what its documents list of each other.

    tools/verified.py METADATA [TARGETS]

METADATA is the folder of a repository with consistent snapshots, TARGETS that of its targets. From 1.root.json on, each root has to be signed by
a threshold of its own keys and of those before it, the other documents by a threshold of the keys of their role; each version, length and
digest that a document lists has to be that of the file. A signature that doesn't verify, of a listed key or of another, is told too. Prints a
line for each document, and then how many signatures of which kind verified; the status is 1 where something was wrong.
"""
import collections
import hashlib
import json
import pathlib
import sys

from cryptography.exceptions import InvalidSignature
from cryptography.hazmat.primitives import hashes, serialization
from cryptography.hazmat.primitives.asymmetric import ec, padding
from cryptography.hazmat.primitives.asymmetric.ed25519 import Ed25519PublicKey
from real_repository import canonical

COUNT = collections.Counter()
WRONG = []


def verifies(key, data, signature):
    """Whether the signature over the bytes is by the key of this JSON."""
    kind, public = key["keytype"], key["keyval"]["public"]
    try:
        if kind == "ed25519":
            Ed25519PublicKey.from_public_bytes(bytes.fromhex(public)).verify(signature, data)
        elif kind in ("ecdsa", "ecdsa-sha2-nistp256"):
            if public.startswith("-----BEGIN"):
                loaded = serialization.load_pem_public_key(public.encode())
            else:
                loaded = ec.EllipticCurvePublicKey.from_encoded_point(ec.SECP256R1(), bytes.fromhex(public))
            loaded.verify(signature, data, ec.ECDSA(hashes.SHA256()))
        else:
            pss = padding.PSS(mgf=padding.MGF1(hashes.SHA256()), salt_length=32)
            serialization.load_pem_public_key(public.encode()).verify(signature, data, pss, hashes.SHA256())
    except InvalidSignature:
        return False
    COUNT[kind] += 1
    return True


def check(what, document, keys, role):
    """Tells how many of the role's keys signed the document."""
    text = canonical(document["signed"]).encode()
    good = set()
    for it in document["signatures"]:
        key = keys.get(it["keyid"])
        if key is None or it["keyid"] not in role["keyids"]:
            continue
        if hashlib.sha256(canonical(key).encode()).hexdigest() != it["keyid"]:
            WRONG.append(f"{what}: {it['keyid']} isn't its key's digest")
        if verifies(key, text, bytes.fromhex(it["sig"])):
            good.add(it["keyid"])
        else:
            WRONG.append(f"{what}: the signature by {it['keyid']} doesn't verify")
    if len(good) < role["threshold"]:
        WRONG.append(f"{what}: {len(good)} of {role['threshold']} signatures")
    print(f"{what}: {len(good)} signatures, {role['threshold']} asked for")


def compare(what, data, listed, version=None):
    """Compares bytes with what is listed of them."""
    if "length" in listed and len(data) != listed["length"]:
        WRONG.append(f"{what}: {len(data)} bytes, {listed['length']} listed")
    for name, digest in listed.get("hashes", {}).items():
        if hashlib.new(name, data).hexdigest() != digest:
            WRONG.append(f"{what}: another digest is listed")
    if version is not None and version != listed["version"]:
        WRONG.append(f"{what}: version {version}, {listed['version']} listed")


def walk_roots(folder):
    """The newest root."""
    root, number = None, 1
    while (path := folder / f"{number}.root.json").exists():
        document = json.loads(path.read_bytes())
        for it in filter(None, (root, document["signed"])):
            check(f"root {number} by {it['version']}", document, it["keys"], it["roles"]["root"])
        if document["signed"]["version"] != number:
            WRONG.append(f"root {number}: version {document['signed']['version']}")
        root, number = document["signed"], number + 1
    if root is None:
        raise SystemExit("verified: no 1.root.json")
    return root


def main(words):
    folder = pathlib.Path(words[0])
    root = walk_roots(folder)
    keys, roles = root["keys"], root["roles"]
    timestamp = json.loads((folder / "timestamp.json").read_bytes())
    check("timestamp", timestamp, keys, roles["timestamp"])
    listed = timestamp["signed"]["meta"]["snapshot.json"]
    data = (folder / f"{listed['version']}.snapshot.json").read_bytes()
    snapshot = json.loads(data)
    check("snapshot", snapshot, keys, roles["snapshot"])
    compare("snapshot", data, listed, snapshot["signed"]["version"])
    meta, targets = snapshot["signed"]["meta"], {}
    waiting = [("targets", keys, roles["targets"])]
    while waiting:
        name, keys, role = waiting.pop(0)
        listed = meta[f"{name}.json"]
        data = (folder / f"{listed['version']}.{name}.json").read_bytes()
        document = json.loads(data)
        check(name, document, keys, role)
        compare(name, data, listed, document["signed"]["version"])
        targets |= document["signed"]["targets"]
        below = document["signed"].get("delegations", {"keys": {}, "roles": []})
        waiting += [(it["name"], below["keys"], it) for it in below["roles"]]
    for name, listed in targets.items() if len(words) > 1 else ():
        parent, _, last = name.rpartition("/")
        file = f"{parent}/{listed['hashes']['sha256']}.{last}" if parent else f"{listed['hashes']['sha256']}.{last}"
        found = [it for it in (file, f"{listed['hashes']['sha256']}.{name}") if (pathlib.Path(words[1]) / it).exists()]
        if found:
            compare(name, (pathlib.Path(words[1]) / found[0]).read_bytes(), listed)
        else:
            WRONG.append(f"{name}: no file")
    for it in WRONG:
        print(f"WRONG {it}")
    print(f"{len(targets)} targets; " + ", ".join(f"{count} signatures by {kind}" for kind, count in sorted(COUNT.items())) + f"; {len(WRONG)} wrong")
    return int(bool(WRONG))


if __name__ == "__main__":
    if len(sys.argv) not in (2, 3):
        print(__doc__, file=sys.stderr)
        sys.exit(2)
    sys.exit(main(sys.argv[1:]))
