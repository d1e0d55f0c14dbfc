"""Documents by the scheme for demonstrations, and a small repository with targets of any bytes: what tools/kills, tools/race, tools/refusals and
tools/lives serve and load."""
import hashlib
import json

EXPIRES = "2999-12-31T23:59:59Z"
PUBLIC = hashlib.sha256(b"the key of the repository").digest()


def canonical(value):
    """Canonical JSON, of values without floats whose texts are ASCII and have nothing to escape."""
    return json.dumps(value, sort_keys=True, separators=(",", ":"), ensure_ascii=True).encode()


def digest(data):
    return hashlib.sha256(data).hexdigest()


def key_of(public):
    """A key, by its public bytes."""
    return {"keytype": "ed25519", "keyval": {"public": public.hex()}, "scheme": "ed25519"}


def keyid_of(public):
    return digest(canonical(key_of(public)))


KEY, KEYID = key_of(PUBLIC), keyid_of(PUBLIC)


def signed(kind, by=(PUBLIC,), **members):
    """The bytes of a document, of version 1 if the members say nothing else, signed by the keys of these public bytes."""
    body = {"_type": kind, "spec_version": "1.0.0", "version": 1, "expires": EXPIRES, **members}
    signatures = [{"keyid": keyid_of(it), "sig": digest(it + canonical(body))} for it in by]
    return json.dumps({"signed": body, "signatures": signatures}, indent=1).encode()


def file_of(data):
    return {"length": len(data), "hashes": {"sha256": digest(data)}}


def documents(targets, version=1):
    """The trusted root, and the metadata by the names of the files; `targets` is what is listed: for each name its length and its digest. The
    timestamp has this version, the others have version 1."""
    role = {"keyids": [KEYID], "threshold": 1}
    roles = {it: role for it in ("root", "snapshot", "targets", "timestamp")}
    root = signed("root", consistent_snapshot=False, keys={KEYID: KEY}, roles=roles)
    listing = signed("targets", targets=targets)
    snapshot = signed("snapshot", meta={"targets.json": {"version": 1, **file_of(listing)}})
    timestamp = signed("timestamp", version=version, meta={"snapshot.json": {"version": 1, **file_of(snapshot)}})
    return root, {"targets.json": listing, "snapshot.json": snapshot, "timestamp.json": timestamp}
