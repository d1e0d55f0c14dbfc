#!/usr/bin/env python3
"""Makes the cases of loads.json on a rotation that replaces the snapshot's key alone, after a fast-forward, in a process that ends after each of its
calls on the store: every later load recovers (TUF specification, 5.3.11).

    tools/rotation_cases.py        puts them into crates/trials/data/loads.json, in the place of those that it made before

The answers are the versions that the documents have; the signatures are of the scheme for demonstrations.
"""
import hashlib
import json
import pathlib

import case_files
from demo_repository import KEY, KEYID, PUBLIC, file_of, key_of, keyid_of, signed

TOP = pathlib.Path(__file__).resolve().parent.parent
LOADS = TOP / "crates" / "trials" / "data" / "loads.json"
NAME = "a rotation of the snapshot's key, in a process that ends after {} calls on its store"
LAST = 2**64 - 1
NEW = hashlib.sha256(b"the new key of the snapshot").digest()
ENDS = range(16)


def root(version, snapshot, by=(PUBLIC,)):
    role = {"keyids": [KEYID], "threshold": 1}
    roles = {it: role for it in ("root", "targets", "timestamp")}
    roles["snapshot"] = {"keyids": [keyid_of(snapshot)], "threshold": 1}
    keys = {KEYID: KEY, keyid_of(snapshot): key_of(snapshot)}
    return signed("root", by, version=version, consistent_snapshot=False, keys=keys, roles=roles)


def files(snapshot_version, timestamp_version, by):
    targets = signed("targets", targets={})
    snapshot = signed("snapshot", by, version=snapshot_version, meta={"targets.json": {"version": 1, **file_of(targets)}})
    meta = {"snapshot.json": {"version": snapshot_version, **file_of(snapshot)}}
    timestamp = signed("timestamp", version=timestamp_version, meta=meta)
    return {"targets.json": targets, "snapshot.json": snapshot, "timestamp.json": timestamp}


def load(served, **members):
    return {"root": root(1, PUBLIC).decode(), **members, "files": {name: data.decode() for name, data in served.items()}}


def cases():
    forward = files(LAST, 9, (PUBLIC,))
    rotated = {**files(6, 10, (NEW,)), "2.root.json": root(2, NEW)}
    for calls in ENDS:
        yield {
            "call": "load",
            "name": NAME.format(calls),
            "now": "2026-01-01T00:00:00Z",
            "base": "http://h/m/",
            "loads": [load(forward), load(rotated, **{"ends after": calls}), load(rotated)],
            "words": [
                f"\n  root 1 timestamp 9 snapshot {LAST} targets 1\n",
                "\n  root 2 timestamp 10 snapshot 6 targets 1\n  store: latest_known_time.json 2026-01-01T00:00:00Z root.json 2"
                " timestamp.json 10 snapshot.json 6 targets.json 1",
            ],
        }


def main():
    made = [NAME.format(it) for it in range(100)]
    others = [it for it in json.loads(LOADS.read_text()) if it["name"] not in made]
    case_files.write(LOADS, [*others, *cases()], "hand")


if __name__ == "__main__":
    main()
