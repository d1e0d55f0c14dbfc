#!/usr/bin/env python3
"""Writes crates/trials/data/hostile.json: what servers answer that mean ill, and loads that end after each of their turns.

The answers that are wanted are worked out by hand from the rules: a poll takes at most 64 pieces, a bound is one byte too many, a role is fetched
once for each entry that isn't above it, and what was accepted once is never accepted older.
"""
import os

import case_files
from demo_repository import KEY, KEYID, file_of, signed

ROLE = {"keyids": [KEYID], "threshold": 1}
ROOT = signed("root", consistent_snapshot=False, keys={KEYID: KEY}, roles={it: ROLE for it in ("root", "snapshot", "targets", "timestamp")})
NOW = "2026-01-01T00:00:00Z"
EVER = {"root": ROOT.decode(), "now": NOW}


def delegations(names):
    return {"keys": {KEYID: KEY}, "roles": [{"name": it, **ROLE, "paths": ["*"], "terminating": False} for it in names]}


def repository(version=1, roles=None, timestamp_version=None, **timestamp):
    """The files of a repository: for each delegated role the names of the roles below it; "targets" has those below the targets."""
    roles = roles or {}
    files = {}
    for name, below in roles.items():
        more = {"delegations": delegations(below)} if below else {}
        files[f"{name}.json"] = signed("targets", version=version, targets={}, **more)
    files.setdefault("targets.json", signed("targets", version=version, targets={}))
    meta = {name: {"version": version, **file_of(data)} for name, data in files.items()}
    files["snapshot.json"] = signed("snapshot", version=version, meta=meta)
    entry = {"snapshot.json": {"version": version, **file_of(files["snapshot.json"])}}
    files["timestamp.json"] = signed("timestamp", version=timestamp_version or version, **{"meta": entry, **timestamp})
    return {name: data.decode() for name, data in files.items()}


def nested(depth):
    """A value that nests so deep."""
    value = 1
    for _ in range(depth):
        value = [value]
    return value


def polls(call, name, words, **members):
    return {"call": call, "name": name, **members, "words": words}


def whole(name, file, answer, **members):
    members = {"files": {"f": file}, "url": "http://h/f", **members}
    return {"call": "IntoVec::into_vec", "name": name, **members, "answer": answer}


def endless(piece):
    return [{"pieces": [], "piece": piece, "endless": True}]


def cases():
    plain, three = repository(), repository(roles={it: "ABC" for it in ("targets", "A", "B", "C")})
    yield whole("of 64 pieces", "x" * 64, "64 bytes; 64 pieces, at most 64 in a poll; 2 polls, 0 of them asleep", len=1)
    yield whole("of 100 pieces", "x" * 100, "100 bytes; 100 pieces, at most 64 in a poll; 2 polls, 0 of them asleep", len=1)
    yield whole("of empty pieces without end", endless(""), "waits; 192 pieces, at most 64 in a poll; 3 polls, 0 of them asleep", polls=3)
    load = "Load::poll"
    yield polls(load, "of pieces of 1,000 bytes without end", ["Maximum size of 3000", "4 pieces, at most 4 in a poll"],
                **EVER, files={**plain, "timestamp.json": endless("x" * 1000)}, max_timestamp_size=3000)
    yield polls(load, "of empty pieces without end", ["waits", "320 pieces, at most 64 in a poll; 5 polls, 0 of them asleep"],
                **EVER, files={**plain, "timestamp.json": endless("")}, polls=5)
    yield polls(load, "of pieces of a byte", ["root 1 timestamp 1 snapshot 1 targets 1", "at most 64 in a poll", " 0 of them asleep"],
                **EVER, files=plain, len=1)
    yield polls(load, "of three roles that delegate to one another", ["targets 1", "6 delegated documents, kept 3, of 12 roles"], **EVER, files=three)
    named = ("root", "snapshot", "latest_known_time")
    odd = repository(roles={"targets": named, "root": "", "latest_known_time": ""})
    role = signed("targets", targets={}).decode()
    meta = {name: {"version": 1} for name in ("targets.json", "root.json", "snapshot.json", "latest_known_time.json")}
    snapshot = signed("snapshot", meta=meta)
    odd["timestamp.json"] = signed("timestamp", meta={"snapshot.json": {"version": 1, **file_of(snapshot)}}).decode()
    odd["snapshot.json"] = [snapshot.decode(), role]
    yield polls(load, "of roles named as other documents", ["targets 1", "3 delegated documents, kept 3, of 3 roles"], **EVER, files=odd)
    for depth, words in ((127, ["targets 1"]), (128, ["Failed to parse timestamp metadata"])):
        files = repository(extra=nested(depth - 2))
        yield polls(load, f"of a timestamp that nests {depth} deep", words, **EVER, files=files)
    entry = {"version": 1}
    yield polls(load, "of a timestamp with two entries", ["Timestamp version 1 meta length 2 is not exactly one"], **EVER, files=repository(meta={"snapshot.json": entry, "x.json": entry}))
    yield polls(load, "of a timestamp with another entry", ["No snapshot meta in timestamp.json version 1"], **EVER, files=repository(meta={"x.json": entry}))
    line = "\n  root 1 timestamp 1 snapshot 1 targets 1"
    yield {"call": "Load::poll in pieces", "name": "of 1, 2, 7 and 100 bytes", **EVER, "files": three, "lengths": [1, 2, 7, 100], "answer": line * 4}
    calls = ("open latest_known_time", "write latest_known_time", "open root", "open root", "write root", "open timestamp", "write timestamp", "open snapshot", "write snapshot", "write targets")
    loaded = "\n  root 1 timestamp 1 snapshot 1 targets 1"
    for fault, what in (("fails", "fails"), ("lacks memory", "finds no memory"), ("spoils", "fails, and spoils what it writes")):
        for number, call in enumerate(calls):
            refused = "\n  out of memory" if fault == "lacks memory" else f"\n  Failed to {call}.json in the store"
            yield polls("load", f"of which call {number} on the store {what}, and then another", [refused, loaded],
                        **EVER, base="http://h/m/", files=plain, loads=[{f"{fault} after": number}, {}])
    five, six, four = (repository(timestamp_version=it) for it in (5, 6, 4))
    lives = [{"files": five, "spoils after": 16, "keeps the vault": True}, {"files": six, "keeps the vault": True}, {"files": four}, {"files": four}]
    words = ["timestamp 5", "Failed to write timestamp.json in the store", "OlderMetadata timestamp 5 4", "timestamp 4"]
    yield polls("load", "of an older timestamp after a write that spoiled the newer one, in the same life and in the next", words,
                **EVER, base="http://h/m/", loads=lives)
    newer, older = repository(3, {"targets": "A", "A": "B", "B": ""}), repository(2, {"targets": "A", "A": "B", "B": ""})
    yield polls("World::turn and a stop", "after each turn", ["timestamp 3 snapshot 3 targets 3, then Found version 2 of timestamp metadata when we had previously fetched version 3"],
                **EVER, files=newer, older=older)


def main():
    path = os.path.join(os.path.dirname(__file__), "..", "crates", "trials", "data", "hostile.json")
    case_files.write(path, cases(), "hand")


main()
