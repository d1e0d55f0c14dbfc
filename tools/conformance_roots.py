"""Tests of the trusted root, its updates, and what a rotation of keys recovers from (TUF 1.0, 5.1 to 5.3)."""
import json

from conformance_repository import LATER, PAST, TOP_LEVEL, document, signed, spoilt
from conformance_trial import Wrong, test, until

FIRST = {"root": 1, "timestamp": 1, "snapshot": 1, "targets": 1}
NONE = {"timestamp": None, "snapshot": None, "targets": None}
FAR = 10**9


def three(it, role, name=None, threshold=2):
    """Trusts three keys for a role, and gives them."""
    keys = [it.repository.key(f"{name or role} {n}") for n in "abc"]
    it.repository.trust(role, keys, threshold)
    return keys


# ---- the trusted root


@test("5.2", "init keeps the root's bytes, and a refresh is what judges them", init=False)
def _(it):
    for data in (b"no root", b"", b'{"signed": {}, "signatures": []}'):
        it.init(data)
        if (it.metadata / "root.json").read_bytes() != data:
            raise Wrong(f"init keeps other bytes than {data}")
        it.refuse_root(data)


@test("5.2", "init of a file that isn't there", init=False)
def _(it):
    it.expect(1, it.run("--metadata-dir", it.metadata, "init", it.folder / "missing.json"))
    if (it.metadata / "root.json").exists():
        raise Wrong("the folder holds a root")


@test("5.2", "a refresh of a folder without a root", init=False)
def _(it):
    it.expect(1, it.refresh())
    it.asked()


@test("5.2", "init with a newer root of the same repository", init=False)
def _(it):
    for _ in range(4):
        it.repository.next_root()
    it.init(it.repository.files["metadata/3.root.json"])
    it.accept(**{**FIRST, "root": 5})
    it.asked("4.root.json", "5.root.json", "6.root.json", "timestamp.json", "1.snapshot.json", "1.targets.json")


@test("5.2", "the trusted root has expired, and a newer one has not", init=False)
def _(it):
    it.repository.root["expires"] = PAST
    it.init(it.repository.put_root())
    it.repository.root["expires"] = LATER
    it.repository.next_root()
    it.accept(**{**FIRST, "root": 2})


@test("5.2", "the trusted root has expired, and there is no newer one", init=False)
def _(it):
    it.repository.root["expires"] = PAST
    it.init(it.repository.put_root())
    it.refuse(root=1, **NONE)
    it.asked("2.root.json")


@test("5.2", "a trusted root that its own keys haven't signed", init=False)
def _(it):
    it.init(it.repository.put_root(signers=[it.repository.key("other")]))
    it.refuse(**NONE)
    it.asked()


@test("5.2", "init with root 1 once more: the roots are walked again, and the older timestamp stays refused")
def _(it):
    it.repository.next_root()
    it.repository.next_root()
    it.repository.update()
    it.accept(root=3, timestamp=2, snapshot=2, targets=2)
    it.init(it.repository.files["metadata/1.root.json"])
    it.repository.timestamp["version"] = 1
    it.repository.put("timestamp")
    it.refuse(root=3, timestamp=2)
    it.asked("2.root.json", "3.root.json", "4.root.json", "timestamp.json")


@test("5.2", "init with the root of another repository: what the folder holds of the first is none")
def _(it):
    it.repository.update()
    it.accept(timestamp=2)
    for role in TOP_LEVEL:
        it.repository.trust(role, [it.repository.key(f"another {role}")])
    it.init(it.repository.put_root(signers=it.repository.keys["root"]))
    it.repository.timestamp["version"] = 1
    it.repository.release()
    it.accept(root=1, timestamp=1)


# ---- a plain update


@test("5.3", "a URL with a slash at its end")
def _(it):
    it.expect(0, it.refresh(f"{it.server.url}/metadata/"))
    it.asked("2.root.json", "timestamp.json", "1.snapshot.json", "1.targets.json")


@test("5.3", "a refresh asks for the next root, timestamp, snapshot and targets, once each, in this order")
def _(it):
    it.accept(**FIRST)
    it.asked("2.root.json", "timestamp.json", "1.snapshot.json", "1.targets.json")


@test("5.3.12", "without consistent snapshots the roots' names alone have versions", consistent=False)
def _(it):
    it.accept(**FIRST)
    it.asked("2.root.json", "timestamp.json", "snapshot.json", "targets.json")


@test("5.3.12", "a new root turns consistent snapshots on, and another turns them off", consistent=False)
def _(it):
    it.accept(**FIRST)
    for now in (True, False):
        it.repository.root["consistent_snapshot"] = now
        it.repository.next_root()
        it.repository.update()
        version = it.repository.root["version"]
        it.accept(root=version, timestamp=version, snapshot=version, targets=version)
        mark = f"{version}." if now else ""
        it.asked(f"{version}.root.json", f"{version + 1}.root.json", "timestamp.json", f"{mark}snapshot.json", f"{mark}targets.json")


@test("5.3", "an update to the next version of each role")
def _(it):
    it.accept(**FIRST)
    it.repository.update()
    it.accept(root=1, timestamp=2, snapshot=2, targets=2)
    it.asked("2.root.json", "timestamp.json", "2.snapshot.json", "2.targets.json")


@test("5.3.8, 5.4.5, 5.5.7, 5.6.6", "the folder holds what was signed, as it was signed")
def _(it):
    it.repository.next_root()
    it.accept(**{**FIRST, "root": 2})
    for role in TOP_LEVEL:
        if it.stored(f"{role}.json") != it.repository.bodies[role]:
            raise Wrong(f"the stored {role} has another content")


# ---- updates of the root


@test("5.3.4", "a root that the keys of both roots have signed")
def _(it):
    it.repository.trust("root", [it.repository.key("root 2")])
    it.repository.next_root()
    it.accept(**{**FIRST, "root": 2})


for told, who in (("old", "root"), ("new", "root 2")):

    @test("5.3.4", f"a root that the keys of the {told} root alone have signed")
    def _(it, who=who):
        it.accept(**FIRST)
        it.repository.trust("root", [it.repository.key("root 2")])
        it.repository.next_root(signers=[it.repository.key(who)])
        it.repository.update()
        it.refuse(**FIRST)
        it.asked("2.root.json")


@test("5.3.4", "the threshold of the old root is two, and one or two of its keys have signed", init=False)
def _(it):
    old = three(it, "root")
    it.init(it.repository.put_root())
    new = it.repository.key("root 2")
    it.repository.trust("root", [new])
    it.repository.root["version"] = 2
    it.repository.put_root(signers=[old[0], new])
    it.refuse(root=1)
    it.repository.put_root(signers=[old[0], old[2], new])
    it.accept(**{**FIRST, "root": 2})


@test("5.3.4", "the threshold of the new root is two, and one or two of its keys have signed")
def _(it):
    old, new = it.repository.key("root"), three(it, "root", "root 2")
    it.repository.root["version"] = 2
    it.repository.put_root(signers=[old, new[1]])
    it.refuse(root=1)
    it.repository.put_root(signers=[old, new[1], new[2]])
    it.accept(**{**FIRST, "root": 2})


@test("5.3.4", "a key of both roots counts for both")
def _(it):
    old = it.repository.key("root")
    it.repository.trust("root", [old, it.repository.key("root 2")], 2)
    it.repository.next_root(signers=[old, it.repository.key("root 2")])
    it.accept(**{**FIRST, "root": 2})


@test("5.3.4", "a new root has a threshold that its keys cannot reach")
def _(it):
    it.repository.trust("root", [it.repository.key("root")], 2)
    it.repository.next_root()
    it.refuse(root=1)


@test("5.3.4", "a signature of the new root is spoilt")
def _(it):
    it.repository.root["version"] = 2
    right = it.repository.key("root").sign(it.repository.root)
    it.repository.files["metadata/2.root.json"] = document(it.repository.root, [spoilt(right)])
    it.refuse(root=1)


for told, version in (("skipped", 3), ("the same", 1)):

    @test("5.3.5", f"2.root.json has a version that is {told}")
    def _(it, version=version):
        it.repository.root["version"] = version
        it.repository.put_root(at=2)
        it.refuse(root=1, **NONE)


@test("5.3.5", "4.root.json has version 2")
def _(it):
    for _ in range(2):
        it.repository.next_root()
    it.accept(root=3)
    it.repository.root["version"] = 2
    it.repository.put_root(at=4)
    it.refuse(root=3)


@test("5.3.9", "roots up to version 8, with other keys each, in the order of their versions")
def _(it):
    for version in range(2, 9):
        it.repository.trust("root", [it.repository.key(f"root {version}")])
        it.repository.next_root()
    it.accept(**{**FIRST, "root": 8})
    it.asked(*(f"{n}.root.json" for n in range(2, 10)), "timestamp.json", "1.snapshot.json", "1.targets.json")


@test("5.3.6", "an intermediate root has expired")
def _(it):
    it.repository.root["expires"] = PAST
    it.repository.next_root()
    it.repository.root["expires"] = LATER
    it.repository.next_root()
    it.accept(**{**FIRST, "root": 3})


@test("5.3.10", "the last root has expired: it is kept, and nothing more is asked for")
def _(it):
    it.accept(**FIRST)
    it.repository.root["expires"] = PAST
    it.repository.next_root()
    it.repository.update()
    it.refuse(**{**FIRST, "root": 2})
    it.asked("2.root.json", "3.root.json")
    it.repository.root["expires"] = LATER
    it.repository.next_root()
    it.accept(root=3, timestamp=2, snapshot=2, targets=2)


@test("5.3.8", "the roots before a refused one are kept, and the next refresh goes on from there")
def _(it):
    it.repository.trust("root", [it.repository.key("root 2")])
    it.repository.next_root()
    it.repository.next_root(signers=[it.repository.key("root")])
    it.refuse(root=2, **NONE)
    it.repository.put_root(signers=[it.repository.key("root 2")])
    it.accept(**{**FIRST, "root": 3})
    it.asked("3.root.json", "4.root.json", "timestamp.json", "1.snapshot.json", "1.targets.json")


for status in (403, 404, 410):

    @test("5.3.3", f"the next root is answered by {status}")
    def _(it, status=status):
        it.server.statuses["metadata/2.root.json"] = status
        it.accept(**FIRST)


@test("5.3.3", "the next root is answered by 400", differs="a root that isn't available ends the walk")
def _(it):
    it.server.statuses["metadata/2.root.json"] = 400
    it.refuse(root=1, **NONE)


@test("5.3.3", "a root over the limit of 1,048,576 bytes")
def _(it):
    it.repository.root["note"] = "x" * 1_048_576
    it.repository.next_root()
    it.refuse(root=1, **NONE)


@test("5.3.3", "more than 1,024 new roots, in a folder", differs="the update goes on with the last of them", kinds=("ed25519",))
def _(it):
    for _ in range(1025):
        it.repository.next_root()
    served = it.folder / "served"
    served.mkdir()
    for path, data in it.repository.files.items():
        (served / path.removeprefix("metadata/")).write_bytes(data)
    it.expect(1, it.refresh(f"file://{served}"))
    it.holds(root=1025, **NONE)
    it.expect(0, it.refresh(f"file://{served}"))
    it.holds(**{**FIRST, "root": 1026})


for told, data in (("no JSON", b'{"signed":'), ("a list", b"[]"), ("empty", b"")):

    @test("4.2", f"the next root is {told}")
    def _(it, data=data):
        it.repository.files["metadata/2.root.json"] = data
        it.refuse(root=1, **NONE)


@test("4.3", "a root without the role root")
def _(it):
    del it.repository.root["roles"]["root"]
    it.repository.next_root()
    it.refuse(root=1, **NONE)


for role in ("timestamp", "snapshot", "targets"):

    @test("4.3", f"a root without the role {role} is kept, and the update ends there", differs="it is refused")
    def _(it, role=role):
        del it.repository.root["roles"][role]
        it.repository.next_root()
        it.refuse(root=2, **until(role, 1))


@test("4.3", "a root with the role mirrors", differs="the role is optional")
def _(it):
    it.repository.trust("mirrors", [it.repository.key("mirrors")])
    it.repository.next_root()
    it.refuse(root=1, **NONE)


@test("4.3", "a threshold of zero")
def _(it):
    it.repository.root["roles"]["timestamp"]["threshold"] = 0
    it.repository.next_root()
    it.refuse(root=1, **NONE)


# ---- rotations


def rotate(it, role):
    it.repository.trust(role, [it.repository.key(f"{role} 2")])
    it.repository.next_root()


for role in ("timestamp", "snapshot", "targets"):

    @test("5.3.7", f"after a rotation of the key of {role} the old key counts no more")
    def _(it, role=role):
        it.accept(**FIRST)
        rotate(it, role)
        it.repository.update(**{role: [it.repository.key(role)]})
        it.refuse(root=2, **{**until(role, 2), "targets": 1})
        it.repository.update()
        it.accept(root=2, timestamp=3, snapshot=3, targets=3)


@test("5.3.11", "a timestamp that was fast-forwarded, and a rotation of its key")
def _(it):
    it.repository.timestamp["version"] = FAR
    it.repository.release()
    it.accept(timestamp=FAR)
    it.repository.timestamp["version"] = 2
    it.repository.release()
    it.refuse(timestamp=FAR)
    rotate(it, "timestamp")
    it.repository.release()
    it.accept(root=2, timestamp=2, snapshot=1, targets=1)


@test("5.3.11", "a snapshot that was fast-forwarded, and a rotation of its key")
def _(it):
    it.repository.snapshot["version"] = FAR
    it.repository.release()
    it.accept(snapshot=FAR)
    it.repository.snapshot["version"] = 2
    it.repository.timestamp["version"] = 2
    it.repository.release()
    it.refuse(timestamp=1, snapshot=FAR)
    rotate(it, "snapshot")
    it.repository.release()
    it.accept(root=2, timestamp=2, snapshot=2, targets=1)


@test("5.3.11", "targets that were fast-forwarded, and a rotation of the snapshot's key")
def _(it):
    it.repository.targets["version"] = FAR
    it.repository.release()
    it.accept(targets=FAR)
    for role, version in (("targets", 2), ("snapshot", 2), ("timestamp", 2)):
        it.repository.bodies[role]["version"] = version
    it.repository.release()
    it.refuse(timestamp=2, snapshot=1, targets=FAR)
    rotate(it, "snapshot")
    it.repository.release()
    it.accept(root=2, timestamp=2, snapshot=2, targets=2)


@test("5.3.11", "a timestamp and a snapshot that were fast-forwarded, and one rotation of both keys")
def _(it):
    for role in ("timestamp", "snapshot"):
        it.repository.bodies[role]["version"] = FAR
    it.repository.release()
    it.accept(timestamp=FAR, snapshot=FAR)
    for role in ("timestamp", "snapshot"):
        it.repository.trust(role, [it.repository.key(f"{role} 2")])
        it.repository.bodies[role]["version"] = 1
    it.repository.next_root()
    it.repository.release()
    it.accept(root=2, timestamp=1, snapshot=1, targets=1)


for role in ("root", "targets"):

    @test("5.3.11", f"a rotation of the key of {role} forgives no older timestamp")
    def _(it, role=role):
        it.repository.update()
        it.accept(timestamp=2)
        rotate(it, role)
        it.repository.timestamp["version"] = 1
        it.repository.release()
        it.refuse(root=2, timestamp=2, snapshot=2)


@test("5.3.11", "another threshold of the timestamp forgives no older timestamp", init=False)
def _(it):
    three(it, "timestamp", threshold=1)
    it.init(it.repository.put_root())
    it.repository.update()
    it.accept(timestamp=2)
    it.repository.root["roles"]["timestamp"]["threshold"] = 2
    it.repository.next_root()
    it.repository.timestamp["version"] = 1
    it.repository.release()
    it.refuse(root=2, timestamp=2)


@test("5.3.11", "the timestamp's keys in another order forgive an older timestamp", differs="these keys haven't changed", init=False)
def _(it):
    keys = three(it, "timestamp", threshold=1)
    it.init(it.repository.put_root())
    it.repository.update()
    it.accept(timestamp=2)
    it.repository.trust("timestamp", keys[::-1])
    it.repository.next_root()
    it.repository.timestamp["version"] = 1
    it.repository.release()
    it.accept(root=2, timestamp=1)


@test("5.3.11", "a rotation of the timestamp's key that a later root takes back")
def _(it):
    it.repository.timestamp["version"] = FAR
    it.repository.release()
    it.accept(timestamp=FAR)
    rotate(it, "timestamp")
    it.repository.trust("timestamp", [it.repository.key("timestamp")])
    it.repository.next_root()
    it.repository.timestamp["version"] = 2
    it.repository.release()
    it.accept(root=3, timestamp=2)


# ---- the folder


@test("5.1", "a refresh at an earlier time than the folder has noted", differs="silent: the clock was set back")
def _(it):
    it.accept(**FIRST)
    (it.metadata / "latest_known_time.json").write_text(json.dumps(LATER))
    it.repository.update()
    it.refuse(**FIRST)
    it.asked()


@test("5.4.3", "a stored timestamp that no key of the root has signed is none")
def _(it):
    it.repository.update()
    it.accept(timestamp=2)
    it.repository.timestamp["version"] = 9
    (it.metadata / "timestamp.json").write_bytes(signed(it.repository.timestamp, [it.repository.key("other")]))
    it.repository.timestamp["version"] = 1
    it.repository.release()
    it.accept(timestamp=1)


for role in ("timestamp", "snapshot", "targets"):

    @test("5.4.3, 5.5.5", f"a stored {role} that is no JSON is none, and is replaced")
    def _(it, role=role):
        it.accept(**FIRST)
        (it.metadata / f"{role}.json").write_bytes(b"nothing")
        it.accept(**FIRST)


@test("5.2", "a stored root that is no JSON")
def _(it):
    it.accept(**FIRST)
    (it.metadata / "root.json").write_bytes(b"nothing")
    it.expect(1, it.refresh())
    it.asked()
