"""Tests of the documents themselves: signatures, keys, identifiers, and members that nobody knows (TUF 1.0, 4 to 4.6)."""
import json
import unicodedata

from cryptography.hazmat.primitives import hashes, serialization
from cryptography.hazmat.primitives.asymmetric import padding, rsa
from cryptography.hazmat.primitives.asymmetric.utils import decode_dss_signature, encode_dss_signature

from conformance_repository import KINDS, TOP_LEVEL, Key, body, document
from conformance_trial import Wrong, test

FIRST = {"timestamp": 1, "snapshot": 1, "targets": 1}
HELLO = b"hello, world\n"
P256_ORDER = 0xFFFFFFFF00000000FFFFFFFFFFFFFFFFBCE6FAADA7179E84F3B9CAC2FC632551


def begin_anew(it):
    """Gives the client root 1 as it is now, and releases all else."""
    it.init(it.repository.put_root())
    it.repository.release()


# ---- signatures


@test("4.2", "a signature that stands twice refuses the document, though its threshold is one", differs="silent")
def _(it):
    right = it.repository.key("timestamp").sign(it.repository.timestamp)
    it.repository.put_bytes("timestamp", document(it.repository.timestamp, [right, right]))
    it.refuse(timestamp=None)


@test("4.3", "a signature that stands twice doesn't reach a threshold of two", init=False)
def _(it):
    keys = [it.repository.key(f"timestamp {n}") for n in "ab"]
    it.repository.trust("timestamp", keys, 2)
    begin_anew(it)
    right = keys[0].sign(it.repository.timestamp)
    it.repository.put_bytes("timestamp", document(it.repository.timestamp, [right, right]))
    it.refuse(timestamp=None)
    it.repository.put("timestamp")
    it.accept(**FIRST)


@test("4.3", "a key identifier that a role lists twice counts once", init=False)
def _(it):
    key = it.repository.key("timestamp")
    it.repository.trust("timestamp", [key, key], 2)
    begin_anew(it)
    it.repository.put("timestamp", signers=[key])
    it.refuse(timestamp=None)


@test("4.3", "one public key under two identifiers counts twice", differs="a threshold is a number of keys", init=False)
def _(it):
    key = it.repository.key("timestamp")
    it.repository.trust("timestamp", [key, key.respelled(note="the same")], 2)
    begin_anew(it)
    it.accept(**FIRST)


@test("4.2", "signatures by keys that the role doesn't list, before and after the right one")
def _(it):
    others = [it.repository.key("root"), it.repository.key("other")]
    it.repository.put("timestamp", signers=[others[0], it.repository.key("timestamp"), others[1]])
    it.accept(**FIRST)


@test("4.2", "an empty signature of another listed key beside the right one", init=False)
def _(it):
    keys = [it.repository.key(f"timestamp {n}") for n in "ab"]
    it.repository.trust("timestamp", keys)
    begin_anew(it)
    right = keys[1].sign(it.repository.timestamp)
    it.repository.put_bytes("timestamp", document(it.repository.timestamp, [{"keyid": keys[0].id, "sig": ""}, right]))
    it.accept(**FIRST)


@test("4.2", "one right signature under the identifier of another key")
def _(it):
    right = it.repository.key("other").sign(it.repository.timestamp)
    it.repository.put_bytes("timestamp", document(it.repository.timestamp, [{**right, "keyid": it.repository.key("timestamp").id}]))
    it.refuse(timestamp=None)


@test("4.2", "a document is laid out with blanks and lines")
def _(it):
    for role in ("targets", "snapshot", "timestamp"):
        body = it.repository.bodies[role]
        if role == "snapshot":
            it.repository.list_roles()
        elif role == "timestamp":
            it.repository.list_snapshot()
        laid = {"signed": dict(reversed(body.items())), "signatures": [it.repository.key(role).sign(body)]}
        it.repository.put_bytes(role, json.dumps(laid, indent=4, ensure_ascii=role == "targets").encode())
    it.accept(**FIRST)


# ---- keys


def with_timestamp_key(it, key):
    """Root 2 has the timestamp signed by this key."""
    it.repository.trust("timestamp", [key])
    it.repository.next_root()
    it.repository.release()


@test("4.2", "an ECDSA key of the type ecdsa-sha2-nistp256", kinds=("ecdsa",))
def _(it):
    with_timestamp_key(it, it.repository.key("timestamp").respelled(keytype="ecdsa-sha2-nistp256"))
    it.accept(root=2, **FIRST)


@test("4.2", "an ECDSA key whose public part is its point, in hexadecimal", differs="silent: PEM", kinds=("ecdsa",))
def _(it):
    key = it.repository.key("timestamp")
    point = key.secret.public_key().public_bytes(serialization.Encoding.X962, serialization.PublicFormat.UncompressedPoint)
    with_timestamp_key(it, key.respelled(keyval={"public": point.hex()}))
    it.accept(root=2, **FIRST)


@test("4.2", "an ECDSA signature whose second half is the greater of the two that verify", kinds=("ecdsa",))
def _(it):
    right = it.repository.key("timestamp").sign(it.repository.timestamp)
    r, s = decode_dss_signature(bytes.fromhex(right["sig"]))
    great = encode_dss_signature(r, max(s, P256_ORDER - s)).hex()
    it.repository.put_bytes("timestamp", document(it.repository.timestamp, [{**right, "sig": great}]))
    it.accept(**FIRST)


@test("4.2", "a key's PEM without its last line end", kinds=("ecdsa", "rsa"))
def _(it):
    key = it.repository.key("timestamp")
    with_timestamp_key(it, key.respelled(keyval={"public": key.public().strip()}))
    it.accept(root=2, **FIRST)


for size in (2048, 3072, 4096):

    @test("4.2", f"an RSA key of {size} bits", kinds=("rsa",))
    def _(it, size=size):
        with_timestamp_key(it, Key("rsa", "", rsa.generate_private_key(public_exponent=65537, key_size=size)))
        it.accept(root=2, **FIRST)


@test("4.2", "an RSA key of 1,024 bits verifies nothing", differs="silent", kinds=("rsa",))
def _(it):
    with_timestamp_key(it, Key("rsa", "", rsa.generate_private_key(public_exponent=65537, key_size=1024)))
    it.refuse(root=2, timestamp=None)


@test("4.2", "an RSA signature with the longest salt verifies nothing", differs="silent", kinds=("rsa",))
def _(it):
    key = it.repository.key("timestamp")
    key.padding = padding.PSS(padding.MGF1(hashes.SHA256()), padding.PSS.MAX_LENGTH)
    it.repository.put("timestamp", signers=[key])
    it.refuse(timestamp=None)


@test("4.2", "an RSA signature of another padding verifies nothing", kinds=("rsa",))
def _(it):
    key = it.repository.key("timestamp")
    key.padding = padding.PKCS1v15()
    it.repository.put("timestamp", signers=[key])
    it.refuse(timestamp=None)


@test("4.2", "keys of all three kinds for one role, whose threshold is three", init=False)
def _(it):
    keys = [Key(kind, "timestamp") for kind in KINDS]
    it.repository.trust("timestamp", keys, 3)
    begin_anew(it)
    it.accept(**FIRST)
    it.repository.put("timestamp", signers=keys[:2])
    it.refuse(**FIRST)


@test("4.3", "one key for all roles: a document counts for its own role alone", init=False)
def _(it):
    key = it.repository.key("root")
    for role in TOP_LEVEL:
        it.repository.trust(role, [key])
    begin_anew(it)
    it.accept(**FIRST)
    other = body("timestamp", version=2, meta=it.repository.snapshot["meta"])
    it.repository.update()
    data = it.repository.put_bytes("snapshot", document(other, [key.sign(other)]))
    it.repository.timestamp["meta"]["snapshot.json"] = it.repository.describe(data, 2)
    it.repository.put("timestamp")
    it.refuse(timestamp=2, snapshot=1, targets=1)


@test("4.3", "a role lists a key that the root doesn't have, beside a good one")
def _(it):
    it.repository.root["roles"]["timestamp"]["keyids"].insert(0, it.repository.key("other").id)
    it.repository.next_root()
    it.accept(root=2, **FIRST)


@test("4.3", "the root has a key that no role lists")
def _(it):
    other = it.repository.key("other")
    it.repository.root["keys"][other.id] = other.json
    it.repository.next_root()
    it.accept(root=2, **FIRST)
    it.repository.update(timestamp=[other])
    it.refuse(**FIRST)


for told, change in (
    ("of a type that nobody knows", {"keytype": "lattice", "scheme": "lattice-1"}),
    ("of a scheme that nobody knows", {"scheme": "lattice-1"}),
):

    @test("4.2", f"the root has a key {told} among good ones: it is refused", differs="other types and schemes may be defined")
    def _(it, change=change):
        it.repository.trust("timestamp", [it.repository.key("timestamp"), it.repository.key("other").respelled(**change)])
        it.repository.next_root()
        it.refuse(root=1, timestamp=None)


for told, name in (("no digest of its key", "00" * 32), ("not hexadecimal", "the timestamp's key"), ("empty", "")):

    @test("4.2", f"a key identifier is {told}: the root is refused", differs="python-tuf takes any text")
    def _(it, name=name):
        key = it.repository.key("timestamp")
        key.id = name
        it.repository.trust("timestamp", [key])
        it.repository.next_root()
        it.refuse(root=1, timestamp=None)


@test("4.2", "key identifiers in upper-case digits")
def _(it):
    key = it.repository.key("timestamp")
    del it.repository.root["keys"][key.id]
    key.id = key.id.upper()
    it.repository.trust("timestamp", [key])
    it.repository.next_root()
    it.repository.release()
    it.accept(root=2, **FIRST)


# ---- members that nobody knows


def note(value):
    value["x-note"] = {"text": 'a "quoted" text, and a \\', "list": [1, "größe", None, True, -1]}


for role in TOP_LEVEL:

    @test("4", f"a member that nobody knows in {role}, which is signed")
    def _(it, role=role):
        note(it.repository.bodies[role])
        if role == "root":
            it.repository.next_root()
        it.repository.release()
        it.accept(**FIRST)
        if "x-note" not in it.stored(f"{role}.json"):
            raise Wrong("the stored document hasn't got it")


for told, place in (
    ("a role of the root", lambda it: it.root["roles"]["timestamp"]),
    ("the snapshot's entry", lambda it: it.timestamp["meta"]["snapshot.json"]),
    ("an entry of the snapshot", lambda it: it.snapshot["meta"]["targets.json"]),
    ("a target", lambda it: it.targets["targets"]["file"]),
    ("the hashes of a target", lambda it: it.targets["targets"]["file"]["hashes"]),
):

    @test("4", f"a member that nobody knows in {told}, which is signed")
    def _(it, place=place):
        it.repository.add("file", HELLO)
        note(place(it.repository))
        it.repository.next_root()
        it.repository.put("targets")
        it.repository.snapshot["meta"]["targets.json"].update(it.repository.describe(it.repository.files["metadata/1.targets.json"], 1))
        it.repository.put("snapshot")
        it.repository.timestamp["meta"]["snapshot.json"].update(it.repository.describe(it.repository.files["metadata/1.snapshot.json"], 1))
        it.repository.put("timestamp")
        it.save("file", HELLO)
        it.holds(root=2, **FIRST)


for told, members in (("a key", {"x-note": "a text"}), ("a key's value", None)):

    @test("4", f"a member that nobody knows in {told}, which is signed")
    def _(it, members=members):
        key = it.repository.key("timestamp")
        other = key.respelled(**(members or {"keyval": {**key.json["keyval"], "x-note": "a text"}}))
        it.repository.trust("timestamp", [other])
        it.repository.next_root()
        it.repository.release()
        it.accept(root=2, **FIRST)


@test("4", "members that nobody knows beside the signed part, and in a signature")
def _(it):
    right = it.repository.key("timestamp").sign(it.repository.timestamp)
    it.repository.put_bytes("timestamp", document(it.repository.timestamp, [{**right, "method": "x"}], note="x"))
    it.accept(**FIRST)


@test("4", "a member that nobody knows in a delegated role's document")
def _(it):
    note(it.repository.delegate("targets", "A"))
    it.repository.add("file", HELLO, "A")
    it.repository.release()
    it.save("file", HELLO)


for told, place in (("delegations", lambda it: it["delegations"]), ("a delegated role's entry", lambda it: it["delegations"]["roles"][0])):

    @test("4", f"a member that nobody knows in {told}: the targets are refused", differs="it is included in what is verified")
    def _(it, place=place):
        it.repository.delegate("targets", "A")
        note(place(it.repository.targets))
        it.repository.release()
        it.refuse(timestamp=1, snapshot=1, targets=None)


# ---- texts, versions and kinds


for version in ("1.0", "1.0.0", "1.99.1"):

    @test("4.3", f"spec_version {version}")
    def _(it, version=version):
        for role in TOP_LEVEL:
            it.repository.bodies[role]["spec_version"] = version
        it.repository.next_root()
        it.repository.release()
        it.accept(root=2, **FIRST)


for version in ("2.0.0", "0.9", "none"):

    @test("4.3", f"spec_version {version}", differs="another major version isn't supported")
    def _(it, version=version):
        for role in TOP_LEVEL:
            it.repository.bodies[role]["spec_version"] = version
        it.repository.next_root()
        it.repository.release()
        it.accept(root=2, **FIRST)


for role in ("timestamp", "snapshot", "targets"):

    @test("4.3", f"a {role} of another _type")
    def _(it, role=role):
        it.repository.bodies[role]["_type"] = "root"
        it.repository.release()
        it.refuse(**{role: None})

    @test("4.3", f"a {role} without its time of expiry")
    def _(it, role=role):
        del it.repository.bodies[role]["expires"]
        it.repository.release()
        it.refuse(**{role: None})

    @test("4.3", f"a {role} whose time of expiry is no time")
    def _(it, role=role):
        it.repository.bodies[role]["expires"] = "tomorrow"
        it.repository.release()
        it.refuse(**{role: None})


@test("4.2", "signed texts in normal form, of many alphabets")
def _(it):
    it.repository.targets["x-note"] = unicodedata.normalize("NFC", "größe, naïveté, 文字, עברית, \U0001f37a, \u0001\t\n\u007f")
    it.repository.release()
    it.accept(**FIRST)


@test("4.2", "a signed text that isn't in normal form: the document is refused", differs="silent")
def _(it):
    it.repository.targets["x-note"] = unicodedata.normalize("NFD", "größe")
    it.repository.release()
    it.refuse(timestamp=1, snapshot=1, targets=None)


@test("4.2", "a signed number that isn't whole: canonical JSON has none")
def _(it):
    it.repository.targets["x-note"] = 1.5
    it.repository.release()
    it.refuse(timestamp=1, snapshot=1, targets=None)


@test("4.5", "targets without targets")
def _(it):
    del it.repository.targets["targets"]
    it.repository.release()
    it.refuse(timestamp=1, snapshot=1, targets=None)
