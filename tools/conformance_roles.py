"""Tests of the timestamp, the snapshot, the targets and a delegated role (TUF 1.0, 5.4 to 5.6)."""
import hashlib

from conformance_repository import PAST, document, signed, spoilt
from conformance_trial import Wrong, test, until

FIRST = {"timestamp": 1, "snapshot": 1, "targets": 1}
STEPS = {
    "signed": {"timestamp": "5.4.2", "snapshot": "5.5.3", "targets": "5.6.3", "packages": "5.6.7"},
    "fresh": {"timestamp": "5.4.4", "snapshot": "5.5.6", "targets": "5.6.5", "packages": "5.6.7"},
    "hashed": {"snapshot": "5.5.2", "targets": "5.6.2", "packages": "5.6.7"},
    "listed": {"snapshot": "5.5.4", "targets": "5.6.4", "packages": "5.6.7"},
    "bounded": {"timestamp": "5.4.1", "snapshot": "5.5.1", "targets": "5.6.1", "packages": "5.6.7"},
}
APP, FILE = b"an application\n", "packages/app.bin"


def with_packages(it, role, **policy):
    """Where the test is of the delegated role, it is there, and lists a target."""
    if role == "packages":
        it.repository.delegate("targets", "packages", paths=["packages/*"], **policy)
        it.repository.add(FILE, APP, "packages")
        it.repository.release()


def take(it, role, version):
    """This version of each role is accepted. A delegated one is needed where a target of it is asked for."""
    if role == "packages":
        it.save(FILE, APP)
    else:
        it.accept()
    it.holds(timestamp=version, snapshot=version, targets=version)


def leave(it, role, new, old=None):
    """Roles before this one are accepted at their new version, and it isn't."""
    if role == "packages":
        it.save_nothing(FILE)
        if it.stored(f"{new}.packages.json"):
            raise Wrong("the folder holds the refused packages")
    else:
        it.refuse()
    it.holds(**until(role, new, old))


def relist(it, role):
    """What is served as this role is listed anew, and what lists it is signed anew."""
    if role != "snapshot":
        it.repository.list_roles()
        it.repository.put("snapshot")
    it.repository.list_snapshot()
    it.repository.put("timestamp")


def entry(it, role):
    """Where the role is listed."""
    return it.repository.bodies["timestamp" if role == "snapshot" else "snapshot"]["meta"][f"{role}.json"]


def resign_lists(it, role):
    """Signs what lists the role, after a change of its entry."""
    if role != "snapshot":
        it.repository.put("snapshot")
        it.repository.list_snapshot()
    it.repository.put("timestamp")


# ---- signatures


def each(steps):
    return lambda make: [make(role, section) for role, section in STEPS[steps].items()]


@each("signed")
def _(role, section):
    @test(section, f"{role} reaches its threshold of two, or one less", init=False)
    def _(it):
        keys = [it.repository.key(f"{role} {n}") for n in "abc"]
        if role == "packages":
            with_packages(it, role, keys=keys, threshold=2)
        else:
            it.repository.trust(role, keys, 2)
        it.init(it.repository.put_root())
        it.repository.release(**{role: keys[:1]})
        leave(it, role, 1)
        it.repository.release(**{role: keys[1:]})
        take(it, role, 1)

    @test(section, f"{role} is signed by a key of another role")
    def _(it):
        with_packages(it, role)
        take(it, role, 1)
        it.repository.update(**{role: [it.repository.key("root")]})
        leave(it, role, 2, 1)
        it.repository.update()
        take(it, role, 3)

    @test(section, f"{role} is signed by nobody")
    def _(it):
        with_packages(it, role)
        it.repository.release(**{role: []})
        leave(it, role, 1)

    @test(section, f"a signature of {role} is spoilt")
    def _(it):
        with_packages(it, role)
        body = it.repository.bodies[role]
        it.repository.put_bytes(role, document(body, [spoilt(it.repository.key(role).sign(body))]))
        if role != "timestamp":
            relist(it, role)
        leave(it, role, 1)

    @test(section, f"{role} is changed once it is signed")
    def _(it):
        with_packages(it, role)
        body = it.repository.bodies[role]
        it.repository.put_bytes(role, document({**body, "note": "new"}, [it.repository.key(role).sign(body)]))
        if role != "timestamp":
            relist(it, role)
        leave(it, role, 1)

    @test(section, f"a document of another role in the place of {role}, signed by its key")
    def _(it):
        with_packages(it, role)
        other = it.repository.bodies["timestamp" if role == "snapshot" else "snapshot"]
        it.repository.put_bytes(role, signed(other, [it.repository.key(role)]))
        if role != "timestamp":
            relist(it, role)
        leave(it, role, 1)

    @test(section, f"of the signatures of {role}, one is spoilt, one is empty and one is by an unknown key, and the others are enough")
    def _(it):
        keys = [it.repository.key(f"{role} {n}") for n in "abc"]
        if role == "packages":
            with_packages(it, role, keys=keys)
        else:
            it.repository.trust(role, keys)
            it.repository.next_root()
        body = it.repository.bodies[role]
        signatures = [spoilt(keys[0].sign(body)), {"keyid": keys[1].id, "sig": ""}, it.repository.key("other").sign(body), keys[2].sign(body)]
        it.repository.put_bytes(role, document(body, signatures))
        if role != "timestamp":
            relist(it, role)
        take(it, role, 1)


# ---- expiry, and documents that aren't there


@each("fresh")
def _(role, section):
    @test(section, f"{role} has expired")
    def _(it):
        with_packages(it, role)
        take(it, role, 1)
        it.repository.bodies[role]["expires"] = PAST
        it.repository.update()
        leave(it, role, 2, 1)


@each("bounded")
def _(role, section):
    @test(section, f"{role} isn't there")
    def _(it):
        with_packages(it, role)
        del it.repository.files[it.repository.path(role)]
        leave(it, role, 1)

    @test(section, f"{role} is over the limit of its size")
    def _(it):
        with_packages(it, role)
        it.repository.stated = ("hashes",)
        it.repository.bodies[role]["note"] = "x" * (10_485_760 if role in ("targets", "packages") else 1_048_576)
        it.repository.release()
        leave(it, role, 1)

    @test("4.2", f"{role} is no JSON")
    def _(it):
        with_packages(it, role)
        it.repository.put_bytes(role, b'{"signed":')
        if role != "timestamp":
            relist(it, role)
        leave(it, role, 1)


# ---- what is listed


@each("listed")
def _(role, section):
    @test(section, f"{role} has a later version than is listed")
    def _(it):
        with_packages(it, role)
        it.repository.bodies[role]["version"] = 2
        it.repository.put(role, at=1)
        it.repository.bodies[role]["version"] = 1
        relist(it, role)
        leave(it, role, 1)

    @test(section, f"{role} has an earlier version than is listed")
    def _(it):
        with_packages(it, role)
        take(it, role, 1)
        it.repository.update()
        body = it.repository.bodies[role]
        it.repository.put_bytes(role, signed({**body, "version": 1}, it.repository.keys[role]))
        relist(it, role)
        leave(it, role, 2, 1)


@each("hashed")
def _(role, section):
    @test(section, f"{role} has another SHA-256 than is listed")
    def _(it):
        with_packages(it, role)
        entry(it, role)["hashes"]["sha256"] = "00" * 32
        resign_lists(it, role)
        leave(it, role, 1)

    @test(section, f"{role} has the SHA-256 that is listed, and another SHA-512")
    def _(it):
        with_packages(it, role)
        entry(it, role)["hashes"]["sha512"] = "00" * 64
        resign_lists(it, role)
        leave(it, role, 1)

    @test(section, f"an algorithm that nobody knows beside the SHA-256 of {role}")
    def _(it):
        with_packages(it, role)
        entry(it, role)["hashes"]["blake9"] = "00"
        resign_lists(it, role)
        take(it, role, 1)

    @test(section, f"no SHA-256 beside another hash of {role}", differs="any algorithm may stand alone")
    def _(it):
        with_packages(it, role)
        data = it.repository.files[it.repository.path(role)]
        entry(it, role)["hashes"] = {"sha512": hashlib.sha512(data).hexdigest()}
        resign_lists(it, role)
        leave(it, "timestamp" if role == "snapshot" else "snapshot", 1)

    @test(section, f"neither length nor hashes of {role} are listed")
    def _(it):
        with_packages(it, role)
        it.repository.stated = ()
        it.repository.release()
        take(it, role, 1)


@each("bounded")
def _(role, section):
    if role == "timestamp":
        return

    @test(section, f"{role} is longer than is listed, and no hash is")
    def _(it):
        with_packages(it, role)
        it.repository.stated = ("length",)
        it.repository.release()
        entry(it, role)["length"] -= 1
        resign_lists(it, role)
        leave(it, role, 1)

    @test(section, f"{role} is shorter than is listed, and no hash is")
    def _(it):
        with_packages(it, role)
        it.repository.stated = ("length",)
        it.repository.release()
        entry(it, role)["length"] += 1
        resign_lists(it, role)
        take(it, role, 1)


# ---- rollbacks


@test("5.4.3.1", "an older timestamp")
def _(it):
    it.repository.update()
    it.accept(timestamp=2)
    it.repository.timestamp["version"] = 1
    it.repository.put("timestamp")
    it.refuse(timestamp=2, snapshot=2, targets=2)
    it.asked("2.root.json", "timestamp.json")


@test("5.4.3.1", "the same timestamp again: no error")
def _(it):
    it.accept(**FIRST)
    it.accept(**FIRST)


@test("5.4.3.1", "the same timestamp again: the others are asked for again", differs="the update ends there")
def _(it):
    it.accept(**FIRST)
    it.accept(**FIRST)
    it.asked("2.root.json", "timestamp.json", "1.snapshot.json", "1.targets.json")


@test("5.4.3.1", "a timestamp of the same version with another content replaces the stored one", differs="it is discarded")
def _(it):
    it.accept(**FIRST)
    it.repository.timestamp["note"] = "another"
    it.repository.put("timestamp")
    it.accept(**FIRST)
    if it.stored("timestamp.json").get("note") != "another":
        raise Wrong("the first one stayed")


@test("5.4.3.2", "a timestamp that lists an older snapshot")
def _(it):
    it.repository.update()
    it.accept(timestamp=2, snapshot=2)
    it.repository.timestamp["version"] = 3
    it.repository.timestamp["meta"]["snapshot.json"]["version"] = 1
    it.repository.put("timestamp")
    it.refuse(timestamp=2, snapshot=2)
    it.asked("2.root.json", "timestamp.json")


@test("5.4.3.2", "a later timestamp that lists the same snapshot")
def _(it):
    it.accept(**FIRST)
    it.repository.timestamp["version"] = 2
    it.repository.put("timestamp")
    it.accept(timestamp=2, snapshot=1, targets=1)


@test("5.4.4", "a timestamp that has expired isn't kept: a lower version follows")
def _(it):
    it.accept(**FIRST)
    fresh = it.repository.timestamp["expires"]
    it.repository.timestamp.update(version=9, expires=PAST)
    it.repository.put("timestamp")
    it.refuse(**FIRST)
    it.repository.timestamp.update(version=2, expires=fresh)
    it.repository.put("timestamp")
    it.accept(timestamp=2)


@test("5.5.5", "a snapshot that lists older targets")
def _(it):
    it.repository.update()
    it.accept(timestamp=2, snapshot=2, targets=2)
    it.repository.targets["version"] = 1
    for role in ("snapshot", "timestamp"):
        it.repository.bodies[role]["version"] = 3
    it.repository.release()
    it.refuse(timestamp=3, snapshot=2, targets=2)
    it.asked("2.root.json", "timestamp.json", "3.snapshot.json")


@test("5.5.5", "a snapshot that lists an older delegated role")
def _(it):
    with_packages(it, "packages")
    it.repository.update()
    take(it, "packages", 2)
    it.repository.update()
    it.repository.bodies["packages"]["version"] = 1
    it.repository.release()
    it.refuse(timestamp=3, snapshot=2, targets=2)


@test("5.5.5", "a snapshot that lists a delegated role no more")
def _(it):
    with_packages(it, "packages")
    take(it, "packages", 1)
    it.repository.update()
    del it.repository.snapshot["meta"]["packages.json"]
    it.repository.release_snapshot()
    it.refuse(timestamp=2, snapshot=1, targets=1)


@test("5.5.5", "a delegation is gone, and the snapshot still lists its role")
def _(it):
    with_packages(it, "packages")
    take(it, "packages", 1)
    del it.repository.targets["delegations"]
    it.repository.update()
    it.accept(timestamp=2, snapshot=2, targets=2)
    it.asked("2.root.json", "timestamp.json", "2.snapshot.json", "2.targets.json")


@test("5.5.5", "a snapshot that lists a role beside those of the one before")
def _(it):
    it.accept(**FIRST)
    with_packages(it, "packages")
    it.repository.update()
    take(it, "packages", 2)


@test("5.5.5", "a snapshot of the same version that lists later targets")
def _(it):
    it.accept(**FIRST)
    for role in ("targets", "timestamp"):
        it.repository.bodies[role]["version"] = 2
    it.repository.release()
    it.accept(timestamp=2, snapshot=1, targets=2)


@test("5.5.7", "an update that broke off before the snapshot goes on in the next refresh")
def _(it):
    it.accept(**FIRST)
    it.repository.update()
    served = it.repository.files.pop("metadata/2.snapshot.json")
    it.refuse(timestamp=2, snapshot=1, targets=1)
    it.repository.files["metadata/2.snapshot.json"] = served
    it.accept(timestamp=2, snapshot=2, targets=2)


# ---- the lists themselves


@test("4.4", "a snapshot that doesn't list targets.json")
def _(it):
    it.repository.snapshot["meta"] = {"other.json": {"version": 1}}
    it.repository.release_snapshot()
    it.refuse(timestamp=1, snapshot=None)


@test("4.6", "a timestamp that lists nothing")
def _(it):
    it.repository.timestamp["meta"] = {}
    it.repository.put("timestamp")
    it.refuse(timestamp=None)


@test("4.6", "a timestamp that lists another file beside snapshot.json")
def _(it):
    it.repository.timestamp["meta"]["targets.json"] = {"version": 1}
    it.repository.put("timestamp")
    it.refuse(timestamp=None)


for version in (0, -1, "1", 1.5, None):

    @test("4.6", f"a timestamp of version {version!r}")
    def _(it, version=version):
        it.repository.timestamp["version"] = version
        it.repository.put("timestamp")
        it.refuse(timestamp=None)


@test("4.6", "versions up to 2^64 - 1 are told apart")
def _(it):
    for version in (2**53, 2**53 + 1, 2**64 - 1):
        it.repository.timestamp["version"] = version
        it.repository.put("timestamp")
        it.accept(timestamp=version)
    it.repository.timestamp["version"] = 2**64 - 2
    it.repository.put("timestamp")
    it.refuse(timestamp=2**64 - 1)
