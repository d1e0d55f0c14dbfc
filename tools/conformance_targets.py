"""Tests of delegations, the search for a target, and its download (TUF 1.0, 4.5, 5.6.7 and 5.7)."""
import hashlib
import urllib.parse

from conformance_repository import PAST, body, digest, signed
from conformance_trial import Wrong, test

HELLO, OTHER = b"hello, world\n", b"another\n"
LONG_CHAIN = 30


def asked_roles(it):
    """The delegated roles whose documents the last run asked for, by the names that are asked for."""
    files = [path.split("/", 1)[1] for path in it.server.requests if path.startswith("metadata/")]
    return [name.split(".", 1)[1].removesuffix(".json") for name in files][4:]


# ---- the search


@test("5.6.7", "a target of a delegated role")
def _(it):
    it.repository.delegate("targets", "A", paths=["a/*"])
    it.repository.add("a/file", HELLO, "A")
    it.repository.release()
    it.save("a/file", HELLO)
    if asked_roles(it) != ["A"]:
        raise Wrong(f"asked for {it.server.requests}")


@test("5.6.7", "without consistent snapshots a delegated role's name has no version", consistent=False)
def _(it):
    it.repository.delegate("targets", "A")
    it.repository.add("file", HELLO, "A")
    it.repository.release()
    it.accept()
    it.asked("2.root.json", "timestamp.json", "snapshot.json", "targets.json", "A.json")
    it.save("file", HELLO)


@test("5.6.7", "a refresh loads the delegated roles too", differs="they are asked for once a target is")
def _(it):
    it.repository.delegate("targets", "A")
    it.repository.delegate("A", "B")
    it.repository.release()
    it.accept()
    it.asked("2.root.json", "timestamp.json", "1.snapshot.json", "1.targets.json", "1.A.json", "1.B.json")


@test("5.6.7", "a delegated role is stored under the name that it is asked for by", differs="FILENAME.EXT, without the version")
def _(it):
    it.repository.delegate("targets", "A")
    it.repository.release()
    it.accept()
    if it.stored("1.A.json") != it.repository.bodies["A"]:
        raise Wrong("1.A.json isn't there, or has another content")


@test("5.6.7.1", "the targets themselves come before their delegations")
def _(it):
    it.repository.delegate("targets", "A")
    it.repository.add("file", OTHER, "A")
    it.repository.add("file", HELLO)
    it.repository.release()
    it.save("file", HELLO)


@test("5.6.7.2", "of two roles that list a target the first counts")
def _(it):
    for role, data in (("A", HELLO), ("B", OTHER)):
        it.repository.delegate("targets", role)
        it.repository.add("file", data, role)
    it.repository.release()
    it.save("file", HELLO)


@test("5.6.7", "a role below the first role comes before the second role")
def _(it):
    for parent, role in (("targets", "A"), ("A", "C"), ("targets", "B")):
        it.repository.delegate(parent, role)
    for role, data in (("C", HELLO), ("B", OTHER)):
        it.repository.add("file", data, role)
    it.repository.release()
    it.save("file", HELLO)


@test("5.6.7.2", "a role that doesn't match the path is passed over, though it terminates")
def _(it):
    it.repository.delegate("targets", "A", paths=["a/*"], terminating=True)
    it.repository.delegate("targets", "B", paths=["b/*"])
    it.repository.add("b/file", HELLO, "B")
    it.repository.release()
    it.save("b/file", HELLO)


@test("5.6.7.2.1", "a terminating role that doesn't list the target ends the search")
def _(it):
    it.repository.delegate("targets", "A", terminating=True)
    it.repository.delegate("targets", "B")
    it.repository.add("file", HELLO, "B")
    it.repository.release()
    it.save_nothing("file", timestamp=1, snapshot=1, targets=1)


@test("5.6.7.2.1", "a terminating role is searched with all that is below it")
def _(it):
    for parent, role, ends in (("targets", "A", True), ("A", "C", False), ("targets", "B", False)):
        it.repository.delegate(parent, role, terminating=ends)
    for role, data in (("C", HELLO), ("B", OTHER)):
        it.repository.add("file", data, role)
    it.repository.release()
    it.save("file", HELLO)


@test("5.6.7.2.1", "a terminating role below another role ends the whole search")
def _(it):
    for parent, role, ends in (("targets", "A", False), ("A", "C", True), ("A", "D", False), ("targets", "B", False)):
        it.repository.delegate(parent, role, terminating=ends)
    for role in ("B", "D"):
        it.repository.add("file", HELLO, role)
    it.repository.release()
    it.save_nothing("file")


@test("5.6.7.2.2", "a role that doesn't terminate, and doesn't list the target")
def _(it):
    it.repository.delegate("targets", "A")
    it.repository.delegate("targets", "B")
    it.repository.add("file", HELLO, "B")
    it.repository.release()
    it.save("file", HELLO)


@test("5.6.7.1", "a role that delegates to itself")
def _(it):
    it.repository.delegate("targets", "A")
    it.repository.delegate("A", "A")
    it.repository.add("file", HELLO, "A")
    it.repository.release()
    it.save("file", HELLO)
    it.save_nothing("missing")


@test("5.6.7.1", "two roles that delegate to each other: the search ends")
def _(it):
    for parent, role in (("targets", "A"), ("A", "B"), ("B", "A")):
        it.repository.delegate(parent, role)
    it.repository.add("file", HELLO, "B")
    it.repository.release()
    it.save("file", HELLO)
    it.save_nothing("missing")


@test("5.6.7.1", "roles that delegate to each other, reached by two ways: one of them is asked for twice", differs="each is asked for once")
def _(it):
    for parent, role in (("targets", "A"), ("targets", "B"), ("A", "B"), ("B", "A")):
        it.repository.delegate(parent, role)
    it.repository.release()
    it.accept()
    if asked_roles(it) != ["A", "B", "B"]:
        raise Wrong(f"asked for {asked_roles(it)}")


@test("5.6.7.1", f"a chain of {LONG_CHAIN} delegations")
def _(it):
    roles = ["targets", *(f"role {n}" for n in range(LONG_CHAIN))]
    for parent, role in zip(roles, roles[1:]):
        it.repository.delegate(parent, role, keys=[it.repository.key("chain")])
    it.repository.add("file", HELLO, roles[-1])
    it.repository.release()
    it.save("file", HELLO)


@test("5.6.7", "the keys of a delegated role are rotated")
def _(it):
    it.repository.delegate("targets", "A")
    it.repository.add("file", HELLO, "A")
    it.repository.release()
    it.save("file", HELLO)
    (it.saved / "file").unlink()
    new = it.repository.key("A 2")
    it.repository.targets["delegations"] = {"keys": {}, "roles": []}
    it.repository.delegate("targets", "A", keys=[new])
    it.repository.update(A=[it.repository.key("A")])
    it.save_nothing("file", timestamp=2, snapshot=2, targets=2)
    it.repository.update()
    it.save("file", HELLO)


@test("5.6.7", "a delegated role that doesn't concern the target has expired", differs="only the roles of the search are loaded")
def _(it):
    it.repository.delegate("targets", "A", paths=["a/*"])
    it.repository.bodies["A"]["expires"] = PAST
    it.repository.add("file", HELLO)
    it.repository.release()
    it.save_nothing("file", timestamp=1, snapshot=1, targets=1)


@test("5.6.7", "the snapshot doesn't list a delegated role: its targets aren't found")
def _(it):
    it.repository.delegate("targets", "A")
    it.repository.add("file", HELLO, "A")
    it.repository.release()
    del it.repository.snapshot["meta"]["A.json"]
    it.repository.release_snapshot()
    it.save_nothing("file")
    it.accept(timestamp=1, snapshot=1, targets=1)


@test("5.6.7", "the snapshot doesn't list the second of two roles: the targets of the first aren't found", differs="they are found")
def _(it):
    it.repository.delegate("targets", "A")
    it.repository.delegate("targets", "B")
    it.repository.add("file", HELLO, "A")
    it.repository.release()
    del it.repository.snapshot["meta"]["B.json"]
    it.repository.release_snapshot()
    it.save_nothing("file")


@test("4.5", "a role lists a name that its parent doesn't let it: the load is refused", differs="the name is passed over")
def _(it):
    it.repository.delegate("targets", "A", paths=["a/*"])
    it.repository.add("b/file", HELLO, "A")
    it.repository.add("file", HELLO)
    it.repository.release()
    it.save_nothing("file")
    it.save_nothing("b/file")


# ---- paths and prefixes


for pattern, name in (
    ("file", "file"),
    ("*.txt", "file.txt"),
    ("a/*.txt", "a/file.txt"),
    ("a/?.txt", "a/b.txt"),
    ("a/b-[0-9].txt", "a/b-7.txt"),
    ("*/file", "a/file"),
    ("a/*/file", "a/b/file"),
):

    @test("4.5", f"the path {pattern} lets a role list {name}")
    def _(it, pattern=pattern, name=name):
        it.repository.delegate("targets", "A", paths=["nothing", pattern])
        it.repository.add(name, HELLO, "A")
        it.repository.release()
        it.save(name, HELLO)


for pattern, name in (("*.txt", "a/file.txt"), ("a?file", "a/file")):

    @test("4.5", f"the path {pattern} lets a role list {name}", differs="no wildcard stands for a slash")
    def _(it, pattern=pattern, name=name):
        it.repository.delegate("targets", "A", paths=[pattern])
        it.repository.add(name, HELLO, "A")
        it.repository.release()
        it.save(name, HELLO)


for pattern, name in (("file", "file2"), ("*.txt", "file.txt.gz"), ("a/*", "b/file"), ("a?", "abc"), ("File", "file")):

    @test("4.5", f"the path {pattern} doesn't match {name}: the next role is searched")
    def _(it, pattern=pattern, name=name):
        it.repository.delegate("targets", "A", paths=[pattern], terminating=True)
        it.repository.delegate("targets", "B", paths=["*"])
        it.repository.add(name, HELLO, "B")
        it.repository.release()
        it.save(name, HELLO)


for size in (1, 2, 3, 64):

    @test("4.5", f"prefixes of {size} digits: the role of the target's digest is searched, and no other")
    def _(it, size=size):
        name = "folder/file"
        prefix = digest(name.encode())[:size]
        others = sorted({digest(str(n).encode())[:size] for n in range(64)} - {prefix})
        it.repository.delegate("targets", "others", path_hash_prefixes=others, terminating=True)
        it.repository.delegate("targets", "mine", path_hash_prefixes=[others[0], prefix])
        it.repository.add(name, HELLO, "mine")
        it.repository.release()
        it.save(name, HELLO)


@test("4.5", "a role with both paths and prefixes")
def _(it):
    it.repository.delegate("targets", "A", paths=["*"], path_hash_prefixes=[""])
    it.repository.release()
    it.refuse(targets=None)


@test("4.5", "a role with neither paths nor prefixes")
def _(it):
    it.repository.delegate("targets", "A")
    del it.repository.targets["delegations"]["roles"][0]["paths"]
    it.repository.release()
    it.refuse(targets=None)


# ---- names of roles


for role in ("with space", "with/slash", "what?", "number#1", "größe", "a%2Fb", "..", "a:b", "it's", 'a "quote"', "back\\slash", "+&=~_.-"):

    @test("5.6.7", f"a delegated role named {role}")
    def _(it, role=role):
        it.repository.delegate("targets", role)
        it.repository.add("file", HELLO, role)
        it.repository.release()
        it.save("file", HELLO)
        wanted = f"metadata/1.{urllib.parse.quote(role, safe='')}.json"
        if wanted not in it.server.requests:
            raise Wrong(f"asked for {' '.join(it.server.requests)}, not for {wanted}")
        if [it for it in it.metadata.rglob("*") if it.parent.name != "metadata"]:
            raise Wrong("the folder has a folder")


@test("5.6.7", "a delegated role named timestamp doesn't replace the stored timestamp", consistent=False)
def _(it):
    key = it.repository.key("inner")
    data = signed(body("targets", targets={}), [key])
    role = {"name": "timestamp", "keyids": [key.id], "threshold": 1, "terminating": False, "paths": ["*"]}
    it.repository.targets["delegations"] = {"keys": {key.id: key.json}, "roles": [role]}
    it.repository.put("targets")
    it.repository.list_roles()
    it.repository.snapshot["meta"]["timestamp.json"] = it.repository.describe(data, 1)
    it.repository.release_snapshot()
    it.repository.files["metadata/timestamp.json"] = [it.repository.files["metadata/timestamp.json"], data]
    it.accept(timestamp=1, snapshot=1, targets=1)
    if it.stored("timestamp.json")["_type"] != "timestamp":
        raise Wrong("the stored timestamp is another document")


# ---- downloads


@test("5.7.3", "a target under its digest, with consistent snapshots")
def _(it):
    it.repository.add("file.txt", HELLO)
    it.repository.release()
    it.save("file.txt", HELLO)
    it.asked_last(f"targets/{digest(HELLO)}.file.txt")


@test("5.7.3", "a target under its name, without consistent snapshots", consistent=False)
def _(it):
    it.repository.add("file.txt", HELLO)
    it.repository.release()
    it.save("file.txt", HELLO)
    it.asked_last("targets/file.txt")


@test("5.7.3", "a target in folders, without consistent snapshots", consistent=False)
def _(it):
    it.repository.add("a/b/file.txt", HELLO)
    it.repository.release()
    it.save("a/b/file.txt", HELLO)
    it.asked_last("targets/a/b/file.txt")


@test("5.7.3", "a target in folders: DIGEST.a/b/file.txt is asked for", differs="a/b/DIGEST.file.txt")
def _(it):
    it.repository.add("a/b/file.txt", HELLO)
    it.repository.release()
    it.save("a/b/file.txt", HELLO)
    it.asked_last(f"targets/{digest(HELLO)}.a/b/file.txt")


@test("5.7.2", "a target that no role lists: nothing is asked for, and nothing is saved")
def _(it):
    it.repository.add("file", HELLO)
    it.repository.release()
    it.save_nothing("other", timestamp=1, snapshot=1, targets=1)
    it.asked("2.root.json", "timestamp.json", "1.snapshot.json", "1.targets.json")


@test("5.7.2", "a target that the next version lists no more")
def _(it):
    it.repository.add("file", HELLO)
    it.repository.release()
    it.save("file", HELLO)
    del it.repository.targets["targets"]["file"]
    it.repository.update()
    it.save_nothing("file", targets=2)


@test("5.7.2", "the metadata is refused: no target is asked for")
def _(it):
    it.repository.add("file", HELLO)
    it.repository.release(timestamp=[it.repository.key("other")])
    it.save_nothing("file")
    it.asked("2.root.json", "timestamp.json")


@test("5.7.3", "an empty target")
def _(it):
    it.repository.add("empty", b"")
    it.repository.release()
    it.save("empty", b"")


@test("5.7.3", "a target of 3,000,000 bytes")
def _(it):
    data = bytes(range(256)) * 11719
    it.repository.add("large", data)
    it.repository.release()
    it.save("large", data)


for told, data in (("longer", HELLO + b"\n"), ("shorter", HELLO[:-1]), ("as long, with another content", HELLO[:-1] + b"!"), ("empty", b"")):

    @test("5.7.3", f"the file of a target is {told}")
    def _(it, data=data):
        it.repository.add("file", HELLO)
        it.repository.release()
        it.repository.files[it.repository.target_path("file", HELLO)] = data
        it.save_nothing("file", timestamp=1, snapshot=1, targets=1)


@test("5.7.3", "a target is longer than its length, which its digest isn't of")
def _(it):
    it.repository.add("file", HELLO)["length"] -= 1
    it.repository.release()
    it.save_nothing("file")


@test("5.7.3", "the file of a target isn't there")
def _(it):
    it.repository.add("file", HELLO)
    it.repository.release()
    del it.repository.files[it.repository.target_path("file", HELLO)]
    it.save_nothing("file")


@test("5.7.3", "a target with two hashes, both right")
def _(it):
    it.repository.add("file", HELLO)["hashes"]["sha512"] = hashlib.sha512(HELLO).hexdigest()
    it.repository.release()
    it.save("file", HELLO)


@test("5.7.3", "a target with two hashes, of which the second is wrong")
def _(it):
    it.repository.add("file", HELLO)["hashes"]["sha512"] = hashlib.sha512(OTHER).hexdigest()
    it.repository.release()
    it.save_nothing("file")


@test("5.7.3", "a target with a hash of an algorithm that nobody knows beside a right one")
def _(it):
    it.repository.add("file", HELLO)["hashes"]["blake9"] = "00"
    it.repository.release()
    it.save("file", HELLO)


@test("4.5", "a target without SHA-256: the targets are refused", differs="any algorithm may stand alone")
def _(it):
    it.repository.add("file", HELLO)["hashes"] = {"sha512": hashlib.sha512(HELLO).hexdigest()}
    it.repository.release()
    it.save_nothing("file", snapshot=1, targets=None)


@test("5.7", "a target that is already there is fetched again", differs="it may be used again")
def _(it):
    it.repository.add("file", HELLO)
    it.repository.release()
    it.save("file", HELLO)
    it.save("file", HELLO)
    it.asked_last(f"targets/{digest(HELLO)}.file")


@test("5.7.3", "a target replaces the saved one, once it is whole")
def _(it):
    it.repository.add("file", HELLO)
    it.repository.release()
    it.save("file", HELLO)
    it.repository.add("file", OTHER)
    it.repository.update()
    right = it.repository.target_path("file", OTHER)
    it.repository.files[right] = HELLO
    it.save_nothing("file", targets=2)
    it.repository.files[right] = OTHER
    it.save("file", OTHER)


@test("4.5", "a target with custom members")
def _(it):
    it.repository.add("file", HELLO, custom={"note": 'a "quoted" text', "list": [1, None, {"deep": True}], "größe": "\u00e4"})
    it.repository.release()
    it.save("file", HELLO)


@test("5.7", "the folder of targets isn't there")
def _(it):
    it.repository.add("file", HELLO)
    it.repository.release()
    it.saved.rmdir()
    it.expect(1, it.download("file"))
    if it.saved.exists():
        raise Wrong("the folder is there")


# ---- names of targets


for name in ("with space", 'a "quoted" name', "it's", "größe", "file+1~2_3-4.5", "a&b=c;d@e!f$g(h)*i,j", "<a>|b^`{c}", "\U0001f37a"):

    @test("4.5", f"a target named {name}")
    def _(it, name=name):
        it.repository.add(name, HELLO)
        it.repository.release()
        it.save(name, HELLO)
        wanted = f"targets/{digest(HELLO)}.{name}"
        if urllib.parse.unquote(it.server.requests[-1]) != wanted:
            raise Wrong(f"asked for {it.server.requests[-1]}")


for name, asked in (("a#b", "a"), ("a?b", "a?b"), ("a%41b", "a%41b"), ("a\\b", "a/b")):

    @test("4.5", f"a target named {name}: {asked} is asked for, unescaped", differs="silent: others escape the name")
    def _(it, name=name, asked=asked):
        it.repository.add(name, HELLO)
        plain = urllib.parse.unquote(f"targets/{digest(HELLO)}.{asked}")
        it.repository.files[plain] = HELLO
        it.repository.release()
        it.save(name, HELLO)
        it.asked_last(f"targets/{digest(HELLO)}.{asked}")


def content(letter):
    """A content whose digest begins with a letter, or with a digit."""
    return next(data for n in range(1000) if digest(data := b"%d" % n)[0].isalpha() == letter)


@test("4.5", "a target named a:b, whose digest begins with a digit", differs="silent")
def _(it):
    it.repository.add("a:b", content(letter=False))
    it.repository.release()
    it.save("a:b", content(letter=False))


@test("4.5", "a target named a:b, whose digest begins with a letter, is refused", differs="silent: DIGEST.a: reads as a scheme")
def _(it):
    it.repository.add("a:b", content(letter=True))
    it.repository.release()
    it.save_nothing("a:b")


@test("4.5", "a target named a:b is refused without consistent snapshots", differs="silent: a: reads as a scheme", consistent=False)
def _(it):
    it.repository.add("a:b", HELLO)
    it.repository.release()
    it.save_nothing("a:b")


for name, place in (("a/../b/file", "b/file"), ("../file", "file"), ("../../a/file", "a/file"), ("./a//file", "a/file")):

    @test("4.5", f"a target named {name} is saved at {place}, below the folder")
    def _(it, name=name, place=place):
        it.repository.add(name, HELLO)
        it.repository.files[it.repository.target_path(place, HELLO)] = HELLO
        it.repository.release()
        it.save(name, HELLO, at=place)
        if (it.folder / "file").exists() or (it.folder / "a").exists():
            raise Wrong("a file lies beside the folder")


@test("4.5", "a target named by an absolute path isn't saved")
def _(it):
    name = str(it.folder / "outside")
    it.repository.add(name, HELLO)
    it.repository.files[it.repository.target_path(name, HELLO)] = HELLO
    it.repository.release()
    it.save_nothing(name)
    if (it.folder / "outside").exists():
        raise Wrong("it lies outside of the folder")
