"""A test of `conformance`: a repository, a server, and a client with its folders. Each expectation that isn't met raises `Wrong`."""
import dataclasses
import json
import subprocess
import typing

from conformance_repository import Repository

LIMIT = 120  # seconds of a run
TESTS = []


class Wrong(Exception):
    pass


@dataclasses.dataclass
class Test:
    section: str
    name: str
    differs: str
    begin: dict
    kinds: tuple
    run: typing.Callable


def test(section, name, differs="", kinds=(), **begin):
    """Takes a function as a test of a section of TUF 1.0. `differs` tells what the specification asks for in the place of what is expected
    here. `begin` goes to `Trial`."""

    def keep(run):
        TESTS.append(Test(section, name, differs, begin, kinds, run))
        return run

    return keep


class Trial:
    """The folder has been given root 1 by `init`, unless `init` is false."""

    def __init__(self, client, server, kind, folder, consistent=True, init=True):
        self.client, self.server, self.kind, self.folder = client, server, kind, folder
        self.metadata, self.saved = folder / "metadata", folder / "saved"
        self.metadata.mkdir()
        self.saved.mkdir()
        self.repository = server.repository = Repository(kind, consistent)
        self.told = ""
        if init:
            self.init(self.repository.files["metadata/1.root.json"])

    # ---- runs

    def run(self, *words):
        self.server.requests.clear()
        done = subprocess.run([self.client, *map(str, words)], capture_output=True, timeout=LIMIT)
        self.told = done.stderr.decode(errors="replace").strip()
        return done.returncode

    def expect(self, status, got):
        if got != status:
            raise Wrong(f"status {got} in place of {status}{': ' + self.told if self.told else ''}")

    def init(self, data, status=0):
        file = self.folder / "trusted.json"
        file.write_bytes(data)
        self.expect(status, self.run("--metadata-dir", self.metadata, "init", file))

    def refresh(self, url=None):
        return self.run("--metadata-dir", self.metadata, "--metadata-url", url or f"{self.server.url}/metadata", "refresh")

    def download(self, name):
        words = ("--metadata-dir", self.metadata, "--metadata-url", f"{self.server.url}/metadata")
        words = (*words, "--target-name", name, "--target-dir", self.saved, "--target-base-url", f"{self.server.url}/targets")
        return self.run(*words, "download")

    # ---- expectations

    def accept(self, **versions):
        """A refresh succeeds, and the folder holds these versions then."""
        self.expect(0, self.refresh())
        self.holds(**versions)

    def refuse(self, **versions):
        self.expect(1, self.refresh())
        self.holds(**versions)

    def refuse_root(self, data):
        """A refresh refuses the root that `init` kept, asks for nothing, and leaves it as it is."""
        self.refuse(timestamp=None)
        self.asked()
        if (self.metadata / "root.json").read_bytes() != data:
            raise Wrong("the root has changed")

    def save(self, name, data, at=None):
        """A target is saved with this content, under its name or at another path."""
        self.expect(0, self.download(name))
        file = self.saved / (at or name)
        if not file.is_file():
            raise Wrong(f"{file.relative_to(self.saved)} isn't there, but {sorted(self.files_saved())}")
        if file.read_bytes() != data:
            raise Wrong(f"another content of {name}")

    def save_nothing(self, name, **versions):
        """A target isn't saved, and no other file."""
        before = self.files_saved()
        self.expect(1, self.download(name))
        if self.files_saved() != before:
            raise Wrong(f"{sorted(self.files_saved())} in place of {sorted(before)}")
        self.holds(**versions)

    def files_saved(self):
        return {str(it.relative_to(self.saved)): it.read_bytes() for it in self.saved.rglob("*") if not it.is_dir()}

    def stored(self, file):
        """The signed part of a document of the folder, or none."""
        path = self.metadata / file
        return json.loads(path.read_bytes())["signed"] if path.is_file() else None

    def holds(self, **versions):
        for role, version in versions.items():
            found = self.stored(f"{role}.json")
            found = found and found["version"]
            if found != version:
                raise Wrong(f"the folder holds {role} {found} in place of {version}{': ' + self.told if self.told else ''}")

    def asked(self, *files, base="metadata/"):
        """The last run asked for these files, each so often, in this order."""
        wanted, got = [base + it for it in files], list(self.server.requests)
        if got != wanted:
            raise Wrong(f"asked for {' '.join(got) or 'nothing'} in place of {' '.join(wanted) or 'nothing'}")

    def asked_last(self, path):
        if self.server.requests[-1:] != [path]:
            raise Wrong(f"asked for {' '.join(self.server.requests) or 'nothing'}, not last for {path}")


def until(role, new, old=None):
    """The versions of the folder where this role isn't accepted: new ones before it, old ones from it on."""
    order = ("timestamp", "snapshot", "targets", role)
    return {it: new if order.index(it) < order.index(role) else old for it in order[:3]}
