"""The Rust crate tough 0.24.0, built as a program that takes files alone and the demonstration scheme, plays the client of `conformance`."""
import pathlib
import shutil
import subprocess
import urllib.parse

from conformance_trial import LIMIT, Trial, Wrong


class NotPlayed(Exception):
    """The program can't play this: it has no HTTP."""


class Unknown:
    """The requests of a run, which nobody counts."""

    def clear(self):
        pass

    def __getitem__(self, *_):
        raise NotPlayed

    __iter__ = __len__ = __contains__ = __getitem__


class OriginalTrial(Trial):
    """Before each run what is served is written into a folder, under each name and under its escaped form, by which the program opens it."""

    def run(self, *words):
        self.server.requests = Unknown()
        given = dict(zip(words[::2], words[1::2])) if "init" not in words else {}
        if not given:
            if not pathlib.Path(words[-1]).is_file():
                return 1
            data = pathlib.Path(words[-1]).read_bytes()
            for file in (self.folder / "first.json", self.metadata / "root.json"):
                file.write_bytes(data)
            return 0
        served = self.put_files()
        urls = [str(given.get(it, self.server.url)).replace(self.server.url, f"file://{served}") for it in ("--metadata-url", "--target-base-url")]
        call = ["load"] if "--target-name" not in given else ["get"]
        last = [] if call == ["load"] else [given["--target-name"], given["--target-dir"]]
        asked = [*call, self.folder / "first.json", *(f"{it}/" for it in urls), self.metadata, *last]
        done = subprocess.run([self.client, *map(str, asked)], capture_output=True, timeout=LIMIT)
        self.told = done.stdout.decode(errors="replace").strip()
        return min(done.returncode, 1)

    def put_files(self):
        """The folder of the served files."""
        served = self.folder / "served"
        shutil.rmtree(served, ignore_errors=True)
        if self.server.statuses:
            raise NotPlayed
        for name, data in self.server.repository.files.items():
            if isinstance(data, list):
                raise NotPlayed
            for safe in ("/", "", "/'", None):
                file = served / (name if safe is None else self.escaped(name, safe))
                try:
                    file.parent.mkdir(parents=True, exist_ok=True)
                    file.write_bytes(data)
                except OSError:
                    raise NotPlayed from None
        return served

    @staticmethod
    def escaped(name, safe):
        folder, _, rest = name.partition("/")
        return f"{folder}/{urllib.parse.quote(rest, safe=safe)}"

    def asked(self, *_, **__):
        pass

    def asked_last(self, _):
        pass

    def expect(self, status, got):
        if got != status:
            raise Wrong(f"status {got} in place of {status}: {self.told}")
