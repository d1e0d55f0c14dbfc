"""The verdicts on the edits of tools/edits, as tools/edits/try writes them into tools/edits/verdicts.txt.

A line of it has the edit as `crate/name`, the verdict, the day, the commit that the tree stood at, and a sum of the text that was judged: the edit,
the crate's src/, specs/ and proofs/, and the specs/ of the crates below it. The verdicts: `refused`; `limit`, refused by a limit of the prover alone;
`missed`, the crate is proved with the edit; `bad`, the edit does not reach the prover; `unsure`, there was none. A verdict counts while that text
stands.
"""
import fcntl
import hashlib
import pathlib

TOP = pathlib.Path(__file__).resolve().parent.parent.parent
FILE = TOP / "tools/edits/verdicts.txt"
HEAD = "# edit, verdict, day, commit, sum of the text: see tools/edits/verdicts.py\n"


def below():
    """The crates of the repository that each stands on, also by way of others."""
    lines = [it.partition(":") for it in (TOP / "crates.txt").read_text().splitlines() if ":" in it]
    direct = {name: set(words.split()) for name, _, words in lines}
    found = {}

    def all_of(name):
        if name not in found:
            ours = direct[name] & set(direct)
            found[name] = ours.union(*map(all_of, ours))
        return found[name]

    for name in direct:
        all_of(name)
    return found


def files_sum(folders):
    """A sum of the names and texts of the folders' files."""
    total = hashlib.sha256()
    for folder in folders:
        for path in sorted(it for it in folder.rglob("*") if it.suffix in (".rt", ".antt")):
            total.update(repr((str(path.relative_to(TOP)), path.read_bytes())).encode())
    return total.hexdigest()


class Texts:
    """The sums of the texts that edits are judged on; each crate's is made once."""

    def __init__(self):
        self.below, self.sums = below(), {}

    def crate_sum(self, crate):
        """The sum of a crate's own text, and of the definitions below it."""
        if crate not in self.sums:
            own = [TOP / "crates" / crate / it for it in ("src", "specs", "proofs")]
            self.sums[crate] = files_sum(own + [TOP / "crates" / it / "specs" for it in sorted(self.below[crate])])
        return self.sums[crate]

    def sum_of(self, crate, edit):
        """The sum of what an edit is judged on."""
        return hashlib.sha256(self.crate_sum(crate).encode() + pathlib.Path(edit).read_bytes()).hexdigest()[:16]


def known():
    """The verdicts, by edit: verdict, day, commit and sum."""
    if not FILE.is_file():
        return {}
    rows = [it.split() for it in FILE.read_text().splitlines() if it and it[0] != "#"]
    return {row[0]: row[1:] for row in rows}


def write(name, verdict, day, commit, total):
    """Writes a verdict, in the place of an older one on the edit."""
    with open(TOP / "tools/edits/verdicts.py", "rb") as lock:
        fcntl.flock(lock, fcntl.LOCK_EX)
        rows = known()
        rows[name] = [verdict, day, commit, total]
        FILE.write_text(HEAD + "".join(" ".join([it, *rows[it]]) + "\n" for it in sorted(rows)))
