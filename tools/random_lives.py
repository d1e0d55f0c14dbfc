"""Random lives of loads over one store, as cases of the call `load` of `trials`: what tools/lives has lived.

A life has a publisher, whose roots give their roles other keys and thresholds from version to version, and sometimes a rival, who holds the
keys of one of these roots and goes on from there. In each load a client hands in some root, and a server gives roots, a timestamp, a
snapshot and targets. Stores fail, vaults are kept for the next load, and the clock may step back.
"""
import hashlib
import random

from demo_repository import EXPIRES, file_of, key_of, keyid_of, signed

FAULTS = ("fails after", "lacks memory after", "ends after", "spoils after")
ROLES = ("root", "timestamp", "snapshot", "targets")
CHANGES = (("root",), ("root",), ("timestamp",), ("snapshot",), ("timestamp", "snapshot"), ("targets",), ())
SERVED = {
    "new": 58, "served before": 10, "older timestamp": 6, "other versions": 12, "far versions": 3, "mixed": 4, "expired": 3, "of another root": 4
}
HANDED_IN = {"the first": 45, "any": 43, "a rival's": 6, "forged": 4, "cut": 2}


def day(number):
    return f"2026-01-{number:02}T00:00:00Z"


def public(name):
    return hashlib.sha256(name.encode()).digest()


def made(kind, names, **members):
    """The text of a document that the keys of these names signed."""
    return signed(kind, by=[public(it) for it in dict.fromkeys(names)], **members).decode()


class Roots:
    """The roots of a repository from version 1 on: of each the roles, with the names of their keys and their thresholds, and the text."""

    def __init__(self, life, roles, texts):
        self.life, self.roles, self.texts = life, roles, texts

    def text(self, version, roles, names):
        """A root that the keys of these names signed."""
        keys = {keyid_of(public(it)): key_of(public(it)) for names, _ in roles.values() for it in names}
        listed = {role: {"keyids": [keyid_of(public(it)) for it in names], "threshold": threshold} for role, (names, threshold) in roles.items()}
        members = {"consistent_snapshot": self.life.consistent, "expires": self.life.expiry(), "keys": keys, "roles": listed}
        return made("root", names, version=version, **members)

    def grow(self, roles):
        """The next root has these roles, and is signed by the keys of the last one and by its own."""
        names = [*(self.roles[-1]["root"][0] if self.roles else ()), *roles["root"][0]]
        self.texts.append(self.text(len(self.texts) + 1, roles, names))
        self.roles.append(roles)

    def change(self, change):
        """The next root asks something else of these roles: it replaces or adds keys, drops some, or has another threshold."""
        roles = dict(self.roles[-1])
        for role in change:
            names, threshold = roles[role]
            fresh = f"{role} {self.life.chance.random()}"
            roles[role] = self.life.chance.choice((
                ([fresh], 1),
                ([*names, fresh], threshold),
                (names if len(names) > threshold else [*names, fresh], threshold + 1),
                (names, max(1, threshold - 1)),
                (names[-1:], 1),
            ))
        self.grow(roles)

    def forged(self, version):
        """A root that may not follow the one before this version."""
        before, own = self.roles[version - 2]["root"][0], ["forged"]
        roles = {it: (own, 1) for it in ROLES}
        return self.life.chance.choice((
            self.text(version, roles, own),
            self.text(version, roles, before),
            self.text(version + 1, roles, [*before, *own]),
            self.texts[version - 2],
            self.texts[-1][:100],
        ))


class Life:
    """The making of a life, from a seed."""

    def __init__(self, seed):
        self.chance = random.Random(seed)
        self.today, self.newest, self.served = 5, 1, []
        self.consistent, self.is_stuck = self.likely(0.3), self.likely(0.08)
        self.keeps = 0.5 if self.is_stuck else self.chance.choice((0, 0.1, 0.4))
        self.versions = dict.fromkeys(("timestamp", "snapshot", "targets", "extra"), 3)
        self.roots, self.rival = Roots(self, [], []), None
        self.roots.grow({it: ([it], 1) for it in ROLES})
        for _ in range(self.chance.randint(1, 4)):
            self.roots.change(self.chance.choice(CHANGES))
        if self.likely(0.3):
            at = self.chance.randint(1, len(self.roots.texts))
            self.rival = Roots(self, self.roots.roles[:at], self.roots.texts[:at])
            for _ in range(self.chance.randint(1, 3)):
                self.rival.change(ROLES)
        self.case = {"call": "load", "name": str(seed), "base": "http://h/m/", "words": [], "loads": []}

    def likely(self, often):
        return self.chance.random() < often

    def one_of(self, weights):
        return self.chance.choices(list(weights), weights.values())[0]

    def expiry(self):
        return day(self.today + self.chance.randint(1, 8)) if self.likely(0.1) else EXPIRES

    def publish(self, roles, versions, expired=None):
        """Targets, snapshot and timestamp of these versions, signed by the keys of these roles. One of them may be expired, and seldom one has
        another version than is listed for it."""
        listed = {it: versions[it] + self.likely(0.01) for it in versions}
        members = {}
        for it in ROLES[1:]:
            expires = day(1) if it == expired else self.expiry()
            members[it] = {"version": versions[it], "expires": expires, "note": self.chance.randrange(1000)}
        targets = made("targets", roles["targets"][0], targets={}, **members["targets"])
        meta = {"targets.json": {"version": listed["targets"], **file_of(targets.encode())}}
        if versions["extra"]:
            meta["extra.json"] = {"version": versions["extra"]}
        snapshot = made("snapshot", roles["snapshot"][0], meta=meta, **members["snapshot"])
        meta = {"snapshot.json": {"version": listed["snapshot"], **file_of(snapshot.encode())}}
        files = {"timestamp.json": made("timestamp", roles["timestamp"][0], meta=meta, **members["timestamp"])}
        for role, text in (("snapshot", snapshot), ("targets", targets)):
            files[f"{listed[role]}.{role}.json" if self.consistent else f"{role}.json"] = text
        return files

    def documents(self, roots, last):
        """What a server gives as timestamp, snapshot and targets, with the roots up to the last."""
        what = self.one_of(SERVED)
        if what == "served before" and self.served:
            return self.chance.choice(self.served)
        roles, versions = roots.roles[last - 1], dict(self.versions)
        if what == "of another root":
            roles = self.chance.choice(roots.roles)
        if what == "older timestamp":
            versions["timestamp"] = max(1, versions["timestamp"] - self.chance.randint(1, 3))
        if what == "other versions":
            versions = {it: max(1, at + self.chance.randint(-2, 1)) for it, at in versions.items()}
            versions["extra"] *= self.likely(0.8)
        if what == "far versions":
            versions = {it: at + 50 for it, at in versions.items()}
        files = self.publish(roles, versions, self.chance.choice(ROLES[1:]) if what == "expired" else None)
        if what == "mixed":
            files["timestamp.json"] = self.chance.choice([self.publish(roles, versions), *self.served])["timestamp.json"]
        return files

    def handed_in(self):
        """The root that a client has."""
        what = self.one_of(HANDED_IN)
        if what == "a rival's" and self.rival:
            return self.chance.choice(self.rival.texts)
        if what == "forged":
            return self.roots.forged(2)
        if what == "cut":
            return self.roots.texts[0][:-9]
        return self.roots.texts[self.chance.randrange(self.newest) if what == "any" else 0]

    def go_on(self):
        """Time goes on, and the publisher with new roots, after which versions may begin anew, and with new documents."""
        self.today = min(20, self.today + self.chance.choice((0, 1, 2)))
        for _ in range(self.chance.choice((0, 0, 0, 1, 1, 2))):
            if self.newest < len(self.roots.texts):
                self.newest += 1
                if self.likely(0.3):
                    self.versions = {it: self.chance.randint(1, at) for it, at in self.versions.items()}
        self.versions["timestamp"] += 1
        for role in ("snapshot", "targets", "extra"):
            if self.likely(0.4):
                self.versions[role] += 1
                self.versions["snapshot"] += role != "snapshot"

    def add(self):
        """One more load."""
        self.go_on()
        roots, most = (self.rival, len(self.rival.texts)) if self.rival and self.likely(0.25) else (self.roots, self.newest)
        last = most if self.likely(0.8) else self.chance.randint(1, most)
        first = 2 if self.likely(0.9) else self.chance.randint(2, last + 1)
        files = {f"{it}.root.json": roots.texts[it - 1] for it in range(first, last + 1)}
        if self.likely(0.08):
            files[f"{last + 1}.root.json"] = roots.forged(last + 1)
        self.served.append(self.documents(roots, last))
        now = day(self.today - self.chance.randint(1, 4) if self.likely(0.05) else self.today)
        load = {"now": now, "root": self.handed_in(), "files": {**files, **self.served[-1]}}
        if self.likely(0.2):
            load[self.chance.choice(FAULTS)] = self.chance.randrange(16)
        if self.likely(0.06):
            load["max_root_updates"] = self.chance.randrange(4)
        if self.likely(0.05):
            load["unsafe"] = True
        if "spoils after" not in load and self.likely(self.keeps):
            load["keeps the vault"] = True
        self.case["loads"].append(load)

    def recover(self):
        """One more load: all keys of timestamp and snapshot are replaced, and versions begin anew."""
        roles = {**self.roots.roles[-1], "timestamp": (["new timestamp"], 1), "snapshot": (["new snapshot"], 1)}
        self.roots.grow(roles)
        files = {f"{it}.root.json": text for it, text in enumerate(self.roots.texts, 1)}
        files.update(self.publish(roles, {"timestamp": 1, "snapshot": 1, "targets": 1, "extra": 0}))
        self.case["loads"].append({"now": day(self.today + 1), "root": self.roots.texts[0], "files": files})

    def made(self):
        """The case."""
        if self.is_stuck:
            self.case["stuck"] = made("timestamp", ["timestamp"], version=2, meta={"snapshot.json": {"version": 2}})
        if self.likely(0.06):
            junk = {"root.json": self.roots.text(9, self.roots.roles[0], ["forged"]), "timestamp.json": "{", "snapshot.json": "{"}
            self.case["store"] = {name: text for name, text in junk.items() if self.likely(0.6)}
        for _ in range(self.chance.randint(4, 7)):
            self.add()
        if self.likely(0.5):
            self.recover()
        self.case["loads"][-1].pop("keeps the vault", None)
        return self.case
