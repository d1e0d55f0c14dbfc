"""What `conformance` plays: keys of three kinds by Python's `cryptography`, a repository that signs with them, and a server that counts requests."""
import copy
import functools
import hashlib
import http.server
import json
import threading
import urllib.parse

from cryptography.hazmat.primitives import hashes, serialization
from cryptography.hazmat.primitives.asymmetric import ec, padding, rsa
from cryptography.hazmat.primitives.asymmetric.ed25519 import Ed25519PrivateKey

LATER, PAST = "2999-12-31T23:59:59Z", "2020-01-01T00:00:00Z"
KINDS = ("ed25519", "ecdsa", "rsa")
DEMO = "demo"  # a signature is the digest of the public key and the message, so everybody can sign; keys look like those of Ed25519
TOP_LEVEL = ("root", "timestamp", "snapshot", "targets")
DRAWING = threading.Lock()  # else two tests that run at once draw two secrets of one name
PSS = padding.PSS(padding.MGF1(hashes.SHA256()), padding.PSS.DIGEST_LENGTH)


def quoted(text):
    return '"' + text.replace("\\", "\\\\").replace('"', '\\"') + '"'


def canonical(value):
    """Canonical JSON, whose texts stay as they are: a text that isn't in normal form is signed so."""
    if isinstance(value, dict):
        return "{" + ",".join(f"{quoted(name)}:{canonical(value[name])}" for name in sorted(value, key=lambda it: it.encode())) + "}"
    if isinstance(value, list):
        return "[" + ",".join(map(canonical, value)) + "]"
    return quoted(value) if isinstance(value, str) else json.dumps(value)


def digest(data):
    return hashlib.sha256(data).hexdigest()


def secret(kind, name):
    """The secret of this name: made of it, but for RSA, where it is drawn once a run. The demonstration scheme has none: this is the public part."""
    with DRAWING:
        return drawn(kind, name)


@functools.cache
def drawn(kind, name):
    seed = hashlib.sha256(name.encode()).digest()
    if kind == DEMO:
        return seed
    if kind == "ed25519":
        return Ed25519PrivateKey.from_private_bytes(seed)
    if kind == "ecdsa":
        return ec.derive_private_key(int.from_bytes(seed, "big") >> 1, ec.SECP256R1())
    return rsa.generate_private_key(public_exponent=65537, key_size=2048)


class Key:
    """A key of a kind, by its name or by a secret that is given."""

    SCHEMES = {"ed25519": "ed25519", "ecdsa": "ecdsa-sha2-nistp256", "rsa": "rsassa-pss-sha256"}

    def __init__(self, kind, name, made=None):
        self.kind, self.secret, self.padding = kind, made or secret(kind, name), PSS
        shown = "ed25519" if kind == DEMO else kind
        self.json = {"keytype": shown, "scheme": self.SCHEMES[shown], "keyval": {"public": self.public()}}
        self.id = digest(canonical(self.json).encode())

    def public(self):
        if self.kind == DEMO:
            return self.secret.hex()
        key = self.secret.public_key()
        if self.kind == "ed25519":
            return key.public_bytes_raw().hex()
        return key.public_bytes(serialization.Encoding.PEM, serialization.PublicFormat.SubjectPublicKeyInfo).decode()

    def respelled(self, **members):
        """The same secret under a JSON with these members in the place of its own."""
        other = copy.copy(self)
        other.json = {**self.json, **members}
        other.id = digest(canonical(other.json).encode())
        return other

    def sign(self, body):
        message = canonical(body).encode()
        if self.kind == DEMO:
            sig = hashlib.sha256(self.secret + message).digest()
        elif self.kind == "ed25519":
            sig = self.secret.sign(message)
        elif self.kind == "ecdsa":
            sig = self.secret.sign(message, ec.ECDSA(hashes.SHA256()))
        else:
            sig = self.secret.sign(message, self.padding, hashes.SHA256())
        return {"keyid": self.id, "sig": sig.hex()}


def spoilt(signature):
    """The signature with the lowest bit of its last byte turned."""
    sig = bytes.fromhex(signature["sig"])
    return {**signature, "sig": bytes([*sig[:-1], sig[-1] ^ 1]).hex()}


def document(body, signatures, **members):
    return json.dumps({"signatures": signatures, "signed": body, **members}, separators=(",", ":")).encode()


def signed(body, keys):
    return document(body, [key.sign(body) for key in keys])


def body(kind, **members):
    return {"_type": kind, "spec_version": "1.0.31", "version": 1, "expires": LATER, **members}


class Repository:
    """Documents that are edited freely, and the files that are served once they are signed. Root 1 and its first release are there from the
    beginning; a role has one key, named as the role is. Paths of `files` are unescaped."""

    def __init__(self, kind, consistent=True):
        self.kind, self.stated, self.files, self.keys = kind, ("length", "hashes"), {}, {}
        self.delegated, self.bodies = {}, {
            "root": body("root", consistent_snapshot=consistent, keys={}, roles={}),
            "timestamp": body("timestamp", meta={}),
            "snapshot": body("snapshot", meta={}),
            "targets": body("targets", targets={}),
        }
        for role in TOP_LEVEL:
            self.trust(role, [self.key(role)])
        self.root_signers = []
        self.put_root()
        self.release()

    root = property(lambda self: self.bodies["root"])
    timestamp = property(lambda self: self.bodies["timestamp"])
    snapshot = property(lambda self: self.bodies["snapshot"])
    targets = property(lambda self: self.bodies["targets"])

    def key(self, name):
        return Key(self.kind, name)

    # ---- roots

    def trust(self, role, keys, threshold=1):
        """Has the root list these keys for a role, by which it is signed from now on."""
        self.keys[role] = keys
        self.root["keys"] |= {key.id: key.json for key in keys}
        self.root["roles"][role] = {"keyids": [key.id for key in keys], "threshold": threshold}

    def put_root(self, signers=None, at=None):
        """Serves the root, signed by its own keys and those of the root before."""
        both = {key.id: key for key in (*self.root_signers, *self.keys["root"])}
        data = signed(self.root, both.values() if signers is None else signers)
        self.root_signers = self.keys["root"]
        self.files[f"metadata/{at or self.root['version']}.root.json"] = data
        return data

    def next_root(self, signers=None):
        self.root["version"] += 1
        return self.put_root(signers)

    # ---- the other roles

    def path(self, role, version=None):
        if role == "timestamp":
            return "metadata/timestamp.json"
        mark = f"{version or self.bodies[role]['version']}." if self.root["consistent_snapshot"] else ""
        return f"metadata/{mark}{role}.json"

    def put(self, role, signers=None, at=None):
        """Serves a role's document, under the name of its version or of another."""
        return self.put_bytes(role, signed(self.bodies[role], self.keys[role] if signers is None else signers), at)

    def put_bytes(self, role, data, at=None):
        self.files[self.path(role, at)] = data
        return data

    def describe(self, data, version):
        whole = {"length": len(data), "hashes": {"sha256": digest(data)}}
        return {"version": version, **{name: whole[name] for name in self.stated}}

    def list_roles(self):
        """Has the snapshot list the documents that are served, at the versions of their bodies."""
        for role in ("targets", *self.delegated):
            self.snapshot["meta"][f"{role}.json"] = self.describe(self.files[self.path(role)], self.bodies[role]["version"])

    def list_snapshot(self):
        version = self.snapshot["version"]
        self.timestamp["meta"]["snapshot.json"] = self.describe(self.files[self.path("snapshot")], version)

    def release(self, **signers):
        """Signs and lists all but the root. A role is signed by other keys where they are given."""
        for role in (*self.delegated, "targets"):
            self.put(role, signers.get(role))
        self.list_roles()
        self.release_snapshot(**signers)

    def release_snapshot(self, **signers):
        """Signs the snapshot and the timestamp, which lists it."""
        self.put("snapshot", signers.get("snapshot"))
        self.list_snapshot()
        self.put("timestamp", signers.get("timestamp"))

    def update(self, **signers):
        """The next version of all but the root."""
        for role in (*self.delegated, "targets", "snapshot", "timestamp"):
            self.bodies[role]["version"] += 1
        self.release(**signers)

    def delegate(self, parent, name, keys=None, threshold=1, terminating=False, **members):
        """Has a role delegate to another, which matches every path where neither `paths` nor `path_hash_prefixes` is given."""
        keys = keys or [self.key(name)]
        if not {"paths", "path_hash_prefixes"} & set(members):
            members["paths"] = ["*"]
        if name not in self.bodies:
            self.delegated[name] = self.bodies[name] = body("targets", targets={})
        self.keys[name] = keys
        delegations = self.bodies[parent].setdefault("delegations", {"keys": {}, "roles": []})
        delegations["keys"] |= {key.id: key.json for key in keys}
        role = {"name": name, "keyids": [key.id for key in keys], "threshold": threshold, "terminating": terminating}
        delegations["roles"].append({**role, **members})
        return self.bodies[name]

    def add(self, name, data, role="targets", **members):
        """Lists a target in a role and serves it where the client of this project asks for it."""
        entry = {"length": len(data), "hashes": {"sha256": digest(data)}, **members}
        self.bodies[role]["targets"][name] = entry
        self.files[self.target_path(name, data)] = data
        return entry

    def target_path(self, name, data):
        return f"targets/{digest(data)}.{name}" if self.root["consistent_snapshot"] else f"targets/{name}"


class Server:
    """Serves the files of `repository`, and notes the path of each request as it was asked. `statuses` are answered in the place of files."""

    def __init__(self):
        self.repository, self.requests, self.statuses = None, [], {}
        handler = type("Handler", (Handler,), {"owner": self})
        self.http = http.server.ThreadingHTTPServer(("127.0.0.1", 0), handler)
        self.http.daemon_threads = True
        self.url = f"http://127.0.0.1:{self.http.server_port}"
        threading.Thread(target=self.http.serve_forever, daemon=True).start()

    def close(self):
        self.http.shutdown()
        self.http.server_close()


class Handler(http.server.BaseHTTPRequestHandler):
    def do_GET(self):
        path = self.path.removeprefix("/")
        self.owner.requests.append(path)
        plain = urllib.parse.unquote(path)
        answer = self.owner.repository.files.get(plain)
        if isinstance(answer, list):
            answer = answer.pop(0) if len(answer) > 1 else answer[0]
        status = self.owner.statuses.get(plain, 404 if answer is None else 200)
        data = answer if status == 200 else b""
        self.send_response(status)
        self.send_header("content-length", str(len(data)))
        self.send_header("connection", "close")
        self.end_headers()
        try:
            self.wfile.write(data)
        except OSError:
            pass  # the client has read enough

    def log_message(self, *_):
        pass
