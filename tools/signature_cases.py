#!/usr/bin/env python3
"""Writes the cases of RSA and ECDSA signatures that `trials` answers.

    tools/signature_cases.py RSA_FILE ECDSA_FILE

What is wanted comes from Python's `cryptography`, and from the bounds that the original's library sets on keys: 2,048 to 8,192 bits, and
exponents of 65,537 or more. Keys, salts and nonces come from fixed texts, so each run writes the same. A modulus is a product of primes of
some 1,000 bits (RFC 8017, 3.1), which are found faster than two large ones.
"""
import base64
import hashlib
import math
import sys

import case_files
from cryptography.exceptions import InvalidSignature
from cryptography.hazmat.primitives import hashes
from cryptography.hazmat.primitives.asymmetric import ec, padding, rsa, utils
from cryptography.hazmat.primitives.serialization import Encoding, PublicFormat, load_pem_public_key

SHA256 = hashes.SHA256()


def stretched(text, length):
    """Bytes that depend on the text alone."""
    return hashlib.shake_256(text.encode()).digest(length)


def flipped(data, bit):
    return bytes(byte ^ (1 << bit % 8 if place == bit // 8 else 0) for place, byte in enumerate(data))


def number(data):
    return int.from_bytes(data, "big")


def pem_of(public):
    return public.public_bytes(Encoding.PEM, PublicFormat.SubjectPublicKeyInfo).decode()


def answered(call, name, key, message, signature, verifies):
    case = {"call": call, "name": name, "key": key, "message": message.hex(), "signature": signature.hex()}
    return {**case, "answer": str(verifies).lower()}


# ---- RSA


def prime_from(start, e):
    """The first prime from a number on, to which the exponent e is open."""
    start |= 1
    while any(start % small == 0 for small in (3, 5, 7, 11, 13, 17, 19, 23)) or start % e == 1 or pow(2, start - 1, start) != 1:
        start += 2
    return start


class RsaKey:
    """A key of so many bits."""

    def __init__(self, bits, e=65537):
        primes, self.e = [], e
        count = max(2, bits // 1024)
        for place in range(count - 1):
            start = number(stretched(f"prime {place} of {bits} bits, {e}", bits // count // 8)) | 1 << (bits // count - 1)
            primes.append(prime_from(start, e))
        low = 2 ** (bits - 1) // math.prod(primes)
        more = number(stretched(f"last prime of {bits} bits, {e}", bits // 8)) % (low // 2)
        primes.append(prime_from(low + low // 4 + more, e))
        self.n = math.prod(primes)
        self.d = pow(e, -1, math.lcm(*(prime - 1 for prime in primes)))
        assert self.n.bit_length() == bits and len(set(primes)) == count
        self.bytes = (bits + 7) // 8

    def public(self, n=None, e=None):
        return rsa.RSAPublicNumbers(e or self.e, n or self.n).public_key()

    def raised(self, m):
        return pow(m, self.d, self.n).to_bytes(self.bytes, "big")

    def encoded(self, message, salt=32, hash_of=hashlib.sha256, mask_of=hashlib.sha256, pad=None, one=1, trailer=0xbc, top=0, spoil=0, counter=0):
        """EMSA-PSS-ENCODE (RFC 8017, 9.1.1), with what is to be wrong in it."""
        bits = self.n.bit_length() - 1
        size, digest = (bits + 7) // 8, hash_of(message).digest()
        salt = stretched(f"salt of {len(message)} bytes by {bits}", salt)
        h = hash_of(bytes(8) + digest + salt).digest()
        h = bytes([h[0] ^ spoil]) + h[1:]
        db = bytearray(size - len(salt) - len(h) - 2) + bytes([one]) + salt
        if pad is not None:
            db[pad] ^= 7
        mask = b"".join(mask_of(h + (i + counter).to_bytes(4, "big")).digest() for i in range(size // 20 + 1))
        masked = bytearray(a ^ b for a, b in zip(db, mask))
        masked[0] = masked[0] & 0xff >> 8 * size - bits | top
        return number(bytes(masked) + h + bytes([trailer]))

    def signed(self, message, **wrong):
        m = self.encoded(message, **wrong)
        assert m < self.n
        return self.raised(m)

    def pkcs1(self, message):
        """EMSA-PKCS1-v1_5 (RFC 8017, 9.2)."""
        info = bytes.fromhex("3031300d060960864801650304020105000420") + hashlib.sha256(message).digest()
        return self.raised(number(b"\0\1" + b"\xff" * (self.bytes - len(info) - 3) + b"\0" + info))


def rsa_key(public):
    return {"keytype": "rsa", "scheme": "rsassa-pss-sha256", "keyval": {"public": pem_of(public)}}


def is_rsa_signature(public, message, signature):
    """What `cryptography` says, and what the bounds on keys say."""
    numbers = public.public_numbers()
    try:
        public.verify(signature, message, padding.PSS(padding.MGF1(SHA256), 32), SHA256)
    except InvalidSignature:
        return False
    return 2048 <= numbers.n.bit_length() <= 8192 and numbers.e >= 65537


def rsa_case(name, public, message, signature, wanted):
    assert is_rsa_signature(public, message, signature) == wanted, name
    return answered("RsaVerify", name, rsa_key(public), message, signature, wanted)


def by_size(bits, lengths):
    """A key's signatures, and one with a bit flipped in the key, the message and the signature."""
    key = RsaKey(bits)
    public, taken = key.public(), 2048 <= bits <= 8192
    for length in lengths:
        message = stretched(f"message of {length} bytes", length)
        yield rsa_case(f"{bits} bits, a message of {length} bytes", public, message, key.signed(message), taken)
    message = stretched("flipped", 40)
    signature = key.signed(message)
    yield rsa_case(f"{bits} bits, a bit of the key flipped", key.public(n=key.n ^ 1 << 99), message, signature, False)
    yield rsa_case(f"{bits} bits, a bit of the message flipped", public, flipped(message, 99), signature, False)
    yield rsa_case(f"{bits} bits, a bit of the signature flipped", public, message, flipped(signature, 99), False)


def by_salt(key, message):
    """Signatures with other salts, hashes and encodings."""
    public = key.public()
    for salt in (0, 20, 31, 33, 222):
        yield rsa_case(f"a salt of {salt} bytes", public, message, key.signed(message, salt=salt), False)
    yield rsa_case("SHA-512 in the place of SHA-256", public, message, key.signed(message, hash_of=hashlib.sha512), False)
    yield rsa_case("a mask by SHA-1", public, message, key.signed(message, mask_of=hashlib.sha1), False)
    yield rsa_case("a mask that counts from 1", public, message, key.signed(message, counter=1), False)
    yield rsa_case("the hash of the hash", public, message, key.signed(hashlib.sha256(message).digest()), False)
    yield rsa_case("PKCS #1 v1.5", public, message, key.pkcs1(message), False)


def by_step(key):
    """Signatures whose encoding is wrong in one step of EMSA-PSS-VERIFY (RFC 8017, 9.1.2)."""
    bits, message, public = key.n.bit_length(), b"by step", key.public()
    wrong = {
        "0xcc at the end": {"trailer": 0xcc},
        "the first byte of the padding": {"pad": 0},
        "a byte of the padding": {"pad": 9},
        "2 in the place of 1": {"one": 2},
        "0 in the place of 1": {"one": 0},
        "a bit of H": {"spoil": 1},
    }
    yield rsa_case(f"{bits} bits, each step right", public, message, key.signed(message), True)
    for name, what in wrong.items():
        yield rsa_case(f"{bits} bits, {name}", public, message, key.signed(message, **what), False)
    free = 8 * ((bits + 6) // 8) - (bits - 1)
    if free and key.encoded(message, top=0x80 >> free - 1) < key.n:
        yield rsa_case(f"{bits} bits, a bit above the highest", public, message, key.signed(message, top=0x80 >> free - 1), False)


def by_length(key, message):
    """Signatures of other lengths, and numbers that are no root."""
    public, signature = key.public(), key.signed(message)
    edited = {
        "a byte less": signature[1:],
        "a byte more": signature + b"\0",
        "a zero byte before": b"\0" + signature,
        "no byte": b"",
        "0": bytes(key.bytes),
        "1": (1).to_bytes(key.bytes, "big"),
        "the modulus": key.n.to_bytes(key.bytes, "big"),
        "the modulus more": (number(signature) + key.n).to_bytes(key.bytes + 1, "big"),
    }
    for name, other in edited.items():
        yield rsa_case(f"a signature of {name}", public, message, other, False)
    yield rsa_case("another exponent", key.public(e=65539), message, signature, False)


def rsa_cases():
    message = b"a message"
    yield from by_size(2048, (0, 1, 55, 56, 64, 200, 1000))
    for bits in (3072, 4096, 8192, 2049, 2056, 2047, 8193):
        yield from by_size(bits, (200,))
    key = RsaKey(2048)
    yield from by_salt(key, message)
    yield from by_length(key, message)
    for bits in (2048, 2049, 2055):
        yield from by_step(RsaKey(bits))
    small = RsaKey(2048, e=3)
    yield rsa_case("an exponent of 3", small.public(), message, small.signed(message), False)
    case = rsa_case("no line end at the end of the key", key.public(), message, key.signed(message), True)
    case["key"]["keyval"]["public"] = case["key"]["keyval"]["public"].rstrip("\n")
    yield case
    yield {**case, "name": "a key of another kind", "key": ec_key(pem_of(secret_of("another kind").public_key()), "ecdsa"), "answer": "false"}


# ---- ECDSA

P = 0xffffffff00000001000000000000000000000000ffffffffffffffffffffffff
N = 0xffffffff00000000ffffffffffffffffbce6faada7179e84f3b9cac2fc632551
B = 0x5ac635d8aa3a93e7b3ebbd55769886bc651d06b0cc53b0f63bce3c3e27d2604b


def secret_of(text):
    return ec.derive_private_key(number(stretched(f"secret of {text}", 32)) % (N - 1) + 1, ec.SECP256R1())


def coordinates(public):
    numbers = public.public_numbers()
    return numbers.x, numbers.y


def times(k, point):
    """k times a point that isn't neutral, for k that isn't a multiple of N, by the law of the curve."""
    total = None
    while k:
        if k & 1:
            total = point if total is None else plus(total, point)
        point, k = plus(point, point), k >> 1
    return total


def plus(left, right):
    (a, b), (c, d) = left, right
    assert a != c or b == d
    slope = (3 * a * a - 3) * pow(2 * b, -1, P) if a == c else (d - b) * pow(c - a, -1, P)
    x = (slope * slope - a - c) % P
    return x, (slope * (a - x) - b) % P


BASE = coordinates(ec.derive_private_key(1, ec.SECP256R1()).public_key())


def signed(secret, message):
    """r and s, with the nonce of RFC 6979."""
    return utils.decode_dss_signature(secret.sign(message, ec.ECDSA(SHA256, deterministic_signing=True)))


def point(x, y):
    return b"\4" + x.to_bytes(32, "big") + y.to_bytes(32, "big")


def spki(bits):
    """The PEM text of a SubjectPublicKeyInfo of P-256 with this point (RFC 5480, 2)."""
    inner = bytes.fromhex("301306072a8648ce3d020106082a8648ce3d030107") + bytes([3, len(bits) + 1, 0]) + bits
    text = base64.b64encode(bytes([0x30, len(inner)]) + inner).decode()
    lines = [text[i:i + 64] for i in range(0, len(text), 64)]
    return "\n".join(["-----BEGIN PUBLIC KEY-----", *lines, "-----END PUBLIC KEY-----", ""])


def ec_key(public, keytype="ecdsa-sha2-nistp256"):
    return {"keytype": keytype, "scheme": "ecdsa-sha2-nistp256", "keyval": {"public": public}}


def is_ec_signature(bits, message, signature):
    """What `cryptography` says of a point that isn't compressed."""
    try:
        public = load_pem_public_key(spki(bits).encode())
        public.verify(signature, message, ec.ECDSA(SHA256))
    except (InvalidSignature, ValueError):
        return False
    return bits[:1] == b"\4"


def ec_case(name, bits, message, signature, wanted, key=None):
    assert is_ec_signature(bits, message, signature) == wanted, name
    return answered("EcdsaVerify", name, key or ec_key(spki(bits)), message, signature, wanted)


def halves_case(name, bits, message, r, s, wanted):
    return ec_case(name, bits, message, utils.encode_dss_signature(r, s), wanted)


def by_message():
    """Signatures of messages, and each with bits flipped."""
    for length in (0, 1, 55, 56, 64, 200, 1000):
        secret, message = secret_of(f"length {length}"), stretched(f"message of {length} bytes", length)
        bits = point(*coordinates(secret.public_key()))
        r, s = signed(secret, message)
        name = f"a message of {length} bytes"
        yield halves_case(name, bits, message, r, s, True)
        yield halves_case(f"{name}, n - s", bits, message, r, N - s, True)
        yield halves_case(f"{name}, r and s swapped", bits, message, s, r, False)
        yield halves_case(f"{name}, a bit of r flipped", bits, message, r ^ 1 << length % 256, s, False)
        yield halves_case(f"{name}, a bit of s flipped", bits, message, r, s ^ 1 << length % 256, False)
        yield halves_case(f"{name}, a byte more", bits, message + b"x", r, s, False)
        yield halves_case(f"{name}, a bit of the key flipped", flipped(bits, 8 + length % 256), message, r, s, False)


def by_range(bits, message, r, s):
    """Halves that are out of their range."""
    values = {"0": 0, "n": N, "n + 1": N + 1, "2^256 - 1": 2**256 - 1, "2^256": 2**256}
    for name, value in values.items():
        yield halves_case(f"r is {name}", bits, message, value, s, False)
        yield halves_case(f"s is {name}", bits, message, r, value, False)
    yield halves_case("r and s are 0", bits, message, 0, 0, False)
    yield halves_case("r is r + 2^256", bits, message, r + 2**256, s, False)
    yield halves_case("s is s + n", bits, message, r, s + N, False)
    yield halves_case("r and s are 1", bits, message, 1, 1, False)


def by_point(bits, message, r, s):
    """Keys that are no point, or another point."""
    x, y = number(bits[1:33]), number(bits[33:])
    points = {
        "the opposite point": point(x, P - y),
        "off the curve": point(x, y ^ 1),
        "0 and 0": point(0, 0),
        "at infinity": b"\0",
        "compressed": bytes([2 + y % 2]) + bits[1:33],
        "compressed form before both": bytes([2 + y % 2]) + bits[1:],
        "hybrid": bytes([6 + y % 2]) + bits[1:],
        "a byte less": bits[:-1],
        "a byte more": bits + b"\0",
        "none": b"",
    }
    for name, other in points.items():
        yield halves_case(f"the key is {name}", other, message, r, s, False)
        if other:
            yield ec_case(f"the key is {name}, in hexadecimal", other, message, utils.encode_dss_signature(r, s), False, ec_key(other.hex()))


def above_the_order():
    """Signatures whose point has a first coordinate in [n, p), so that r + n is below p: the key is found from the point."""
    message, found, x = b"above", 0, N + 1
    e = number(hashlib.sha256(message).digest())
    while found < 3:
        y = pow(x**3 - 3 * x + B, (P + 1) // 4, P)
        if (y * y - x**3 + 3 * x - B) % P == 0:
            found += 1
            r, s = x - N, 12345 + found
            inverse = pow(r, -1, N)
            key = plus(times(s * inverse % N, (x, y)), times(-e * inverse % N, BASE))
            yield halves_case(f"r + n is below p, {found}", point(*key), message, r, s, True)
            yield halves_case(f"r + n is below p, {found}, r + n in the place of r", point(*key), message, r + N, s, False)
        x += 1


def by_equal_points():
    """Signatures whose sum is of equal or opposite points, or of the point G itself."""
    message = b"equal"
    e = number(hashlib.sha256(message).digest()) % N
    for d in (1, 2, N - 1):
        bits = point(*coordinates(ec.derive_private_key(d, ec.SECP256R1()).public_key()))
        name = "n - 1" if d == N - 1 else d
        r = times(77, BASE)[0] % N
        yield halves_case(f"the secret is {name}", bits, message, r, pow(77, -1, N) * (e + r * d) % N, True)
        yield halves_case(f"the secret is {name}, r is e", bits, message, e, 5, False)
    bits = point(*coordinates(ec.derive_private_key(9, ec.SECP256R1()).public_key()))
    yield halves_case("the sum is at infinity", bits, message, -e * pow(9, -1, N) % N, 3, False)


def by_encoding(bits, message, r, s):
    """Signatures in other encodings (X.690, 8.1.3, 8.3.2 and 10.1)."""
    right = utils.encode_dss_signature(r, s)
    first, second = right[2:4 + right[3]], right[4 + right[3]:]

    def integer(contents):
        return bytes([2, len(contents)]) + contents

    def sequence(contents):
        return bytes([0x30, len(contents)]) + contents

    raw = r.to_bytes(32, "big"), s.to_bytes(32, "big")
    assert raw[0][0] >= 0x80, "r begins with a bit that is set"
    edited = {
        "a byte more": right + b"\0",
        "a byte less": right[:-1],
        "a byte more inside": sequence(first + second + b"\0"),
        "a long length": b"\x30\x81" + right[1:],
        "a long length of r": sequence(bytes([2, 0x81]) + first[1:] + second),
        "no length": b"\x30\x80" + first + second + b"\0\0",
        "r padded": sequence(integer(b"\0" + first[2:]) + second),
        "r negative": sequence(integer(raw[0]) + second),
        "r with no bytes": sequence(integer(b"") + second),
        "r alone": sequence(first),
        "three integers": sequence(first + second + second),
        "another tag of r": sequence(b"\3" + first[1:] + second),
        "another tag": b"\x31" + right[1:],
        "the halves alone": raw[0] + raw[1],
        "no byte": b"",
    }
    for name, other in edited.items():
        yield ec_case(f"a signature with {name}" if other else "a signature of no byte", bits, message, other, False)


def ecdsa_cases():
    # RFC 6979, A.2.5
    bits = bytes.fromhex(
        "0460fed4ba255a9d31c961eb74c6356d68c049b8923b61fa6ce669622e60f29fb67903fe1008b8bc99a41ae9e95628bc64f2f1b20c2d7e9f5177a3c294d4462299"
    )
    sample = (
        0xefd48b2aacb6a8fd1140dd9cd45e81d69d2c877b56aaf991c34d0ea84eaf3716, 0xf7cb1c942d657c41d436c7a1b6e29f65f3e900dbb9aff4064dc4ab2f843acda8
    )
    test = 0xf1abb023518351cd71d881567b1ea663ed3efcf6c5132b354f28d3b0b7d38367, 0x019f4113742a2b14bd25926b49c649155f267e60d3814b4c0cc84250e46f0083
    yield halves_case("RFC 6979, A.2.5, sample", bits, b"sample", *sample, True)
    yield halves_case("RFC 6979, A.2.5, test", bits, b"test", *test, True)
    yield halves_case("RFC 6979, A.2.5, test for sample", bits, b"sample", *test, False)
    yield from by_message()
    yield from by_range(bits, b"sample", *sample)
    yield from by_point(bits, b"sample", *sample)
    yield from above_the_order()
    yield from by_equal_points()
    yield from by_encoding(bits, b"sample", *sample)
    signature = utils.encode_dss_signature(*sample)
    for keytype in ("ecdsa", "ecdsa-sha2-nistp256"):
        yield ec_case(f"{keytype}, PEM", bits, b"sample", signature, True, ec_key(spki(bits), keytype))
        yield ec_case(f"{keytype}, PEM with no line end", bits, b"sample", signature, True, ec_key(spki(bits).rstrip("\n"), keytype))
        yield ec_case(f"{keytype}, hexadecimal", bits, b"sample", signature, True, ec_key(bits.hex(), keytype))
    hash_of_hash = hashlib.sha256(b"sample").digest()
    yield ec_case("the hash in the place of the message", bits, hash_of_hash, signature, False)
    other = rsa_key(RsaKey(2048).public())
    yield {**answered("EcdsaVerify", "a key of another kind", other, b"sample", signature, False)}


def main(words):
    if len(words) != 2 or words[0].startswith("-"):
        print(__doc__, file=sys.stderr)
        return 2
    for path, cases in zip(words, (rsa_cases(), ecdsa_cases())):
        case_files.write(path, cases, "cryptography")
    return 0


if __name__ == "__main__":
    sys.exit(main(sys.argv[1:]))
