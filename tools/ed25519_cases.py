#!/usr/bin/env python3
"""Writes the cases of Ed25519 that `trials` answers.

    tools/ed25519_cases.py FILE

What is wanted comes from RFC 8032: the vectors of 7.1 as they stand there, and for signatures that are wrong, the check of section 6 as it
is written there. Keys and signatures of other secrets are made by Python's `cryptography`. The secrets are fixed, so each run writes the same.
"""
import hashlib
import sys

import case_files
from cryptography.hazmat.primitives.asymmetric.ed25519 import Ed25519PrivateKey

# ---- RFC 8032, section 6

P = 2**255 - 19
D = -121665 * pow(121666, P - 2, P) % P
L = 2**252 + 27742317777372353535851937790883648493
ROOT_OF_MINUS_ONE = pow(2, (P - 1) // 4, P)


def sha512_mod_l(data):
    return int.from_bytes(hashlib.sha512(data).digest(), "little") % L


def point_add(p, q):
    a, b = (p[1] - p[0]) * (q[1] - q[0]) % P, (p[1] + p[0]) * (q[1] + q[0]) % P
    c, d = 2 * p[3] * q[3] * D % P, 2 * p[2] * q[2] % P
    e, f, g, h = b - a, d - c, d + c, b + a
    return (e * f % P, g * h % P, f * g % P, e * h % P)


def point_mul(s, p):
    q = (0, 1, 1, 0)
    while s > 0:
        if s & 1:
            q = point_add(q, p)
        p = point_add(p, p)
        s >>= 1
    return q


def point_equal(p, q):
    return (p[0] * q[2] - q[0] * p[2]) % P == 0 and (p[1] * q[2] - q[1] * p[2]) % P == 0


def recover_x(y, sign):
    if y >= P:
        return None
    x2 = (y * y - 1) * pow(D * y * y + 1, P - 2, P)
    if x2 % P == 0:
        return None if sign else 0
    x = pow(x2, (P + 3) // 8, P)
    if (x * x - x2) % P != 0:
        x = x * ROOT_OF_MINUS_ONE % P
    if (x * x - x2) % P != 0:
        return None
    return P - x if (x & 1) != sign else x


def point_decompress(data):
    y = int.from_bytes(data, "little")
    sign, y = y >> 255, y & ((1 << 255) - 1)
    x = recover_x(y, sign)
    return None if x is None else (x, y, 1, x * y % P)


BASE_Y = 4 * pow(5, P - 2, P) % P
BASE_X = recover_x(BASE_Y, 0)
BASE = (BASE_X, BASE_Y, 1, BASE_X * BASE_Y % P)


def verify(key, message, signature):
    if len(key) != 32 or len(signature) != 64:
        return False
    a, r = point_decompress(key), point_decompress(signature[:32])
    if not a or not r:
        return False
    s = int.from_bytes(signature[32:], "little")
    if s >= L:
        return False
    k = sha512_mod_l(signature[:32] + key + message)
    return point_equal(point_mul(s, BASE), point_add(r, point_mul(k, a)))


# ---- RFC 8032, section 7.1: the secret key, the public key, the message and the signature of each test

TEST_1024 = (
    "08b8b2b733424243760fe426a4b54908632110a66c2f6591eabd3345e3e4eb98fa6e264bf09efe12ee50f8f54e9f77b1e355f6c50544e23fb1433ddf73be84d8"
    "79de7c0046dc4996d9e773f4bc9efe5738829adb26c81b37c93a1b270b20329d658675fc6ea534e0810a4432826bf58c941efb65d57a338bbd2e26640f89ffbc"
    "1a858efcb8550ee3a5e1998bd177e93a7363c344fe6b199ee5d02e82d522c4feba15452f80288a821a579116ec6dad2b3b310da903401aa62100ab5d1a36553e"
    "06203b33890cc9b832f79ef80560ccb9a39ce767967ed628c6ad573cb116dbefefd75499da96bd68a8a97b928a8bbc103b6621fcde2beca1231d206be6cd9ec7"
    "aff6f6c94fcd7204ed3455c68c83f4a41da4af2b74ef5c53f1d8ac70bdcb7ed185ce81bd84359d44254d95629e9855a94a7c1958d1f8ada5d0532ed8a5aa3fb2"
    "d17ba70eb6248e594e1a2297acbbb39d502f1a8c6eb6f1ce22b3de1a1f40cc24554119a831a9aad6079cad88425de6bde1a9187ebb6092cf67bf2b13fd65f270"
    "88d78b7e883c8759d2c4f5c65adb7553878ad575f9fad878e80a0c9ba63bcbcc2732e69485bbc9c90bfbd62481d9089beccf80cfe2df16a2cf65bd92dd597b07"
    "07e0917af48bbb75fed413d238f5555a7a569d80c3414a8d0859dc65a46128bab27af87a71314f318c782b23ebfe808b82b0ce26401d2e22f04d83d1255dc51a"
    "ddd3b75a2b1ae0784504df543af8969be3ea7082ff7fc9888c144da2af58429ec96031dbcad3dad9af0dcbaaaf268cb8fcffead94f3c7ca495e056a9b47acdb7"
    "51fb73e666c6c655ade8297297d07ad1ba5e43f1bca32301651339e22904cc8c42f58c30c04aafdb038dda0847dd988dcda6f3bfd15c4b4c4525004aa06eeff8"
    "ca61783aacec57fb3d1f92b0fe2fd1a85f6724517b65e614ad6808d6f6ee34dff7310fdc82aebfd904b01e1dc54b2927094b2db68d6f903b68401adebf5a7e08"
    "d78ff4ef5d63653a65040cf9bfd4aca7984a74d37145986780fc0b16ac451649de6188a7dbdf191f64b5fc5e2ab47b57f7f7276cd419c17a3ca8e1b939ae49e4"
    "88acba6b965610b5480109c8b17b80e1b7b750dfc7598d5d5011fd2dcc5600a32ef5b52a1ecc820e308aa342721aac0943bf6686b64b2579376504ccc493d97e"
    "6aed3fb0f9cd71a43dd497f01f17c0e2cb3797aa2a2f256656168e6c496afc5fb93246f6b1116398a346f1a641f3b041e989f7914f90cc2c7fff357876e506b5"
    "0d334ba77c225bc307ba537152f3f1610e4eafe595f6d9d90d11faa933a15ef1369546868a7f3a45a96768d40fd9d03412c091c6315cf4fde7cb68606937380d"
    "b2eaaa707b4c4185c32eddcdd306705e4dc1ffc872eeee475a64dfac86aba41c0618983f8741c5ef68d3a101e8a3b8cac60c905c15fc910840b94c00a0b9d0"
)
VECTORS = {
    "TEST 1": (
        "9d61b19deffd5a60ba844af492ec2cc44449c5697b326919703bac031cae7f60",
        "d75a980182b10ab7d54bfed3c964073a0ee172f3daa62325af021a68f707511a",
        "",
        "e5564300c360ac729086e2cc806e828a84877f1eb8e5d974d873e065224901555fb8821590a33bacc61e39701cf9b46bd25bf5f0595bbe24655141438e7a100b",
    ),
    "TEST 2": (
        "4ccd089b28ff96da9db6c346ec114e0f5b8a319f35aba624da8cf6ed4fb8a6fb",
        "3d4017c3e843895a92b70aa74d1b7ebc9c982ccf2ec4968cc0cd55f12af4660c",
        "72",
        "92a009a9f0d4cab8720e820b5f642540a2b27b5416503f8fb3762223ebdb69da085ac1e43e15996e458f3613d0f11d8c387b2eaeb4302aeeb00d291612bb0c00",
    ),
    "TEST 3": (
        "c5aa8df43f9f837bedb7442f31dcb7b166d38535076f094b85ce3a2e0b4458f7",
        "fc51cd8e6218a1a38da47ed00230f0580816ed13ba3303ac5deb911548908025",
        "af82",
        "6291d657deec24024827e69c3abe01a30ce548a284743a445e3680d7db5ac3ac18ff9b538d16f290ae67f760984dc6594a7c15e9716ed28dc027beceea1ec40a",
    ),
    "TEST 1024": (
        "f5e5767cf153319517630f226876b86c8160cc583bc013744c6bf255f5cc0ee5",
        "278117fc144c72340f67d0f2316e8386ceffbf2b2428c9c51fef7c597f1d426e",
        TEST_1024,
        "0aab4c900501b3e24d7cdf4663326a3a87df5e4843b2cbdb67cbf6e460fec350aa5371b1508f9f4528ecea23c436d94b5e8fcd4f681e30a6ac00a9704a188a03",
    ),
    "TEST SHA(abc)": (
        "833fe62409237b9d62ec77587520911e9a759cec1d19755b7da901b96dca3d42",
        "ec172b93ad5e563bf4932c70e1245034c35467ef2efd4d64ebf819683467e2bf",
        "ddaf35a193617abacc417349ae20413112e6fa4e89a97ea20a9eeee64b55d39a2192992a274fc1a836ba3c23a3feebbd454d4423643ce80e2a9ac94fa54ca49f",
        "dc2a4459e7369633a52b1bf277839a00201009a3efbf3ecb69bea2186c26b58909351fc9ac90b3ecfdfbc7c66431e0303dca179c138ac17ad9bef1177331a704",
    ),
}

# ---- cases


def little(number):
    return number.to_bytes(32, "little")


def flipped(data, bit):
    return bytes(byte ^ (1 << bit % 8 if place == bit // 8 else 0) for place, byte in enumerate(data))


def checked(name, key, message, signature):
    """A case of `verify`."""
    case = {"call": "verify", "name": name, "key": key.hex(), "message": message.hex(), "signature": signature.hex()}
    return {**case, "answer": str(verify(key, message, signature)).lower()}


def ends_flipped(name, key, message, signature):
    """A case of `verify` on a signature, and on it with each bit flipped of the first and the last byte of its halves."""
    places = [0, 31, 32, 63]
    those = [flipped(signature, 8 * place + bit) for place in places for bit in range(8)]
    verified = sum(verify(key, message, it) for it in those)
    case = checked(f"{name}, and its ends flipped", key, message, signature)
    return {**case, "flips": places, "answer": f"{case['answer']}, and {verified} of {len(those)} with a bit flipped"}


def made(name, secret, key, message, signature):
    """Cases of a secret's key and its signature."""
    yield {"call": "key_of", "name": name, "secret": secret.hex(), "answer": key.hex()}
    yield {"call": "sign", "name": name, "secret": secret.hex(), "message": message.hex(), "answer": signature.hex()}


def edited(name, key, message, signature):
    """Cases of a signature with edits."""
    more = little(int.from_bytes(signature[32:], "little") + L)
    yield checked(f"{name}, a bit of the key flipped", flipped(key, 0), message, signature)
    yield checked(f"{name}, the sign of the key flipped", flipped(key, 255), message, signature)
    yield checked(f"{name}, a bit of R flipped", key, message, flipped(signature, 0))
    yield checked(f"{name}, a bit of S flipped", key, message, flipped(signature, 256))
    yield checked(f"{name}, one byte more of the message", key, message + b"x", signature)
    yield checked(f"{name}, S + L", key, message, signature[:32] + more)
    for cut in (0, 1, 32, 63):
        yield checked(f"{name}, {cut} bytes of the signature", key, message, signature[:cut])
    yield checked(f"{name}, a signature of 65 bytes", key, message, signature + b"\0")
    for cut in (0, 31):
        yield checked(f"{name}, {cut} bytes of the key", key[:cut], message, signature)
    yield checked(f"{name}, a key of 33 bytes", key + b"\0", message, signature)


SMALL = {
    "the neutral point": 1,
    "the neutral point with a sign": 1 | 1 << 255,
    "the neutral point as p + 1": P + 1,
    "the neutral point as p + 1 with a sign": P + 1 | 1 << 255,
    "the point of order 2": P - 1,
    "the point of order 2 with a sign": P - 1 | 1 << 255,
    "a point of order 4": 0,
    "a point of order 4 with a sign": 1 << 255,
    "a point of order 4 as p": P,
    "a point of order 4 as p with a sign": P | 1 << 255,
}


def of_small_order():
    """Cases of keys of small order, and of others that aren't canonical: S is 0, and the message is one whose hash makes the sum neutral."""
    for name, number in SMALL.items():
        key = little(number)
        for end, r in (("R neutral", 1), ("R neutral as p + 1", P + 1), ("R neutral with a sign", 1 | 1 << 255)):
            signature = little(r) + bytes(32)
            messages = (b"m%d" % i for i in range(200))
            message = next(it for it in messages if sha512_mod_l(signature[:32] + key + it) % 4 == 0)
            yield checked(f"A {name}, {end}", key, message, signature)


def off_the_curve(key, message, signature):
    """Cases of a key, and of an R, that are no point."""
    lost = next(little(y) for y in range(2, 100) if not point_decompress(little(y)))
    yield checked("A off the curve", lost, message, signature)
    yield checked("R off the curve", key, message, lost + signature[32:])
    yield checked("A all ones", b"\xff" * 32, message, signature)


def by_another():
    """Secrets, and their keys and signatures by another implementation."""
    for i, length in enumerate((0, 1, 31, 32, 63, 64, 111, 112, 127, 128, 300)):
        secret = hashlib.sha256(b"secret %d" % i).digest()
        message = hashlib.shake_256(b"message %d" % i).digest(length)
        other = Ed25519PrivateKey.from_private_bytes(secret)
        yield f"by another implementation, {length} bytes", secret, other.public_key().public_bytes_raw(), message, other.sign(message)


def key_of(public, keytype="ed25519", scheme="ed25519"):
    return {"keytype": keytype, "scheme": scheme, "keyval": {"public": public}}


def of_keys():
    """Cases of verifiers and signers by keys."""
    secret = hashlib.sha256(b"the secret of a key").digest()
    other = Ed25519PrivateKey.from_private_bytes(secret)
    public, message = other.public_key().public_bytes_raw(), "a message"
    signature = other.sign(message.encode())
    demo = hashlib.sha256(public + message.encode()).hexdigest()
    pem = f"-----BEGIN PUBLIC KEY-----\n{public.hex()}\n-----END PUBLIC KEY-----"
    kinds = {
        "ed25519": key_of(public.hex()),
        "ecdsa": key_of(public.hex(), "ecdsa", "ecdsa-sha2-nistp256"),
        "ecdsa-sha2-nistp256": key_of(public.hex(), "ecdsa-sha2-nistp256", "ecdsa-sha2-nistp256"),
        "rsa": key_of(pem, "rsa", "rsassa-pss-sha256"),
    }
    for kind, key in kinds.items():
        case = {"name": kind, "key": key, "message": message, "signature": signature.hex()}
        yield {"call": "Ed25519Verify", **case, "answer": str(kind == "ed25519").lower()}
        yield {"call": "Verifiers", **case, "answer": str(kind == "ed25519").lower()}
        case["signature"] = hashlib.sha256(pem.encode() + message.encode()).hexdigest() if kind == "rsa" else demo
        yield {"call": "Verifiers", **case, "name": f"{kind} for demonstrations", "answer": str("ecdsa" in kind).lower()}
    case = {"call": "Ed25519Sign", "secret": secret.hex(), "message": message}
    by = f"{signature.hex()} by {list(public)}"
    yield {**case, "name": "by its secret", "key": kinds["ed25519"], "answer": f"{by}, lent {by}"}
    failed = "Failed to sign: the secret is not that of the key"
    failed = f"{failed}, lent {failed}"
    yield {**case, "name": "by another's secret", "key": key_of(VECTORS["TEST 1"][1]), "answer": failed}
    yield {**case, "name": "by a key of another kind", "key": kinds["ecdsa"], "answer": failed}
    yield {**case, "name": "by a short key", "key": key_of(public.hex()[:62]), "answer": failed}


def cases():
    for name, texts in VECTORS.items():
        secret, key, message, signature = map(bytes.fromhex, texts)
        yield ends_flipped(name, key, message, signature)
        yield from made(name, secret, key, message, signature)
        if name != "TEST 1024":
            yield from edited(name, key, message, signature)
    yield from of_small_order()
    yield from off_the_curve(*map(bytes.fromhex, VECTORS["TEST 2"][1:]))
    for name, secret, key, message, signature in by_another():
        for case in (*made(name, secret, key, message, signature), checked(name, key, message, signature)):
            yield {**case, "source": "cryptography"}
    yield from of_keys()


def main(words):
    if len(words) != 1 or words[0].startswith("-"):
        print(__doc__, file=sys.stderr)
        return 2
    case_files.write(words[0], cases(), "RFC 8032")
    return 0


if __name__ == "__main__":
    sys.exit(main(sys.argv[1:]))
