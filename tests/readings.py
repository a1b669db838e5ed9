"""The readings of documents 01 and 02 that decide what a known-answer entry holds; the oracle can reverse each of them.

docs/READINGS.md says of each what the submission has in its place, and tests/readings_table.py compares that table with
this one. A reversal wraps the oracle's own functions, so that several can be in force at once.
"""

import contextlib
import itertools
from unittest import mock

import saber

CIPHERTEXTS = [set.ciphertext for set in saber.SETS.values()]  # their lengths


def seed_first(public_key):
    return public_key[-32:] + public_key[:-32]


def keygen_seed_first(keygen):
    def changed(set, matrix_seed, secret_seed, z):
        public_key, secret_key = keygen(set, matrix_seed, secret_seed, z)
        public_key = seed_first(public_key)
        return public_key, secret_key[: set.plain_secret] + public_key + saber.sha3_256(public_key) + z

    return changed


def encrypt_seed_first(encrypt):
    return lambda set, public_key, *rest: encrypt(set, public_key[32:] + public_key[:32], *rest)


def z_first(secret_key):
    """The secret key with its last two parts, the hash and z, exchanged."""
    return secret_key[:-64] + secret_key[-32:] + secret_key[-64:-32]


def keygen_z_first(keygen):
    def changed(*arguments):
        public_key, secret_key = keygen(*arguments)
        return public_key, z_first(secret_key)

    return changed


def encrypt_data_first(encrypt):
    def changed(set, *rest):
        ciphertext = encrypt(set, *rest)
        return ciphertext[320 * set.l :] + ciphertext[: 320 * set.l]

    return changed


def decrypt_data_first(decrypt):
    def changed(set, plain_secret, ciphertext):
        data = 32 * set.data_width
        return decrypt(set, plain_secret, ciphertext[data:] + ciphertext[:data])

    return changed


def exchanged(hash):
    """The hash of a secret, with the ciphertext's part before the 32 bytes of k or z."""

    def changed(string):
        last = len(string) == 64 or len(string) - 32 in CIPHERTEXTS
        return hash(string[32:] + string[:32] if last else string)

    return changed


def mirrored(function):
    """Strings from the other end: each one that the function is given, and each that it gives."""

    def changed(*arguments):
        result = function(*[x[::-1] if isinstance(x, bytes) else x for x in arguments])
        return result[::-1] if isinstance(result, bytes) else tuple(string[::-1] for string in result)

    return changed


# The readings that no honest ciphertext shows: an entry with a damaged one does
REJECTION = "the rejected secret is of z, then the ciphertext's hash, and not of k and z"
RECEIVED = "the rejected secret is of the received ciphertext, not of the one made again"
DAMAGED = (REJECTION, RECEIVED)

# Each reading with the oracle's functions that reverse it. Lengths tell the uses of a hash apart: SHAKE-128 gives 32
# bytes for the stored seed alone; SHA3-256 is given 32 bytes for m alone, 64 for the last step to a secret alone, and a
# ciphertext's length for its hash alone.
READINGS = {
    "the stored matrix seed is SHAKE-128 of the given one": {
        "shake128": lambda hash: lambda string, length: string if length == 32 else hash(string, length)
    },
    "making keys has the transposed matrix": {
        "matrix_of": lambda matrix_of: lambda set, seed: saber.transposed(matrix_of(set, seed))
    },
    "rounding adds 4": {"round": lambda round: lambda numbers: round([x - 4 for x in numbers])},
    "a coefficient of a secret is of two pieces of mu/2 bits": {
        "gen_secret": lambda gen_secret: lambda set, seed: gen_secret(set._replace(mu=2 * set.mu), seed)
    },
    "the public key ends in the matrix seed": {"keygen": keygen_seed_first, "encrypt": encrypt_seed_first},
    "the secret key ends in the public key's hash, then z": {
        "keygen": keygen_z_first,
        "decaps": lambda decaps: lambda set, secret_key, ciphertext: decaps(set, z_first(secret_key), ciphertext),
    },
    "the ciphertext is b', then the data": {"encrypt": encrypt_data_first, "decrypt": decrypt_data_first},
    "m is SHA3-256 of the caller's bytes": {
        "sha3_256": lambda hash: lambda string: string if len(string) == 32 else hash(string)
    },
    "SHA3-512 is of m, then the public key's hash": {
        "key_and_seed": lambda key_and_seed: lambda m, key_hash: key_and_seed(key_hash, m)
    },
    "k is the first half of SHA3-512, r the second": {
        "key_and_seed": lambda key_and_seed: lambda m, key_hash: key_and_seed(m, key_hash)[::-1]
    },
    "the shared secret is of the ciphertext's hash, not of the ciphertext": {
        "sha3_256": lambda hash: lambda string: string if len(string) in CIPHERTEXTS else hash(string)
    },
    "the shared secret is of k, then the ciphertext's hash": {"sha3_256": exchanged},
    REJECTION: {"rejected": lambda _: lambda k, z, received, again: saber.sha3_256(k + z)},
    RECEIVED: {"rejected": lambda rejected: lambda k, z, received, again: rejected(k, z, again, again)},
    "the first byte of a string is the one written rightmost": {
        name: mirrored for name in ("shake128", "sha3_256", "sha3_512", "keygen", "encaps", "decaps")
    },
}


@contextlib.contextmanager
def reversed_in_oracle(names):
    """The oracle with the named readings reversed."""
    with contextlib.ExitStack() as stack:
        for name in names:
            for function, change in READINGS[name].items():
                stack.enter_context(mock.patch.object(saber, function, change(getattr(saber, function))))
        yield


def explanations(agrees):
    """The fewest readings, at most two, under whose reversal `agrees` says yes: every choice of that many.

    A choice of none means that the oracle agrees as it is.
    """
    for count in range(3):
        found = []
        for names in itertools.combinations(READINGS, count):
            with reversed_in_oracle(names):
                if agrees():
                    found.append(names)
        if found:
            return found
    return []
