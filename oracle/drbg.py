"""The random bytes of NIST's known-answer programs: the CTR_DRBG of SP 800-90A with AES-256, no personalization."""

# AES-256 (FIPS 197), encryption only. A state is 16 bytes, column by column.


def times(a, b):
    """The product in the field of 256 elements."""
    product = 0
    while b:
        if b & 1:
            product ^= a
        a = a << 1 ^ (0x11B if a & 0x80 else 0)
        b >>= 1
    return product


def substitute(x):
    """The S-box: the inverse, which is x to the 254, then the affine map."""
    inverse = 1
    for _ in range(7):
        x = times(x, x)
        inverse = times(inverse, x)
    shifts = inverse ^ inverse << 1 ^ inverse << 2 ^ inverse << 3 ^ inverse << 4
    return (shifts ^ shifts >> 8) & 0xFF ^ 0x63


S_BOX = bytes(substitute(x) for x in range(256))
DOUBLE = bytes(times(x, 2) for x in range(256))
ROUNDS = 14


def xor(a, b):
    return bytes(x ^ y for x, y in zip(a, b, strict=True))


def round_keys(key):
    """The key schedule: a key of 16 bytes for the start and one for each round."""
    words = [key[i : i + 4] for i in range(0, 32, 4)]
    constant = 1
    for i in range(8, 4 * (ROUNDS + 1)):
        word = words[-1]
        if i % 8 == 0:
            word = xor((word[1:] + word[:1]).translate(S_BOX), bytes([constant, 0, 0, 0]))
            constant = times(constant, 2)
        elif i % 8 == 4:
            word = word.translate(S_BOX)
        words.append(xor(words[-8], word))
    return [b"".join(words[i : i + 4]) for i in range(0, len(words), 4)]


def shift_rows(state):
    return bytes(state[(i + 4 * (i % 4)) % 16] for i in range(16))


def mix_columns(state):
    mixed = []
    for i in range(0, 16, 4):
        a, b, c, d = state[i : i + 4]
        for first, second in ((a, b), (b, c), (c, d), (d, a)):
            # 2 first + 3 second + the other two
            mixed.append(DOUBLE[first ^ second] ^ first ^ a ^ b ^ c ^ d)
    return bytes(mixed)


def encrypt(keys, block):
    """One block under the round keys."""
    state = xor(block, keys[0])
    for key in keys[1:-1]:
        state = xor(mix_columns(shift_rows(state.translate(S_BOX))), key)
    return xor(shift_rows(state.translate(S_BOX)), keys[-1])


# The generator


class Drbg:
    """Seeded with 48 bytes, as by `randombytes_init`."""

    def __init__(self, seed):
        self.keys, self.counter = round_keys(bytes(32)), 0
        self._update(seed)

    def _blocks(self, count):
        blocks = []
        for _ in range(count):
            self.counter = (self.counter + 1) % 2**128
            blocks.append(encrypt(self.keys, self.counter.to_bytes(16, "big")))
        return b"".join(blocks)

    def _update(self, data):
        state = xor(self._blocks(3), data)
        self.keys, self.counter = round_keys(state[:32]), int.from_bytes(state[32:], "big")

    def randombytes(self, length):
        drawn = self._blocks((length + 15) // 16)[:length]
        self._update(bytes(48))
        return drawn


def known_answer_seeds(count):
    """The seeds of the first entries of every PQCkemKAT file."""
    generator = Drbg(bytes(range(48)))
    return [generator.randombytes(48) for _ in range(count)]
