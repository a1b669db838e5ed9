"""Tests of the oracle: the cases of document 01, NIST's vectors, records, signed lists, the margin report, and what the
papers say must hold.

    python3 oracle/selftest.py
"""

import hashlib
import itertools
import sys
from collections import Counter
from unittest import mock

import drbg
import known_answers
import notation
import saber
from calls import CALLS, run
from samples import NIST_FILES, bits, counted_secret, draw, draw_list, flipped, laid_record, lent_bytes, lent_signed
from samples import monomial, rejected_secret, vectors, with_bit_turned

PRODUCTS = ("poly_mul", "poly_mul_karatsuba")  # the plain one and A3's, which asks the same questions

counts = {"checks": 0, "failed": 0}


def check(label, holds):
    counts["checks"] += 1
    if not holds:
        counts["failed"] += 1
        print(f"failed: {label}")


def value(bits):
    return sum(bit << i for i, bit in enumerate(bits))


def keys(number, label):
    """The three seeds of key generation, and the keys a call made of them."""
    set = saber.NUMBERS[number]
    seeds = [draw(f"selftest {number} {label} {name}", 32) for name in ("matrix", "secret", "z")]
    answer, pair = run("keygen", number, *seeds, bytes(set.public_key), bytes(set.secret_key))
    check(f"set {number}: key generation answers 0", answer == 0)
    return seeds, *pair


def encapsulated(number, public_key, label):
    """The seed of encapsulation, and the ciphertext and shared secret a call made of it."""
    seed = draw(f"selftest {number} {label} encaps", 32)
    size = saber.NUMBERS[number].ciphertext
    answer, made = run("encaps", number, public_key, seed, bytes(size), bytes(32))
    check(f"set {number}: encapsulation answers 0", answer == 0)
    return seed, *made


def cases():
    """Document 01, "Cases", and the lines of saberset."""
    x = [3, 4, 8187, 8188] + [0] * 252
    check("rounding", run("round", x, [7] * 256) == (0, [[0, 1, 1023, 0] + [0] * 252]))
    for byte, coefficient in ((0xF0, -4), (0x0F, 4), (0x31, -1)):
        check(f"set 2 sampling {byte:02X}", saber.sampled(bytes([byte]), 8) == [coefficient])
    check("set 1 sampling E0 03", saber.sampled(bytes.fromhex("e003000000"), 10)[0] == -5)
    for width, start, string in ((13, [8191, 0], "ff1f"), (13, [0, 1], "0020"), (10, [0, 1], "0004")):
        answer, [packed] = run("pack", width, start + [0] * 254, bytes(32 * width))
        check(f"width {width}: {start}", answer == 0 and packed[:2] == bytes.fromhex(string) and not any(packed[2:]))
    for name in PRODUCTS:
        power = run(name, 8192, monomial(255), monomial(1), [7] * 256)
        check(f"{name}: X to the 255 times X", power == (0, [monomial(0, 8191)]))
        check(f"{name} modulo 1000", run(name, 1000, monomial(0), monomial(0), [7] * 256) == (2, [[7] * 256]))

    check("set 2, v' = 63, bit 1: data 8", saber.data_of(saber.SETS[2], saber.masked(saber.SETS[2], 63, 1)) == 8)
    check("data of w = 575", run("recon_data", 2, [575] * 256, [7] * 256) == (0, [[8] * 256]))
    check("set 2, v' = 0, bit 1: data 8", saber.data_of(saber.SETS[2], saber.masked(saber.SETS[2], 0, 1)) == 8)
    for v, bit in ((287, 1), (288, 0), (800, 1), (799, 0)):
        check(f"data 8, v = {v}", run("recover", 2, [v] * 256, [8] * 256, [7] * 256) == (0, [[bit] * 256]))

    lengths = ((2, 991, 32, 4), (2, 992, 32, 0), (2, 993, 32, 4), (4, 992, 32, 1), (4, 992, 31, 1))
    for number, size, seed, expected in lengths:
        answer, _ = run("encaps", number, draw("case", size), bytes(seed), bytes(1088), bytes(32))
        check(f"set {number}, public key {size}, seed {seed}", answer == expected)
    for coefficient, expected in ((1023, 0), (1024, 8)):
        check(f"packing {coefficient}", run("pack", 10, monomial(0, coefficient), bytes(320))[0] == expected)

    lines = "set l mu t g pk sk ct margin\n1 2 10 4 128 672 1568 736 192\n2 3 8 8 64 992 2304 1088 224\n"
    check("saberset", saber.table() == lines + "3 4 6 32 16 1312 3040 1472 248\n")
    for set in saber.SETS.values():
        check("g and M", set.g * set.t == 512 and set.margin == 256 - set.g // 2)
        check("data width", 1 << set.data_width == 1024 // set.g)
        check("public key size", set.public_key == 320 * set.l + 32)
        check("secret key size", set.secret_key == 416 * set.l + set.public_key + 64)
        check("ciphertext size", set.ciphertext == 320 * set.l + 32 * set.data_width)


def hashes():
    for name, files in NIST_FILES.items():
        for message, result in itertools.chain(*map(vectors, files)):
            answer = run(name, message, bytes(len(result)))
            check(f"{name} of {len(message)} bytes", answer == (0, [result]))
    check("SHAKE-128 of no output", run("shake128", b"any", b"") == (0, [b""]))


def random_bytes():
    """AES-256 against FIPS 197, appendix C.3; the generator against the first seeds of NIST's PQCkemKAT files."""
    block = drbg.encrypt(drbg.round_keys(bytes(range(32))), bytes.fromhex("00112233445566778899aabbccddeeff"))
    check("AES-256", block.hex() == "8ea2b7ca516745bfeafc49904b496089")
    seeds = [
        "061550234d158c5ec95595fe04ef7a25767f2e24cc2bc479d09d86dc9abcfde7056a8c266f9ef97ed08541dbd2e1ffa1",
        "d81c4d8d734fcbfbeade3d3f8a039faa2a2c9957e835ad55b22e75bf57bb556ac81adde6aeeb4a5a875c3bfcadfa958f",
    ]
    check("known-answer seeds", [seed.hex() for seed in drbg.known_answer_seeds(2)] == seeds)


def packing():
    for width in saber.WIDTHS:
        for turn in range(5):
            numbers = draw_list(f"selftest packing {width} {turn}", 1 << width)
            _, [string] = run("pack", width, numbers, bytes(32 * width))
            laid = [x >> i & 1 for x in numbers for i in range(width)]
            check(f"width {width}: packed bits", bits(string) == laid)
            check(f"width {width}: unpack after pack", run("unpack", width, string, [7] * 256) == (0, [numbers]))
            string = draw(f"selftest unpacking {width} {turn}", 32 * width)
            _, [numbers] = run("unpack", width, string, [7] * 256)
            check(f"width {width}: pack after unpack", run("pack", width, numbers, bytes(32 * width)) == (0, [string]))


def ring():
    for turn in range(10):
        a = draw_list(f"selftest ring a {turn}", 8192)
        b = draw_list(f"selftest ring b {turn}", 8192)
        check("fast product", saber.product(a, b) == saber.plain_product(a, b))
        a, b = [x - 4096 for x in a], [x % 9 - 4 for x in b]
        check("fast product of signed numbers", saber.product(a, b) == saber.plain_product(a, b))
    top = [8191] * 256
    check("fast product of the largest", saber.product(top, top) == saber.plain_product(top, top))
    for place in (0, 1, 128, 255):
        a = draw_list("selftest shift", 8192)
        shifted = [-x % 8192 for x in a[256 - place :]] + a[: 256 - place]
        check(f"times X to the {place}", run("poly_mul", 8192, a, monomial(place), [7] * 256) == (0, [shifted]))


def split_product(a, b):
    """A3's product with nothing folded: halves in turn until 16 coefficients remain, three half products for four."""
    half = len(a) // 2
    if half < 16:
        return saber.plain_product(a + [0] * len(a), b + [0] * len(b))
    low, high = split_product(a[:half], b[:half]), split_product(a[half:], b[half:])
    both = split_product(*([x + y for x, y in zip(c[:half], c[half:])] for c in (a, b)))
    middle = [0] * half + [x - y - z for x, y, z in zip(both, low, high)] + [0] * half
    return [x + y for x, y in zip(low + high, middle)]


def folded(c):
    """The coefficients of 1, X, .. minus those that stand n places on, as X to the n is -1."""
    n = len(c) // 2
    return [x - y for x, y in zip(c[:n], c[n:])]


def splitting():
    """The product by splitting is the plain one, at every length 16 times a power of two, and the call gives it."""
    for n in (16, 32, 64, 128, 256):
        for limit in (2, 1024, 8192, 65536):
            a, b = (draw_list(f"selftest splitting {n} {limit} {factor}", limit, n) for factor in "ab")
            signed = [x - limit // 2 for x in a]
            top, signs = [limit - 1] * n, [(limit - 1) * (-1) ** i for i in range(n)]
            for x, y in ((a, b), (b, a), (signed, b), (top, top), (signs, top), (signs, signs), (a, top), (a, [0] * n)):
                check(f"{n} coefficients split", folded(split_product(x, y)) == saber.plain_product(x, y))
    for i, j in itertools.product((0, 15, 16, 127, 128, 255), repeat=2):
        product = saber.plain_product(monomial(i), monomial(j))
        check(f"X to the {i} times X to the {j} split", folded(split_product(monomial(i), monomial(j))) == product)
    for modulus in saber.MODULI:
        a, b = (draw_list(f"selftest splitting {modulus} {factor}", modulus) for factor in "ab")
        for x, y in ((a, b), ([modulus - 1] * 256, [modulus - 1] * 256), (list(range(256)), b)):
            product = saber.modulo(folded(split_product(x, y)), modulus)
            for name in PRODUCTS:
                check(f"{name}, modulus {modulus}", run(name, modulus, x, y, [7] * 256) == (0, [product]))


def rounding():
    every = range(8192)
    r, [e] = saber.round(every), saber.error([every])
    check("all rounded values lie below 1024", set(r) == set(range(1024)))
    check("all errors lie in -3 .. 4", set(e) == set(range(-3, 5)))
    check("an error is 8 times the rounded minus the exact", all((8 * r[x] - x - e[x]) % 8192 == 0 for x in every))


def sampling():
    for number in saber.NUMBERS:
        set = saber.NUMBERS[number]
        seed = draw(f"selftest sampling {number}", 32)
        secret = counted_secret(seed, set.l, set.mu)
        check(f"set {number}: secret", run("gen_secret", number, seed, lent_signed(256 * set.l)) == (0, [secret]))
        check(f"set {number}: secret vector", saber.flat(saber.secret_of(set, seed)) == secret)
        stream = bits(hashlib.shake_128(seed).digest(416 * set.l**2))
        numbers = [value(stream[i : i + 13]) for i in range(0, len(stream), 13)]
        check(f"set {number}: matrix", run("gen_matrix", number, seed, [7] * 256 * set.l**2) == (0, [numbers]))


def ones(number, places):
    return sum(number >> i & 1 for i in places)


def weights():
    """Every pair of pieces, by its number of mu bits. Of mu = 8 it is A4's table of 256 weights."""
    for byte in range(256):
        weight = ones(byte, range(4)) - ones(byte, range(4, 8))
        check(f"weight of byte {byte:02X}", saber.sampled(bytes([byte]), 8) == [weight])
    for half in (5, 4, 3):
        numbers = range(4**half)
        stream = value([x >> i & 1 for x in numbers for i in range(2 * half)])
        signed = saber.sampled(stream.to_bytes(len(numbers) * half // 4, "little"), 2 * half)
        counted = [ones(x, range(half)) - ones(x, range(half, 2 * half)) for x in numbers]
        check(f"mu = {2 * half}: every pair of pieces", signed == counted)
        check(f"mu = {2 * half}: numbers in -mu/2 .. mu/2", {*signed} == {*range(-half, half + 1)})


def residues():
    """Modulo 8192 a secret is what the call gave before A4, and in 13 bits it is the plain secret of the key."""
    for number, path in known_answers.FILES.items():
        set = saber.SETS[number]
        half = set.mu // 2
        for label, entry in known_answers.read(path.read_text()):
            seed = known_answers.drawn(entry.seed)[1]
            answer, [secret] = run("gen_secret", number, seed, lent_signed(256 * set.l))
            check(f"{label}: secret in -mu/2 .. mu/2", answer == 0 and all(-half <= x <= half for x in secret))
            stream = bits(hashlib.shake_128(seed).digest(32 * set.l * set.mu))
            counted = [sum(stream[i : i + half]) for i in range(0, len(stream), half)]
            before = [(8192 + first - second) % 8192 for first, second in zip(counted[0::2], counted[1::2])]
            check(f"{label}: residues", [x % 8192 for x in secret] == before)
            packed = value([x % 8192 >> i & 1 for x in secret for i in range(13)]).to_bytes(416 * set.l, "little")
            check(f"{label}: plain secret", packed == entry.sk[: 416 * set.l])


def margin():
    """With v off by at most M every bit comes back from data, whatever v' is; with M + 1 it may not."""
    for set in saber.SETS.values():
        lost = {}
        for v, bit in itertools.product(range(1024), (0, 1)):
            data = saber.data_of(set, saber.masked(set, v, bit))
            for off in (-set.margin - 1, -set.margin, -1, 0, 1, set.margin, set.margin + 1):
                lost[off] = lost.get(off, False) or saber.bit_of(set, (v + off) % 1024, data) != bit
        for off, some in lost.items():
            check(f"l = {set.l}: v off by {off}", some == (abs(off) > set.margin))


def plain_inner(u, v):
    products = [saber.plain_product(a, b) for a, b in zip(u, v)]
    return [sum(column) for column in zip(*products)]


def small_noise():
    """The noise in figures, where n = 4 and l = 2. The theorem noise/Laws/Example has the same figures."""
    A = [[[3168, 1, 3400, 2], [4095, 3144, 5, 6450]], [[7776, 2581, 8190, 0], [8191, 7627, 5593, 4096]]]
    s, s1 = [[-5, 5, 3, 2], [0, 2, -4, -4]], [[-1, 2, -4, 5], [0, 0, -5, -2]]
    exact = [[17032, 57341, -33437, -1719], [-14340, 40533, 13954, -66689]]
    exact1 = [[16736, 21603, -23655, -1276], [55298, 3687, -66895, -9581]]
    e, e1 = [[0, 3, -3, -1], [4, 3, -2, 1]], [[0, -3, -1, 4], [-2, 1, -1, -3]]
    N = [24, -24, -16, 8]
    check("small noise: transposed product", saber.times(saber.transposed(A), s) == exact)
    check("small noise: product", saber.times(A, s1) == exact1)
    check("small noise: e and e'", (saber.error(exact), saber.error(exact1)) == (e, e1))
    check("small noise: N", saber.noise_of(s, s1, e, e1) == N)
    check("small noise: margin 3, not 2", [all(abs(x) <= 8 * M for x in N) for M in (3, 2)] == [True, False])

    # By the plain product, and every coefficient is another one in each trap.
    def N_of(e, e1, sign=-1):
        return [x + sign * y for x, y in zip(plain_inner(e1, s), plain_inner(e, s1))]

    down, down1 = ([[-(x % 8) for x in xs] for xs in vector] for vector in (exact, exact1))
    check("small noise: transposed product, plain", [plain_inner(column, s) for column in zip(*A)] == exact)
    check("small noise: product, plain", [plain_inner(row, s1) for row in A] == exact1)
    check("small noise: N, plain", N_of(e, e1) == N)
    for trap, other in (
        ("the same side of the matrix", N_of(saber.error(saber.times(A, s)), e1)),
        ("a sum", N_of(e, e1, 1)),
        ("e and e' exchanged", N_of(e1, e)),
        ("rounding without the 4", N_of(down, down1)),
    ):
        check(f"small noise: {trap}", all(x != y for x, y in zip(other, N)))


def in_place(number):
    """The parts of keys and ciphertexts, read from their places, fit each other by the plain definitions."""
    set = saber.NUMBERS[number]
    l = set.l
    seeds, public_key, secret_key = keys(number, "in place")
    check(f"set {number}: stored seed", public_key[320 * l :] == hashlib.shake_128(seeds[0]).digest(32))
    check(f"set {number}: public key in secret key", secret_key[416 * l : 416 * l + len(public_key)] == public_key)
    check(f"set {number}: lookup", run("public_key_of", number, secret_key) == (None, [public_key]))
    check(f"set {number}: hash and z", secret_key[-64:] == hashlib.sha3_256(public_key).digest() + seeds[2])

    _, [entries] = run("gen_matrix", number, public_key[-32:], [7] * 256 * l * l)
    A = [[entries[256 * (l * i + j) :][:256] for j in range(l)] for i in range(l)]
    _, [s] = run("gen_secret", number, seeds[1], lent_signed(256 * l))
    s = [[x % 8192 for x in s[256 * i :][:256]] for i in range(l)]
    b = [run("unpack", 10, public_key[320 * i :][:320], [7] * 256)[1][0] for i in range(l)]
    check(f"set {number}: s", [run("unpack", 13, secret_key[416 * i :][:416], [7] * 256)[1][0] for i in range(l)] == s)
    for i in range(l):
        exact = plain_inner([A[j][i] for j in range(l)], s)
        check(f"set {number}: b {i}", all((8 * y - x + 3) % 8192 < 8 for x, y in zip(exact, b[i])))

    message, seed = draw(f"selftest message {number}", 32), draw(f"selftest encryption {number}", 32)
    _, [ciphertext] = run("encrypt", number, public_key, message, seed, bytes(set.ciphertext))
    _, [s1] = run("gen_secret", number, seed, lent_signed(256 * l))
    s1 = [[x % 8192 for x in s1[256 * i :][:256]] for i in range(l)]
    b1 = [run("unpack", 10, ciphertext[320 * i :][:320], [7] * 256)[1][0] for i in range(l)]
    for i in range(l):
        exact = plain_inner(A[i], s1)
        check(f"set {number}: b' {i}", all((8 * y - x + 3) % 8192 < 8 for x, y in zip(exact, b1[i])))
    w = [(x + 512 * bit) % 1024 for x, bit in zip(plain_inner(b, s1), bits(message))]
    _, [data] = run("unpack", set.data_width, ciphertext[320 * l :], [7] * 256)
    check(f"set {number}: data", data == [x // set.g for x in w])
    v = [x % 1024 for x in plain_inner(b1, s)]
    _, [recovered] = run("recover", number, v, data, [7] * 256)
    check(f"set {number}: recovered", recovered == bits(message))


def demand_3(number, label):
    """Round trips, and the noise against what the difference of v and v' shows of it."""
    set = saber.NUMBERS[number]
    seeds, public_key, secret_key = keys(number, label)
    seed, ciphertext, shared_secret = encapsulated(number, public_key, label)
    m = hashlib.sha3_256(seed).digest()
    N, *messages = saber.outcome(set, *seeds[:2], seed)
    check(f"set {number}: noise within its bounds", len(N) == 256 and all(abs(x) <= 8 * set.margin for x in N))
    check(f"set {number}: m and what decryption gives", messages == [m, m])

    plain_secret = secret_key[: 416 * set.l]
    check(f"set {number}: decryption", run("decrypt", number, plain_secret, ciphertext, bytes(32)) == (0, [m]))
    answer = run("decaps", number, secret_key, ciphertext, bytes(32))
    check(f"set {number}: decapsulation", answer == (0, [shared_secret]))

    kr = hashlib.sha3_512(m + hashlib.sha3_256(public_key).digest()).digest()
    again = run("encrypt", number, public_key, m, kr[32:], bytes(set.ciphertext))
    check(f"set {number}: encapsulation encrypts m with r", again == (0, [ciphertext]))
    hashed = hashlib.sha3_256(kr[:32] + hashlib.sha3_256(ciphertext).digest()).digest()
    check(f"set {number}: shared secret", shared_secret == hashed)

    def read(string, width):
        size = 32 * width
        return [run("unpack", width, string[i : i + size], [7] * 256)[1][0] for i in range(0, len(string), size)]

    _, [s1] = run("gen_secret", number, kr[32:], lent_signed(256 * set.l))
    s1 = read(saber.pack(13, saber.modulo(s1, 8192)), 13)
    v = plain_inner(read(ciphertext[: 320 * set.l], 10), read(plain_secret, 13))
    v1 = plain_inner(read(public_key[: 320 * set.l], 10), s1)
    multiples = [8 * (x - y) - n for x, y, n in zip(v, v1, N)]
    check(f"set {number}: N is 8 (v - v') modulo 8192", not any(saber.modulo(multiples, 8192)))


def stepwise(set, group):
    """A group's figures, by the plain product and bit by bit."""
    l = set.l

    def laid(numbers, width):
        return value([x >> i & 1 for x in numbers for i in range(width)]).to_bytes(len(numbers) * width // 8, "little")

    def less(exact):
        """8 times the rounded minus the exact, by the remainder that rounding leaves."""
        return [[-(x % 8) if x % 8 < 4 else 8 - x % 8 for x in xs] for xs in exact]

    def secret(seed):
        numbers = counted_secret(seed, l, set.mu)
        return [numbers[256 * i :][:256] for i in range(l)]

    stored = hashlib.shake_128(group[:32]).digest(32)
    stream = bits(hashlib.shake_128(stored).digest(416 * l * l))
    entries = [value(stream[i : i + 13]) for i in range(0, len(stream), 13)]
    A = [[entries[256 * (l * i + j) :][:256] for j in range(l)] for i in range(l)]
    s = secret(group[32:64])
    exact = [plain_inner([A[j][i] for j in range(l)], s) for i in range(l)]
    b = [[(x + 4) // 8 % 1024 for x in xs] for xs in exact]
    key = b"".join(laid(xs, 10) for xs in b) + stored
    m = hashlib.sha3_256(group[64:]).digest()
    s1 = secret(hashlib.sha3_512(m + hashlib.sha3_256(key).digest()).digest()[32:])
    exact1 = [plain_inner(row, s1) for row in A]
    b1 = [[(x + 4) // 8 % 1024 for x in xs] for xs in exact1]
    N = [x - y for x, y in zip(plain_inner(less(exact1), s), plain_inner(less(exact), s1))]
    w = [(x + 512 * bit) % 1024 for x, bit in zip(plain_inner(b, s1), bits(m))]
    off = [x - y // set.g * set.g + 256 - set.g // 2 for x, y in zip(plain_inner(b1, s), w)]
    wrong = [x for x, bit in zip(off, bits(m)) if (x % 1024 >= 512) != bit]
    return 8 * (256 - set.g // 2) - max(max(N), -min(N)), len(wrong)


def margins():
    """A5's report: figures of groups, and lines of figures that are given."""
    for number, set in saber.SETS.items():
        group = draw(f"selftest group {number}", 96)
        margin, wrong = saber.figures(set, group)
        check(f"set {number}: figures", (margin, wrong) == stepwise(set, group))
        check(f"set {number}: a margin above 0, no wrong bit", margin > 0 and wrong == 0)
        line = f"set cases least wrong rest\n{number} 1 {margin} 0 0\n".encode()
        check(f"set {number}: report", saber.margin_report(bytes([number]) + group) == line)
        # Secrets with ten times the spread, which bring misses.
        loud, group = set._replace(mu=100 * set.mu), draw(f"selftest loud {number}", 96)
        margin, wrong = saber.figures(loud, group)
        check(f"set {number}, loud: figures", (margin, wrong) == stepwise(loud, group))
        check(f"set {number}, loud: a margin below 0, wrong bits", margin < 0 and 0 < wrong < 256)

    light, none = saber.SETS[1], bytes(32)
    for N, message, expected in (
        ([0] * 256, none, (1536, 0)),
        ([0] * 255 + [-1528], none, (8, 0)),
        ([1528, -1536] + [0] * 254, bytes([1]) + bytes(31), (0, 1)),
        ([1544, -8] + [0] * 254, bytes(31) + bytes([0x81]), (-8, 2)),
        ([8, -10240] + [0] * 254, bytes([255]) * 32, (-8704, 256)),
    ):
        with mock.patch.object(saber, "outcome", lambda *_: (N, none, message)):
            check(f"figures {expected}", saber.figures(light, bytes(96)) == expected)

    def place(group):
        return int.from_bytes(group, "little")

    def groups(count):
        return b"".join(i.to_bytes(96, "little") for i in range(count))

    def prints(label, given, text, figures=None):
        """With no figures, none are to be computed."""
        check(f"report, {label}", saber.margin_report(given, figures) == text.encode())

    header = "set cases least wrong rest\n"
    for number in (1, 2, 3):
        start = bytes([number])
        prints("no group", start, f"{header}{number} 0 none 0 0\n")
        prints("95 bytes", start + bytes(95), f"{header}{number} 0 none 0 95\n")
        for given, least, wrong in (
            ([(7, 0)], "7", 0), ([(0, 0), (1, 0)], "0", 0), ([(1, 3), (-1, 4)], "-1", 7),
            ([(-8, 1), (8, 256)], "-8", 257), ([(1496, 0), (1200, 0), (1392, 0)], "1200", 0),
            ([(-64, 2), (-8704, 256), (-8, 1)], "-8704", 259),
        ):
            count = len(given)
            for rest in (0, 1, 95):
                text = f"{header}{number} {count} {least} {wrong} {rest}\n"
                prints(f"{given}", start + groups(count) + bytes(rest), text, lambda _, group: given[place(group)])
    prints("nothing", b"", "refused 1\n")
    for byte in {*range(256)} - {1, 2, 3}:
        for length in (0, 1, 95, 96, 192):
            prints(f"byte {byte}, then {length}", bytes([byte]) + bytes([1]) * length, "refused 1\n")

    # With each group that is read the smallest margin falls and the number of wrong bits grows.
    asked = []

    def falling(set, group):
        asked.append((set, group))
        return 4000 - place(group), 1

    for count, rest, line in (
        (4095, 0, "4095 -94 4095 0"), (4095, 95, "4095 -94 4095 95"), (4096, 0, "4096 -95 4096 0"),
        (4096, 1, "4096 -95 4096 0"), (4096, 50, "4096 -95 4096 0"), (4096, 95, "4096 -95 4096 0"),
        (4097, 0, "4096 -95 4096 0"), (5000, 7, "4096 -95 4096 0"),
    ):
        asked.clear()
        given = groups(count)
        prints(f"{count} groups, {rest} bytes", b"\3" + given + bytes(rest), f"{header}3 {line}\n", falling)
        check(f"{count} groups as they stand", b"".join(group for _, group in asked) == given[: 96 * 4096])
        check(f"{count} groups of set 3", {set for set, _ in asked} == {saber.SETS[3]})


def damaged(number):
    """A damaged ciphertext gives SHA3-256 of z and its own hash, whatever it decrypts to."""
    set = saber.NUMBERS[number]
    seeds, public_key, secret_key = keys(number, "damaged")
    seed, ciphertext, shared_secret = encapsulated(number, public_key, "damaged")
    secrets = [shared_secret]

    def rejected(label, key, other):
        expected = rejected_secret(seeds[2], other)
        check(f"set {number}: {label}", run("decaps", number, key, other, bytes(32)) == (0, [expected]))
        secrets.append(expected)

    for place in (0, 319, 320 * set.l - 1, 320 * set.l, set.ciphertext - 1):
        rejected(f"byte {place} damaged", secret_key, flipped(ciphertext, place))
    for bit in (10, 8 * set.ciphertext - set.data_width):
        other = with_bit_turned(ciphertext, bit)
        answer = run("decrypt", number, secret_key[: 416 * set.l], other, bytes(32))
        check(f"set {number}: bit {bit} turned decrypts alike", answer == (0, [hashlib.sha3_256(seed).digest()]))
        rejected(f"bit {bit} turned", secret_key, other)
    rejected("any bytes", secret_key, draw(f"selftest {number} damaged", set.ciphertext))
    check(f"set {number}: no two secrets are equal", len({*secrets}) == len(secrets))
    rejected("z decides alone", draw(f"selftest {number} key", set.secret_key - 32) + seeds[2], ciphertext)


def refusals():
    """Each refusal alone and each two together: the earlier is the answer, and no output changes.

    The faults are stated here a second time, so that a slip in the table of calls shows. Those of read_record, whose
    questions have an order of their own, are in `readings`.
    """
    light = saber.SETS[1]
    seed, full = bytes(32), [0] * 256
    key, ciphertext, secret_key = bytes(light.public_key), bytes(light.ciphertext), bytes(light.secret_key)
    over = monomial(255, 1024)
    # call: its sound arguments, then each fault as (place, value, refusal)
    tests = {
        "keygen": (
            [1, seed, seed, seed, key, secret_key],
            (0, 4, 1), (1, seed[1:], 3), (2, seed[1:], 3), (3, seed + b"0", 3), (4, key[1:], 9), (5, b"", 9),
        ),
        "encaps": (
            [1, key, seed, ciphertext, seed],
            (0, 5, 1), (1, key[1:], 4), (2, b"", 3), (3, ciphertext + b"0", 9), (4, seed[1:], 9),
        ),
        "decaps": (
            [1, secret_key, ciphertext, seed],
            (0, 4, 1), (1, secret_key[1:], 5), (2, ciphertext[1:], 6), (3, seed + b"0", 9),
        ),
        "encrypt": (
            [1, key, seed, seed, ciphertext],
            (0, 4, 1), (1, key + b"0", 4), (2, seed[1:], 3), (3, seed + b"0", 3), (4, b"", 9),
        ),
        "decrypt": (
            [1, secret_key[:832], ciphertext, seed],
            (0, 4, 1), (1, secret_key, 5), (2, ciphertext + b"0", 6), (3, b"", 9),
        ),
        "gen_matrix": (
            [1, seed, [0] * 1024],
            (0, 4, 1), (1, seed[1:], 3), (2, full, 9),
        ),
        "gen_secret": (
            [1, seed, [-128, 127] * 256],
            (0, 4294967295, 1), (1, seed + b"0", 3), (2, [127, -128, 0, -4, 4] * 103, 9),
        ),
        **dict.fromkeys(PRODUCTS, (
            [1024, full, full, full],
            (0, 1000, 2), (1, full[1:], 7), (2, full + [0], 7), (1, over, 8), (2, over, 8), (3, [], 9),
        )),
        "round": (
            [full, full],
            (0, full[1:], 7), (0, monomial(0, 8192), 8), (1, full + [0], 9),
        ),
        "recon_data": (
            [1, full, full],
            (0, 4, 1), (1, full[1:], 7), (1, over, 8), (2, full[1:], 9),
        ),
        "recover": (
            [1, full, full, full],
            (0, 4, 1), (1, [], 7), (2, full[1:], 7), (1, over, 8), (2, monomial(0, 8), 8), (3, [], 9),
        ),
        "pack": (
            [10, full, bytes(320)],
            (0, 5, 2), (1, full + [0], 7), (1, over, 8), (2, bytes(319), 9),
        ),
        "unpack": (
            [10, bytes(320), full],
            (0, 1024, 2), (1, bytes(319), 7), (2, full[1:], 9),
        ),
        "write_record": (
            [5, None, 1, ciphertext, bytes(740)],
            (2, 4, 1), (3, ciphertext[1:], 6), (4, bytes(739), 9),
        ),
        "sha3_256": (
            [b"", seed],
            (1, bytes(31), 9), (1, b"", 9),
        ),
        "sha3_512": (
            [b"", bytes(64)],
            (1, bytes(65), 9), (1, seed, 9),
        ),
    }
    refusing = {name for name, call in CALLS.items() if 9 in call.questions}
    check("every call that answers with a refusal is tested", tests.keys() | {"read_record"} == refusing)
    for name, (sound, *faults) in tests.items():
        call = CALLS[name]
        asked = {(place, p.question) for place, p in enumerate(call.parameters) if p.question}
        asked |= {(place, 8) for place in call.limits(sound)} if 8 in call.questions else set()
        check(f"{name}: what is asked of each argument", asked == {(place, number) for place, _, number in faults})
        check(f"{name}: its questions in order", [*call.questions] == sorted({number for _, number in asked}))
        check(f"{name}: sound", run(name, *sound)[0] == 0)
        for some in [*itertools.combinations(faults, 1), *itertools.combinations(faults, 2)]:
            arguments, expected = list(sound), min(refusal for _, _, refusal in some)
            if len({place for place, _, _ in some}) < len(some):
                continue
            for place, bad, _ in some:
                arguments[place] = bad
            outputs = arguments[len(call.inputs) :]
            check(f"{name}: refused with {expected}", run(name, *arguments) == (expected, outputs))
    for number, size in ((4, 1568), (1, 1567), (1, 1569), (1, 0), (2, 1568), (0, 1568), (3, 2304)):
        check(f"lookup: {number}, {size} bytes", run("public_key_of", number, bytes(size)) == (None, [b""]))


SIZES = {1: 736, 2: 1088, 3: 1472}  # of a ciphertext
DOORS = (None, 0, 1, 255, 256, 0x1234, 65535)
WIDE_DOORS = (65536, 65537, 1 << 17, 1 << 24, 0x12345678, 1 << 31, (1 << 32) - 1)
TIMES = (None, 0, 1, 255, 1 << 32, 1 << 63, (1 << 64) - 1)


def records():
    """The layout of A1 and A7 in figures, and that reading and writing undo each other."""
    door, wide, time = 0x1234, 0x12345678, 0x0102030405060708
    for number, stored in ((0, "02"), (1, "01"), (2, "02"), (3, "03")):
        size = SIZES[int(stored)]
        ciphertext = draw(f"selftest record {number}", size)
        for entry, start, length in (
            ((None, None), "0c", size + 2),
            ((door, None), "0d3412", size + 4),
            ((None, time), "0e0807060504030201", size + 10),
            ((door, time), "0f34120807060504030201", size + 12),
            ((0, 0), "0f00000000000000000000", size + 12),
            ((65535, 2**64 - 1), "0fffffffffffffffffffff", size + 12),
            ((65535, None), "0dffff", size + 4),
            ((wide, None), "1c78563412", size + 6),
            ((wide, time), "1e785634120807060504030201", size + 14),
            ((65536, None), "1c00000100", size + 6),
            ((65536, 0), "1e000001000000000000000000", size + 14),
            ((2**32 - 1, None), "1cffffffff", size + 6),
            ((2**32 - 1, 2**64 - 1), "1effffffffffffffffffffffff", size + 14),
        ):
            record = bytes.fromhex(start + stored) + ciphertext
            written = run("write_record", *entry, number, ciphertext, bytes(length))
            check(f"set {number}, {entry}: record", written == (0, [record]))
            read = run("read_record", record, bytes(size))
            check(f"set {number}, {entry}: entry", read == (0, [*entry, int(stored), ciphertext]))
            for wrong in (0, length - 1, length + 1):
                refused = run("write_record", *entry, number, ciphertext, bytes(wrong))
                check(f"set {number}, {entry}: {wrong} bytes", refused == (9, [bytes(wrong)]))

    for entry in itertools.product(DOORS + WIDE_DOORS, TIMES, SIZES):
        ciphertext = draw(f"selftest entry {entry}", SIZES[entry[2]])
        record = laid_record(*entry, ciphertext)
        check(f"{entry}: written", run("write_record", *entry, ciphertext, bytes(len(record))) == (0, [record]))
        check(f"{entry}: read", run("read_record", record, bytes(len(ciphertext))) == (0, [*entry, ciphertext]))


def refusal_of(record, lent):
    """The reader's answer, from the sentences of A1 and A7 alone."""
    if not record or record[0] & 0xE0 or record[0] & 17 == 17 or not record[0] & 4 or not record[0] & 8:
        return 10
    place = 1 + 2 * (record[0] & 1) + 4 * (record[0] & 2) + (record[0] & 16) // 4
    if len(record) <= place:
        return 11
    if record[place] not in SIZES:
        return 1
    if len(record) != place + 1 + SIZES[record[place]]:
        return 11
    if record[0] & 16 and record[3] == record[4] == 0:
        return 12
    return 9 if lent != SIZES[record[place]] else 0


def readings():
    """Every refusal of a read: cases in figures, then every map and many lengths, set bytes and outputs at once."""
    check("read_record: its questions in order", CALLS["read_record"].questions == (10, 11, 1, 11, 12, 9))

    def reads(record, lent, answer):
        read = run("read_record", record, lent_bytes(lent))
        refused = (answer, [None, None, None, lent_bytes(lent)])
        check(f"reading {record[:16].hex()}, {len(record)} bytes, to {lent}", read == refused)

    for start, length, lent, answer in (
        ("", 0, 736, 10), ("00", 1, 0, 10), ("04", 1, 0, 10), ("08", 1, 0, 10), ("1c01", 738, 736, 1),
        ("2c01", 738, 736, 10), ("4c01", 738, 736, 10), ("8c01", 738, 736, 10), ("0401", 738, 736, 10),
        ("0801", 738, 736, 10), ("ff", 748, 736, 10), ("0c", 1, 736, 11), ("0d", 3, 736, 11), ("0e", 9, 736, 11),
        ("0f", 11, 736, 11), ("0c00", 738, 736, 1), ("0c04", 738, 736, 1), ("0cff", 738, 736, 1), ("0d", 4, 736, 1),
        ("0e", 10, 736, 1), ("0f", 12, 736, 1), ("0c01", 2, 736, 11), ("0c01", 737, 736, 11), ("0c01", 739, 736, 11),
        ("0c02", 738, 736, 11), ("0c01", 1090, 1088, 11), ("0c01", 738, 735, 9), ("0c01", 738, 737, 9),
        ("0c01", 738, 0, 9), ("0c01", 738, 1088, 9), ("0f0100000000000000000003", 1484, 1471, 9),
        # wide doors
        ("1c", 1, 736, 11), ("1c", 2, 736, 11), ("1c", 5, 736, 11), ("1c", 6, 736, 1), ("1e", 13, 736, 11),
        ("1e", 14, 736, 1), ("1c0000010004", 742, 736, 1), ("1c0000010001", 6, 736, 11),
        ("1c0000010001", 741, 736, 11), ("1c0000010001", 743, 736, 11), ("1c0000010001", 742, 735, 9),
        ("1e00000100000000000000000003", 1486, 1471, 9), ("1c0000000001", 742, 736, 12),
        ("1c0100000001", 742, 736, 12), ("1cff00000001", 742, 736, 12), ("1c0001000001", 742, 736, 12),
        ("1cffff000001", 742, 736, 12), ("1cffff000002", 1094, 1088, 12), ("1cffff000003", 1478, 1472, 12),
        ("1effff0000ffffffffffffffff01", 750, 736, 12), ("1e00000000010000000000000003", 1486, 1472, 12),
        # both doors, bit 4 with a bit above or without bit 2 or 3
        ("1d", 1, 736, 10), ("1f", 1, 736, 10), ("1d34127856341201", 744, 736, 10), ("1d34123412000001", 744, 736, 10),
        ("1f341278563412000000000000000001", 752, 736, 10), ("1d341201", 740, 736, 10), ("1d7856341201", 742, 736, 10),
        ("10", 1, 0, 10), ("140000010001", 742, 736, 10), ("180000010001", 742, 736, 10),
        ("3c0000010001", 742, 736, 10), ("5c0000010001", 742, 736, 10), ("9c0000010001", 742, 736, 10),
        # two at once
        ("", 0, 5, 10), ("1c", 1, 5, 11), ("0405", 738, 736, 10), ("2c01", 739, 736, 10), ("0c", 1, 5, 11),
        ("0c04", 739, 736, 1), ("0c04", 738, 5, 1), ("0c01", 739, 5, 11), ("1d3412ffff000001", 744, 736, 10),
        ("3cffff000001", 742, 736, 10), ("14ffff000001", 742, 736, 10), ("1cffff0000", 5, 736, 11),
        ("1cff", 2, 736, 11), ("1cffff000004", 742, 736, 1), ("1cffff000000", 742, 736, 1),
        ("1cffff000001", 743, 736, 11), ("1cffff000001", 741, 736, 11), ("1cffff000001", 740, 736, 11),
        ("1cffff000001", 6, 736, 11), ("1cffff000002", 742, 736, 11), ("1cffff000001", 742, 735, 12),
        ("1cffff000001", 742, 0, 12), ("1cffff000001", 742, 1088, 12),
        # more
        ("1cffff0000", 5, 5, 11), ("1cffff000004", 743, 736, 1), ("1cffff000004", 742, 5, 1),
        ("1cffff000001", 743, 5, 11), ("1cffff000001", 741, 5, 11), ("1cffff000004", 743, 5, 1),
        ("3cffff000004", 743, 5, 10), ("1d3412ffff000004", 745, 5, 10),
    ):
        reads(bytes.fromhex(start).ljust(length, b"\0"), lent, answer)

    answers = set()
    for bit_map, byte, size in itertools.product(range(256), (0, 1, 2, 3, 4, 255), SIZES.values()):
        lengths = [1, 5, 6, 12, 14, *(size + head for head in (2, 4, 6, 10, 12, 14, 16))]
        lents = [*((length, size) for length in lengths), *((size + head, 5) for head in (6, 12, 14))]
        # The byte fills what follows the map, but of the first four places all or just one; the others of them hold 0
        for first in ((byte,) * 4, (0, byte, 0, 0), (0, 0, byte, 0), (0, 0, 0, byte)):
            whole = bytes([bit_map, *first]) + bytes([byte]) * 11 + draw("selftest reading", size)
            for length, lent in lents:
                record = whole[:length]
                answer = refusal_of(record, lent)
                answers.add((bit_map >> 4 & 1, answer))
                if answer:
                    reads(record, lent, answer)
                else:
                    entry = run("read_record", record, lent_bytes(lent))
                    again = run("write_record", *entry[1], bytes(length))
                    check(f"map {bit_map}, {length} bytes: write after read", (entry[0], again) == (0, (0, [record])))
    stated = {(bit, answer) for bit in (0, 1) for answer in (0, 1, 9, 10, 11)} | {(1, 12)}
    check("reading: the answers without bit 4 and with it", answers == stated)


def read_before(record, lent):
    """A1's reader, before A7: its answer and the entry, or on a refusal no field and the output as it is lent."""

    def refused(answer):
        return answer, [None, None, None, lent]

    if not record or record[0] & 0xF0 or record[0] & 12 != 12:
        return refused(10)
    door, time = record[0] & 1, record[0] >> 1 & 1
    place = 1 + 2 * door + 8 * time
    if len(record) <= place:
        return refused(11)
    number = record[place]
    if number not in SIZES:
        return refused(1)
    if len(record) != place + 1 + SIZES[number]:
        return refused(11)
    if len(lent) != SIZES[number]:
        return refused(9)
    door = record[1] + 256 * record[2] if door else None
    time = sum(x << 8 * i for i, x in enumerate(record[place - 8 : place])) if time else None
    return 0, [door, time, number, record[place + 1 :]]


def old_records():
    """Old records read as before: what A1's reader accepts gives the same entry, and maps below 16 the same answer.

    What it refuses and A7 accepts has a wide door.
    """
    old, new, answers = Counter(), Counter(), set()  # the maps that A1 accepts, those that just A7 does; A1's answers

    def compare(record, lent):
        before, now = read_before(record, lent), run("read_record", record, lent)
        label = f"{record[:16].hex()}, {len(record)} bytes, to {len(lent)}"
        if before[0] == 0 or not record or record[0] < 16:
            check(f"read as before: {label}", now == before)
            answers.add(before[0])
        if before[0] == 0:
            old[record[0]] += 1
        elif now[0] == 0:
            check(f"a wide door: {label}", record[0] in (28, 30) and now[1][0] > 65535)
            new[record[0]] += 1

    for entry in itertools.product(DOORS, TIMES, SIZES):
        ciphertext = draw(f"selftest old {entry}", SIZES[entry[2]])
        compare(laid_record(*entry, ciphertext), lent_bytes(len(ciphertext)))
    # In each set six doors and six times
    check("old records, each accepted", old == {12: 3, 13: 6 * 3, 14: 6 * 3, 15: 6 * 6 * 3} and not new)

    old.clear()
    for bit_map, byte, size in itertools.product(range(256), (0, 1, 2, 3, 4, 255), SIZES.values()):
        head = bytearray(draw(f"selftest old {bit_map}", 16))
        head[0] = bit_map
        for place in (1, 3, 5, 9, 11, 13):  # wherever a set byte may stand
            head[place] = byte
        whole = bytes(head) + draw("selftest old", size)
        for length, lent in itertools.product((*range(17), *range(size + 1, size + 17)), (size, size + 1)):
            compare(whole[:length], lent_bytes(lent))
    # Of each map one string for each set
    check("strings, some accepted", old == {12: 3, 13: 3, 14: 3, 15: 3} and new == {28: 3, 30: 3})
    check("strings, every answer", answers == {0, 1, 9, 10, 11})


def limits():
    """What coefficients have to lie below, in every list of every call; stated here a second time too."""
    stated = {("round", None): [8192]}
    stated |= {("pack", width): [2**width] for width in (1, 3, 4, 6, 10, 13)}
    stated |= {(name, modulus): [modulus, modulus] for name in PRODUCTS for modulus in (1024, 8192)}
    for number, data in enumerate((16, 8, 16, 64)):
        stated |= {("recon_data", number): [1024], ("recover", number): [1024, data]}
    for (name, number), values in stated.items():
        check(f"{name} {number}: limits", [*CALLS[name].limits([number]).values()] == values)


def spelled(word):
    """What a word spells as a signed list, read byte by byte; or why it spells none."""
    if word == b"-":
        return []
    numbers, negative, digits, large = [], False, 0, False
    for byte in word + b",":
        if byte in b"0123456789":
            number = byte - 48 if digits == 0 else 10 * number + byte - 48
            digits += 1
            large |= number > 127 + negative
        elif byte in b"-" and not negative and digits == 0:
            negative = True
        elif byte in b"," and digits > 0:
            numbers.append(-number if negative else number)
            negative, digits = False, 0
        else:
            return "bad digit"
    return "too large" if large else numbers


def signed_lists():
    """Signed lists, stated by hand: what words spell, why others spell none, and how numbers are written."""
    [output] = CALLS["gen_secret"].outputs

    def read(word):
        try:
            return notation.read_word(word, output.role)
        except notation.Unreadable as reason:
            return str(reason)

    def write(numbers):
        return notation.write_word(numbers, output.role)

    long = b"0" * 5000
    for word, numbers in (
        (b"-", []), (b"0", [0]), (b"-0", [0]), (b"00", [0]), (b"-00", [0]), (b"4", [4]), (b"-4", [-4]), (b"04", [4]),
        (b"-004", [-4]), (b"0004", [4]), (b"127", [127]), (b"-128", [-128]), (b"0127", [127]), (b"-0128", [-128]),
        (b"0,-4,4", [0, -4, 4]), (b"-4,-4", [-4, -4]), (b"-0,0", [0, 0]), (b"-128,127", [-128, 127]),
        (b"-1,00,1", [-1, 0, 1]), (long, [0]), (b"-" + long + b"128,4", [-128, 4]),
        (b"0" + b",-5" * 9000, [0] + [-5] * 9000),
    ):
        check(f"signed list {word[:40]!r}", read(word) == numbers == spelled(word))
    for reason, *words in (
        ("bad digit", b"", b",", b",,", b"0,", b",0", b"0,,0", b"0,-4,", b",0,-4", b"--", b"-,", b",-", b"-,-", b"0,-",
         b"-,0", b"--4", b"4-", b"4-4", b"0-,4", b"+4", b"+", b"0,+4", b"a", b"0a", b"4.", b"4;4", b"4\t", b"4\r",
         b"4\0", b"\xff", b"0x4", b" ", b"4 ", b"0, 4", b"128,", b"x,128", b"-129,-", b"9999,,", b"128x", long + b",-"),
        ("too large", b"128", b"-129", b"0128", b"-0129", b"0,128", b"-129,0", b"255", b"256", b"-256", b"999", b"1000",
         b"65408", b"65535", b"-65536", b"4294967296", b"18446744073709551615", b"18446744073709551616", b"1" + long,
         b"-1" + long, long + b"128", b"127,128", b"0" + b",-5" * 9000 + b",128"),
    ):
        for word in words:
            check(f"signed list {word[:40]!r}", read(word) == reason == spelled(word))
    for numbers, word in (
        ([], b"-"), ([0], b"0"), ([0, -4, 4], b"0,-4,4"), ([-1], b"-1"), ([-128, 127, 0], b"-128,127,0"), ([10], b"10"),
        ([100, -100, 99, -99, 9, -9], b"100,-100,99,-99,9,-9"),
    ):
        check(f"{numbers} written", write(numbers) == word)

    for x in range(-400, 400):
        word, padded = b"%d" % x, b"%06d" % x
        stated = [x] if -128 <= x <= 127 else "too large"
        check(f"{x} read", read(word) == read(padded) == stated == spelled(word) == spelled(padded))
    for x in range(-128, 128):
        check(f"{x} written", write([x]) == b"%d" % x and write([x, x]) == b"%d,%d" % (x, x))
    for length in (0, 1, 2, 3, 255, 256, 257, 512, 768, 1024, 13104, 32761):
        numbers = [x - 128 for x in draw(f"selftest signed {length}", length)]
        word = write(numbers)
        check(f"{length} numbers written and read", read(word) == numbers == spelled(word))
        check(f"{length} numbers: commas", word.count(b",") == max(length - 1, 0))
    for length in range(7):
        words = map(bytes, itertools.product(b"-,0128+", repeat=length))
        check(f"every word of {length} of these bytes", all(read(word) == spelled(word) for word in words))


def lines():
    """Where lines begin and end; the rest of the notation is tested by requests.py."""
    for requests, answers in (
        (b"", b""),
        (b"\n", b"error unknown call\n"),
        (b"\n\n", b"error unknown call\n" * 2),
        (b"# comment", b""),
        (b"# comment\n", b""),
        (b"pack 5 - a5", b"2 a5\n"),
        (b"pack 5 - a5\n", b"2 a5\n"),
        (b"pack 5 - a5\n# comment\npack 5 - A6", b"2 a5\n2 a6\n"),
        (b"pack 5 - a5\r\n", b"2 a5\n"),
        (b"pack 5 - a5\r\npack 5 - a6\r\n", b"2 a5\n2 a6\n"),
        (b"pack 5 - a5\r\r\n", b"error odd count\n"),
        (b"pack 5 - a5\r", b"error odd count\n"),
        (b"pack 5 - a5\rpack 5 - a6\n", b"error odd count\n"),
        (b"\r\n", b"error unknown call\n"),
        (b"# comment\r\n", b""),
        (b"public_key_of 4 -\n", b"-\n"),
        (b"shake128 00 -\n", b"0 -\n"),
        (b"read_record - a5\n", b"10 - - - a5\n"),
        (b"read_record 1c a5\n", b"11 - - - a5\n"),
        (b"write_record 4294967295 - 4 - a5\n", b"1 a5\n"),
        (b"write_record 4294967296 - 4 - a5\n", b"error too large\n"),
        (b"gen_secret 4 - -\n", b"1 -\n"),
        (b"gen_secret 4 - -\r\n", b"1 -\n"),
        (b"gen_secret 4 - -\r", b"error bad digit\n"),
        (b"gen_secret 2 - 0,-04,-0,127,-128", b"3 0,-4,0,127,-128\n"),
        (b"gen_secret 4 - 0,\n4\n", b"error bad digit\nerror unknown call\n"),
    ):
        check(f"lines {requests!r}", notation.answer_lines(requests) == answers)


def main():
    parts = (cases, hashes, random_bytes, packing, ring, splitting, rounding, sampling, weights, residues, margin)
    for part in (*parts, small_noise, margins, refusals, records, readings, old_records, limits, signed_lists, lines):
        part()
    for number in saber.NUMBERS:
        in_place(number)
        damaged(number)
        for turn in range(8):
            demand_3(number, f"demand 3 {turn}")
    print(f"selftest: {counts['checks']} checks, {counts['failed']} failed")
    return 1 if counts["failed"] else 0


if __name__ == "__main__":
    sys.exit(main())
