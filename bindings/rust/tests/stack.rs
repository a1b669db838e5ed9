//! What calls leave on the stack, with `clear_stack` right after them and without: no 16 bytes of a secret may be there once it is cleared,
//! and without the clearing some must be found, or the search is wrong.
use std::collections::{HashMap, HashSet};

use saber::{Set, FIRESABER, LIGHTSABER, N, SABER, SEED};

const WINDOW: usize = 16;
const DEPTH: usize = 2 * saber::STACK;

/// Copies what lies below its own frame, highest address first. Rust does not define what is read there, so the reads are volatile.
#[inline(never)]
fn copy_below(copy: &mut Vec<u8>) {
    let here = 0u8;
    let top = std::ptr::addr_of!(here) as usize;
    for i in 1..=DEPTH {
        // SAFETY: the stack of a test's thread is mapped that far down.
        copy.push(unsafe { ((top - i) as *const u8).read_volatile() });
    }
}

/// Makes a call and clears the stack after it, or not, both in the function where it stands; then what is on the stack below.
macro_rules! left_by {
    ($call:expr, $clearing:expr) => {{
        let mut copy = Vec::with_capacity(DEPTH);
        assert_eq!($call, Ok(()));
        if $clearing {
            saber::clear_stack();
        }
        copy_below(&mut copy);
        copy.reverse();
        copy
    }};
}

#[derive(Default)]
struct Secrets(HashMap<[u8; WINDOW], &'static str>);

impl Secrets {
    /// All `WINDOW` bytes in a row, but for those of which fewer than 4 are not 0: a cleared stack may hold them too.
    fn know(&mut self, name: &'static str, bytes: &[u8]) {
        let rows = bytes.windows(WINDOW).filter(|row| row.iter().filter(|&&byte| byte != 0).count() >= 4);
        self.0.extend(rows.map(|row| (row.try_into().unwrap(), name)));
    }

    /// The signed secret of a seed, and as residues modulo 8192 and modulo 65536.
    fn know_secret(&mut self, names: [&'static str; 3], set: Set, seed: &[u8]) {
        let mut list = vec![0; N * set.rank];
        assert_eq!(saber::gen_secret(set.number, seed, &mut list), Ok(()));
        let words = |mask: u16| -> Vec<u8> { list.iter().flat_map(|&x| (i16::from(x) as u16 & mask).to_le_bytes()).collect() };
        self.know(names[0], &list.iter().map(|&x| x as u8).collect::<Vec<_>>());
        self.know(names[1], &words(8191));
        self.know(names[2], &words(65535));
    }

    fn found(&self, stack: &[u8]) -> HashSet<&'static str> {
        stack.windows(WINDOW).filter_map(|row| self.0.get(row).copied()).collect()
    }
}

struct Round {
    set: Set,
    seeds: [[u8; SEED]; 4],
    public_key: Vec<u8>,
    secret_key: Vec<u8>,
    ciphertext: Vec<u8>,
    shared_secret: [u8; SEED],
}

impl Round {
    fn new(set: Set) -> Round {
        let seeds = std::array::from_fn(|i| std::array::from_fn(|k| (77 * (SEED * i + k) + 1 + set.number as usize) as u8));
        let (public_key, secret_key) = (vec![0; set.public_key], vec![0; set.secret_key]);
        Round { set, seeds, public_key, secret_key, ciphertext: vec![0; set.ciphertext], shared_secret: [0; SEED] }
    }

    fn keygen(&mut self, clearing: bool) -> Vec<u8> {
        let [matrix_seed, secret_seed, z, _] = &self.seeds;
        let (number, public_key, secret_key) = (self.set.number, &mut self.public_key, &mut self.secret_key);
        left_by!(saber::keygen(number, matrix_seed, secret_seed, z, public_key, secret_key), clearing)
    }

    fn encaps(&mut self, clearing: bool) -> Vec<u8> {
        let (number, ciphertext, shared_secret) = (self.set.number, &mut self.ciphertext, &mut self.shared_secret);
        left_by!(saber::encaps(number, &self.public_key, &self.seeds[3], ciphertext, shared_secret), clearing)
    }

    fn decaps(&mut self, clearing: bool) -> Vec<u8> {
        let mut shared_secret = [0; SEED];
        let left = left_by!(saber::decaps(self.set.number, &self.secret_key, &self.ciphertext, &mut shared_secret), clearing);
        assert_eq!(shared_secret, self.shared_secret);
        left
    }

    /// What keygen and decaps know.
    fn of_key(&self) -> Secrets {
        let mut secrets = Secrets::default();
        secrets.know("z", &self.seeds[2]);
        secrets.know("the plain secret", &self.secret_key[..self.set.plain_secret]);
        secrets.know_secret(["the secret", "the secret modulo 8192", "the secret modulo 65536"], self.set, &self.seeds[1]);
        secrets
    }

    /// What encaps and decaps know: m, k, r, the secret of r and the shared secret, which is SHA3-256 of k and the ciphertext's hash.
    fn know_ciphertext(&self, secrets: &mut Secrets) {
        let (mut m, mut kr, mut hash, mut shared_secret) = ([0; SEED], [0; 2 * SEED], [0; SEED], [0; SEED]);
        assert_eq!(saber::sha3_256(&self.seeds[3], &mut m), Ok(()));
        assert_eq!(saber::sha3_256(&self.public_key, &mut hash), Ok(()));
        assert_eq!(saber::sha3_512(&[m, hash].concat(), &mut kr), Ok(()));
        let (k, r) = kr.split_at(SEED);
        assert_eq!(saber::sha3_256(&self.ciphertext, &mut hash), Ok(()));
        assert_eq!(saber::sha3_256(&[k, &hash].concat(), &mut shared_secret), Ok(()));
        assert_eq!(shared_secret, self.shared_secret);
        for (name, bytes) in [("m", &m[..]), ("k", k), ("r", r), ("the shared secret", &shared_secret)] {
            secrets.know(name, bytes);
        }
        secrets.know_secret(["the secret of r", "the secret of r modulo 8192", "the secret of r modulo 65536"], self.set, r);
    }
}

fn look(call: &str, set: Set, secrets: &Secrets, left: &[u8], cleared: &[u8]) {
    assert!(!secrets.found(left).is_empty(), "no secret is found that {call} of set {} left", set.number);
    let found = secrets.found(cleared);
    assert!(found.is_empty(), "{call} of set {}, cleared, leaves {found:?}", set.number);
}

fn no_secret_is_left(set: Set) {
    let mut round = Round::new(set);
    let (left, cleared) = (round.keygen(false), round.keygen(true));
    let mut secrets = round.of_key();
    secrets.know("the secret seed", &round.seeds[1]);
    look("keygen", set, &secrets, &left, &cleared);

    let (left, cleared) = (round.encaps(false), round.encaps(true));
    secrets = Secrets::default();
    secrets.know("the seed", &round.seeds[3]);
    round.know_ciphertext(&mut secrets);
    look("encaps", set, &secrets, &left, &cleared);

    let (left, cleared) = (round.decaps(false), round.decaps(true));
    secrets = round.of_key();
    round.know_ciphertext(&mut secrets);
    look("decaps", set, &secrets, &left, &cleared);
}

#[test]
fn clear_stack_leaves_no_secret() {
    for set in [LIGHTSABER, SABER, FIRESABER] {
        no_secret_is_left(set);
    }
}
