//! Saber, a key encapsulation, in the three parameter sets of its submission: safe calls of the proved library.
//!
//! Each call writes its outputs whole, or refuses and changes nothing. Outputs have exactly the length of their results, see [`Set`]. A set
//! number is that of a [`Set`], or 0; 0 means the same as 2.
//!
//! What no call can test, and the caller sees to:
//!
//! - **Seeds, z among them, are fresh, unpredictable and used once**: 32 bytes that the system's generator gives for this one call, kept
//!   secret and erased after it. The calls say what goes wrong otherwise.
//! - **Secrets stay on the stack.** No call clears what it leaves below its caller's frame, less than [`STACK`] bytes. To clear it, call
//!   [`clear_stack`] right after the call, from the same function, or run the calls on a stack of your own and erase that.
//! - **Set 2 reads a table of 256 bytes at places that secret bytes decide**, in [`keygen`], [`encaps`], [`decaps`], [`encrypt`] and
//!   [`gen_secret`]. Whoever can watch the processor's cache learns something about them. Sets 1 and 3 have no such address.
#![no_std]

use core::fmt;
use core::mem::MaybeUninit;

/// A parameter set: its number for the calls, the count of polynomials in a vector, and its sizes in bytes.
#[derive(Clone, Copy, Debug, PartialEq, Eq)]
pub struct Set {
    pub number: u32,
    pub rank: usize,
    pub public_key: usize,
    pub secret_key: usize,
    /// The start of a secret key, which is all that decryption needs.
    pub plain_secret: usize,
    pub ciphertext: usize,
}

pub const LIGHTSABER: Set = Set { number: 1, rank: 2, public_key: 672, secret_key: 1568, plain_secret: 832, ciphertext: 736 };
pub const SABER: Set = Set { number: 2, rank: 3, public_key: 992, secret_key: 2304, plain_secret: 1248, ciphertext: 1088 };
pub const FIRESABER: Set = Set { number: 3, rank: 4, public_key: 1312, secret_key: 3040, plain_secret: 1664, ciphertext: 1472 };

/// Bytes of a seed, of z, of a message and of a shared secret.
pub const SEED: usize = 32;

/// Coefficients of a polynomial.
pub const N: usize = 256;

/// Bytes that [`clear_stack`] overwrites, more than a call leaves below its caller's frame.
pub const STACK: usize = 32768;

/// Overwrites [`STACK`] bytes below its caller's frame, and with them what a call left that the same function made just before. It is not
/// inlined, so that its frame lies where the call had its frame.
#[inline(never)]
pub fn clear_stack() {
    let mut room = MaybeUninit::<[u64; STACK / 8]>::uninit();
    let words = room.as_mut_ptr().cast::<u64>();
    for i in 0..STACK / 8 {
        // SAFETY: the word is one of the array's.
        unsafe { words.add(i).write_volatile(0) };
    }
}

/// Why a call was refused: the first of these that applies; [`read_record`] has an order of its own. More may be added.
#[derive(Clone, Copy, Debug, PartialEq, Eq)]
#[non_exhaustive]
#[repr(u8)]
pub enum Refusal {
    UnknownSet = 1,
    UnknownNumber = 2,
    SeedLength = 3,
    PublicKeyLength = 4,
    SecretKeyLength = 5,
    CiphertextLength = 6,
    InputLength = 7,
    CoefficientRange = 8,
    OutputLength = 9,
    RecordMap = 10,
    RecordLength = 11,
    RecordDoor = 12,
}

impl fmt::Display for Refusal {
    fn fmt(&self, f: &mut fmt::Formatter) -> fmt::Result {
        f.write_str(match self {
            Refusal::UnknownSet => "the set number is not 0, 1, 2 or 3, or a record's set byte not 1, 2 or 3",
            Refusal::UnknownNumber => "the packing width is not 1, 3, 4, 6, 10 or 13, or the modulus not 1024 or 8192",
            Refusal::SeedLength => "a seed, z or a message is not 32 bytes",
            Refusal::PublicKeyLength => "the public key does not have its set's length",
            Refusal::SecretKeyLength => "the secret key, or plain secret, does not have its set's length",
            Refusal::CiphertextLength => "the ciphertext does not have its set's length",
            Refusal::InputLength => "an input list is not 256 coefficients, or a string to unpack not 32 x width bytes",
            Refusal::CoefficientRange => "a coefficient is not below its modulus",
            Refusal::OutputLength => "an output does not have the length of its result",
            Refusal::RecordMap => "the record is empty, or its map has bits that no field has, has both doors, or lacks set or ciphertext",
            Refusal::RecordLength => "the record does not have the length that its map and set byte require",
            Refusal::RecordDoor => "the record's door of 4 bytes is 65535 or less",
        })
    }
}

impl core::error::Error for Refusal {}

fn result(answer: u8) -> Result<(), Refusal> {
    Err(match answer {
        0 => return Ok(()),
        1 => Refusal::UnknownSet,
        2 => Refusal::UnknownNumber,
        3 => Refusal::SeedLength,
        4 => Refusal::PublicKeyLength,
        5 => Refusal::SecretKeyLength,
        6 => Refusal::CiphertextLength,
        7 => Refusal::InputLength,
        8 => Refusal::CoefficientRange,
        9 => Refusal::OutputLength,
        10 => Refusal::RecordMap,
        11 => Refusal::RecordLength,
        12 => Refusal::RecordDoor,
        _ => unreachable!("no call answers {answer}"),
    })
}

/// Declares each exported function, a slice as a pointer and a count, and the safe call of it: in brackets its number, if it has one, then
/// the inputs and the outputs.
macro_rules! calls {
    ($($(#[$doc:meta])* $name:ident = $export:ident [$($number:ident)?] ($($input:ident: $from:ty),+) => ($($output:ident: $to:ty),+);)+) => {
        extern "C" {
            $(fn $export($($number: u32,)? $($input: *const $from, _: usize,)+ $($output: *mut $to, _: usize),+) -> u8;)+
        }
        $(
            $(#[$doc])*
            pub fn $name($($number: u32,)? $($input: &[$from],)+ $($output: &mut [$to]),+) -> Result<(), Refusal> {
                // SAFETY: the pointers and counts are of slices, and `&mut` keeps the outputs apart from all else. The function reads
                // and writes nothing else.
                result(unsafe { $export($($number,)? $($input.as_ptr(), $input.len(),)+ $($output.as_mut_ptr(), $output.len()),+) })
            }
        )+
    };
}

calls! {
    /// Makes a key pair from two seeds and z, the bytes of which rejected secrets are made, 32 bytes each. Whoever guesses the secret seed
    /// has the secret key. Whoever guesses z can tell a rejected secret from a shared one. With a matrix seed used twice, work against one
    /// key also serves against the other.
    keygen = saber_keygen [set] (matrix_seed: u8, secret_seed: u8, z: u8) => (public_key: u8, secret_key: u8);
    /// Encapsulation: from a public key and a seed of 32 bytes, a ciphertext and the shared secret of 32 bytes. Whoever guesses the seed
    /// has the shared secret, and a seed used twice with one key gives the same secret twice.
    encaps = saber_encaps [set] (public_key: u8, seed: u8) => (ciphertext: u8, shared_secret: u8);
    /// Decapsulation: the shared secret of 32 bytes. A ciphertext that was not made for this key is no refusal: it gives the rejected
    /// secret, SHA3-256 of z followed by SHA3-256 of the ciphertext.
    decaps = saber_decaps [set] (secret_key: u8, ciphertext: u8) => (shared_secret: u8);
    /// Encrypts a message of 32 bytes with a secret seed of 32 bytes. Whoever guesses the seed reads the message, and a seed used twice
    /// with one key shows in which bits two messages differ.
    encrypt = saber_encrypt [set] (public_key: u8, message: u8, seed: u8) => (ciphertext: u8);
    /// Decrypts to a message of 32 bytes with the plain secret, the first 416 x rank bytes of a secret key. By itself it is not safe
    /// against chosen ciphertexts: whoever can have ciphertexts of their own decrypted and sees the messages finds the plain secret.
    /// Programs that exchange secrets use [`decaps`].
    decrypt = saber_decrypt [set] (plain_secret: u8, ciphertext: u8) => (message: u8);
    /// The matrix of a seed of 32 bytes: 256 x rank x rank coefficients below 8192, row by row.
    gen_matrix = saber_gen_matrix [set] (seed: u8) => (matrix: u16);
    /// The secret of a seed of 32 bytes: 256 x rank signed coefficients, in -mu/2 .. mu/2: -5 .. 5 in set 1, -4 .. 4 in set 2, -3 .. 3 in
    /// set 3. No residue is written: before packing or multiplying, a caller adds the modulus to each negative one, 8192, or 1024 for a
    /// product modulo 1024.
    gen_secret = saber_gen_secret [set] (seed: u8) => (secret: i8);
    /// The product of two polynomials below the modulus, 1024 or 8192, where X to the 256 is -1.
    poly_mul = saber_poly_mul [modulus] (a: u16, b: u16) => (product: u16);
    /// The same product as [`poly_mul`], made by splitting its factors into halves.
    poly_mul_karatsuba = saber_poly_mul_karatsuba [modulus] (a: u16, b: u16) => (product: u16);
    /// Rounds coefficients below 8192 to coefficients below 1024.
    round = saber_round [] (x: u16) => (rounded: u16);
    /// Reconciliation data, below 1024 / g, of coefficients w below 1024.
    recon_data = saber_recon_data [set] (w: u16) => (data: u16);
    /// Recovers message bits, a 0 or 1 a coefficient, from v below 1024 and data below 1024 / g.
    recover = saber_recover [set] (v: u16, data: u16) => (bits: u16);
    /// Packs 256 coefficients of `width` bits into 32 x width bytes, least significant bit first.
    pack = saber_pack [width] (coefficients: u16) => (bytes: u8);
    /// Unpacks 32 x width bytes into 256 coefficients of `width` bits.
    unpack = saber_unpack [width] (bytes: u8) => (coefficients: u16);
    /// SHAKE-128 fills an output of any length and never refuses.
    shake128 = saber_shake128 [] (input: u8) => (output: u8);
    /// SHA3-256, to 32 bytes.
    sha3_256 = saber_sha3_256 [] (input: u8) => (digest: u8);
    /// SHA3-512, to 64 bytes.
    sha3_512 = saber_sha3_512 [] (input: u8) => (digest: u8);
}

extern "C" {
    fn saber_public_key_offset(set: u32, secret_key_count: usize) -> usize;
    fn saber_public_key_length(set: u32, secret_key_count: usize) -> usize;
}

/// The public key inside a secret key, no copy. It is empty where the set is unknown or the secret key does not have its length.
pub fn public_key_of(set: u32, secret_key: &[u8]) -> &[u8] {
    // SAFETY: both functions only compute with the two numbers.
    let (offset, length) = unsafe { (saber_public_key_offset(set, secret_key.len()), saber_public_key_length(set, secret_key.len())) };
    &secret_key[offset..offset + length]
}

extern "C" {
    fn saber_write_record(
        has_door: u8,
        door: u32,
        has_time: u8,
        time: u64,
        set: u32,
        ciphertext: *const u8,
        ciphertext_count: usize,
        record: *mut u8,
        record_count: usize,
    ) -> u8;
    fn saber_read_record(
        record: *const u8,
        record_count: usize,
        has_door: *mut u8,
        door: *mut u32,
        has_time: *mut u8,
        time: *mut u64,
        set: *mut u32,
        ciphertext: *mut u8,
        ciphertext_count: usize,
    ) -> u8;
}

/// What a record holds besides its ciphertext. The set's number is 1, 2 or 3.
#[derive(Clone, Copy, Debug, PartialEq, Eq)]
pub struct Entry {
    pub door: Option<u32>,
    pub time: Option<u64>,
    pub set: u32,
}

/// Writes the record of an entry: a byte with a bit map and then the fields whose bit stands, low bytes first: door (bit 0, 2 bytes, up to
/// 65535; or bit 4, 4 bytes, above), time (bit 1, 8 bytes, any value), set (bit 2, 1 byte), ciphertext (bit 3, its set's length). So it
/// has 2 bytes, 2 more with a door up to 65535 or 4 more with one above, 8 more with a time, and the ciphertext. Set 0 is stored as the set
/// that it means. Writing and [`read_record`] undo each other.
pub fn write_record(door: Option<u32>, time: Option<u64>, set: u32, ciphertext: &[u8], record: &mut [u8]) -> Result<(), Refusal> {
    // SAFETY: as for the calls above.
    result(unsafe {
        saber_write_record(
            door.is_some().into(),
            door.unwrap_or(0),
            time.is_some().into(),
            time.unwrap_or(0),
            set,
            ciphertext.as_ptr(),
            ciphertext.len(),
            record.as_mut_ptr(),
            record.len(),
        )
    })
}

/// Reads a record and copies its ciphertext out. The ciphertext has the record's length less 2, less 2 more if `record[0]` has bit 0, less
/// 4 more if it has bit 4, less 8 more if it has bit 1; where there is no such length the read is refused. Asked are, in this order: the
/// map, whether there is a set byte, that byte, the record's length, whether a door of 4 bytes is above 65535, and the ciphertext's length.
pub fn read_record(record: &[u8], ciphertext: &mut [u8]) -> Result<Entry, Refusal> {
    let (mut has_door, mut door, mut has_time, mut time, mut set) = (0, 0, 0, 0, 0);
    // SAFETY: as for the calls above; each number lent is a variable of its own.
    result(unsafe {
        saber_read_record(
            record.as_ptr(),
            record.len(),
            &mut has_door,
            &mut door,
            &mut has_time,
            &mut time,
            &mut set,
            ciphertext.as_mut_ptr(),
            ciphertext.len(),
        )
    })?;
    Ok(Entry { door: (has_door != 0).then_some(door), time: (has_time != 0).then_some(time), set })
}
