//! One side makes keys, the other encapsulates a secret to the public key, the first decapsulates it.
use std::fs::File;
use std::io::Read;

use saber::{Set, FIRESABER, LIGHTSABER, SABER, SEED};

type Anything = Box<dyn std::error::Error>;

fn random_seed() -> Result<[u8; SEED], Anything> {
    let mut seed = [0; SEED];
    File::open("/dev/urandom")?.read_exact(&mut seed)?;
    Ok(seed)
}

fn hex(bytes: &[u8]) -> String {
    bytes.iter().map(|byte| format!("{byte:02x}")).collect()
}

fn round_trip(name: &str, set: Set) -> Result<(), Anything> {
    let mut public_key = vec![0; set.public_key];
    let mut secret_key = vec![0; set.secret_key];
    saber::keygen(set.number, &random_seed()?, &random_seed()?, &random_seed()?, &mut public_key, &mut secret_key)?;

    let mut ciphertext = vec![0; set.ciphertext];
    let mut sent = [0; SEED];
    saber::encaps(set.number, &public_key, &random_seed()?, &mut ciphertext, &mut sent)?;

    let mut received = [0; SEED];
    saber::decaps(set.number, &secret_key, &ciphertext, &mut received)?;
    saber::clear_stack();

    println!("{name}: public key {} bytes, secret key {}, ciphertext {}", public_key.len(), secret_key.len(), ciphertext.len());
    println!("  sent     {}", hex(&sent));
    println!("  received {}", hex(&received));
    Ok(())
}

fn main() -> Result<(), Anything> {
    round_trip("LightSaber", LIGHTSABER)?;
    round_trip("Saber", SABER)?;
    round_trip("FireSaber", FIRESABER)
}
