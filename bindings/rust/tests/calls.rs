use saber::{Entry, Refusal, Set, FIRESABER, LIGHTSABER, N, SABER, SEED};

struct Keys {
    public: Vec<u8>,
    secret: Vec<u8>,
}

fn keys(number: u32, set: Set) -> Keys {
    let mut keys = Keys { public: vec![0; set.public_key], secret: vec![0; set.secret_key] };
    assert_eq!(saber::keygen(number, &[1; SEED], &[2; SEED], &[3; SEED], &mut keys.public, &mut keys.secret), Ok(()));
    keys
}

fn round_trip(number: u32, set: Set) {
    let keys = keys(number, set);
    let (mut ciphertext, mut sent, mut received) = (vec![0; set.ciphertext], [0; SEED], [0; SEED]);
    assert_eq!(saber::encaps(number, &keys.public, &[4; SEED], &mut ciphertext, &mut sent), Ok(()));
    assert_eq!(saber::decaps(number, &keys.secret, &ciphertext, &mut received), Ok(()));
    assert_eq!(sent, received);

    let (mut message, mut hashed) = ([0; SEED], [0; SEED]);
    assert_eq!(saber::decrypt(number, &keys.secret[..set.plain_secret], &ciphertext, &mut message), Ok(()));
    assert_eq!(saber::sha3_256(&[4; SEED], &mut hashed), Ok(()));
    assert_eq!(message, hashed);

    ciphertext[0] ^= 1;
    assert_eq!(saber::decaps(number, &keys.secret, &ciphertext, &mut received), Ok(()));
    assert_ne!(sent, received);
    let mut rejected = [0; SEED];
    assert_eq!(saber::sha3_256(&ciphertext, &mut hashed), Ok(()));
    assert_eq!(saber::sha3_256(&[[3; SEED], hashed].concat(), &mut rejected), Ok(()));
    assert_eq!(rejected, received);
}

#[test]
fn round_trip_of_every_set() {
    for (number, set) in [(0, SABER), (1, LIGHTSABER), (2, SABER), (3, FIRESABER)] {
        round_trip(number, set);
    }
}

#[test]
fn the_public_key_is_a_part_of_the_secret_key() {
    for set in [LIGHTSABER, SABER, FIRESABER] {
        let keys = keys(set.number, set);
        let inside = saber::public_key_of(set.number, &keys.secret);
        assert_eq!(inside, keys.public);
        assert_eq!(inside.as_ptr(), keys.secret[set.plain_secret..].as_ptr());
        assert!(saber::public_key_of(4, &keys.secret).is_empty());
        assert!(saber::public_key_of(set.number, &keys.secret[1..]).is_empty());
    }
}

#[test]
fn refusals_leave_outputs_alone() {
    let keys = keys(2, SABER);
    let (mut ciphertext, mut shared) = ([0xa5; 1088], [0xa5; SEED]);
    let mut encaps = |set, public_key: &[u8], seed: &[u8]| saber::encaps(set, public_key, seed, &mut ciphertext, &mut shared);
    assert_eq!(encaps(4, &keys.public, &[0; 31]), Err(Refusal::UnknownSet));
    assert_eq!(encaps(2, &keys.public[1..], &[0; 31]), Err(Refusal::SeedLength));
    assert_eq!(encaps(2, &keys.public[1..], &[0; 32]), Err(Refusal::PublicKeyLength));
    assert_eq!(encaps(1, &keys.public[..672], &[0; 32]), Err(Refusal::OutputLength));
    assert_eq!(saber::decaps(2, &[], &[], &mut shared), Err(Refusal::SecretKeyLength));
    assert_eq!(saber::decaps(2, &keys.secret, &[], &mut shared), Err(Refusal::CiphertextLength));
    assert_eq!((ciphertext, shared), ([0xa5; 1088], [0xa5; SEED]));

    let mut list = [0xa5a5; N];
    for product in [saber::poly_mul, saber::poly_mul_karatsuba] {
        assert_eq!(product(1000, &[0; N], &[0; N], &mut list), Err(Refusal::UnknownNumber));
        assert_eq!(product(1024, &[0; N], &[0; 255], &mut list), Err(Refusal::InputLength));
        assert_eq!(product(1024, &[0; N], &[1024; N], &mut list), Err(Refusal::CoefficientRange));
        assert_eq!(product(1024, &[0; N], &[0; N], &mut list[1..]), Err(Refusal::OutputLength));
    }
    assert_eq!(saber::unpack(10, &[0; 320], &mut list[1..]), Err(Refusal::OutputLength));
    assert_eq!(list, [0xa5a5; N]);
}

// Signed and small; the residues, packed, are the plain secret of a secret key.
#[test]
fn secrets_are_signed() {
    for (number, set, most) in [(0, SABER, 4), (1, LIGHTSABER, 5), (2, SABER, 4), (3, FIRESABER, 3)] {
        let mut secret = vec![i8::MIN; N * set.rank];
        assert_eq!(saber::gen_secret(number, &[2; SEED], &mut secret), Ok(()));
        assert_eq!((secret.iter().min(), secret.iter().max()), (Some(&-most), Some(&most)));
        let mut plain_secret = vec![];
        for polynomial in secret.chunks(N) {
            let residues: Vec<u16> = polynomial.iter().map(|&x| i16::from(x).rem_euclid(8192) as u16).collect();
            let mut packed = [0; 416];
            assert_eq!(saber::pack(13, &residues, &mut packed), Ok(()));
            plain_secret.extend(packed);
        }
        assert_eq!(plain_secret, keys(number, set).secret[..set.plain_secret]);

        let mut lent = vec![i8::MIN; N * set.rank];
        assert_eq!(saber::gen_secret(4, &[2; SEED], &mut lent), Err(Refusal::UnknownSet));
        assert_eq!(saber::gen_secret(number, &[2; 31], &mut lent), Err(Refusal::SeedLength));
        assert_eq!(saber::gen_secret(number, &[2; SEED], &mut lent[1..]), Err(Refusal::OutputLength));
        assert_eq!(lent, vec![i8::MIN; N * set.rank]);
    }
}

// Times X to the place: coefficients move up, and those that pass X to the 255 change their sign.
#[test]
fn products_by_monomials() {
    for modulus in [1024, 8192] {
        let a: [u16; N] = std::array::from_fn(|i| 37 * i as u16 % modulus);
        for place in [0, 1, 15, 16, 127, 128, 255] {
            let mut monomial = [0; N];
            monomial[place] = 1;
            let moved = std::array::from_fn(|i| if i < place { (modulus - a[N + i - place]) % modulus } else { a[i - place] });
            for product in [saber::poly_mul, saber::poly_mul_karatsuba] {
                let mut list = [0xa5a5; N];
                assert_eq!(product(modulus.into(), &a, &monomial, &mut list), Ok(()));
                assert_eq!(list, moved);
            }
        }
    }
}

// An entry's record by hand, without its ciphertext.
fn record_start(entry: Entry) -> Vec<u8> {
    let (door_bit, door_size) = entry.door.map_or((0, 0), |door| if door < 65536 { (1, 2) } else { (16, 4) });
    let mut start = vec![12 + door_bit + 2 * u8::from(entry.time.is_some())];
    start.extend(&entry.door.unwrap_or(0).to_le_bytes()[..door_size]);
    start.extend(entry.time.iter().flat_map(|time| time.to_le_bytes()));
    start.push(entry.set as u8);
    start
}

#[test]
fn records_are_written_and_read() {
    for (number, set) in [(0, SABER), (1, LIGHTSABER), (2, SABER), (3, FIRESABER)] {
        let ciphertext: Vec<u8> = (0..set.ciphertext).map(|i| (i * 7 + 1) as u8).collect();
        for door in [None, Some(0), Some(0x1234), Some(65535), Some(65536), Some(0x1234_5678), Some(u32::MAX)] {
            for time in [None, Some(0), Some(0x0102_0304_0506_0708), Some(u64::MAX)] {
                let entry = Entry { door, time, set: set.number };
                let expected = [record_start(entry), ciphertext.clone()].concat();
                let mut record = vec![0xa5; expected.len()];
                assert_eq!(saber::write_record(door, time, number, &ciphertext, &mut record), Ok(()));
                assert_eq!(record, expected);
                let mut read = vec![0xa5; set.ciphertext];
                assert_eq!(saber::read_record(&record, &mut read), Ok(entry));
                assert_eq!(read, ciphertext);
            }
        }
    }
}

#[test]
fn refused_records_leave_outputs_alone() {
    let (sound, mut record) = ([7; 736], [0xa5; 740]);
    assert_eq!(saber::write_record(Some(5), None, 4, &sound[1..], &mut record), Err(Refusal::UnknownSet));
    assert_eq!(saber::write_record(Some(5), None, 1, &sound[1..], &mut record), Err(Refusal::CiphertextLength));
    assert_eq!(saber::write_record(Some(5), None, 1, &sound, &mut record[1..]), Err(Refusal::OutputLength));
    assert_eq!(saber::write_record(Some(5), Some(5), 1, &sound, &mut record), Err(Refusal::OutputLength));
    assert_eq!(record, [0xa5; 740]);
    assert_eq!(saber::write_record(Some(5), None, 1, &sound, &mut record), Ok(()));

    let mut ciphertext = [0xa5; 736];
    let mut read = |record: &[u8]| saber::read_record(record, &mut ciphertext);
    assert_eq!(read(&[]), Err(Refusal::RecordMap));
    assert_eq!(read(&[&[0x1d], &record[1..]].concat()), Err(Refusal::RecordMap));
    assert_eq!(read(&record[..3]), Err(Refusal::RecordLength));
    assert_eq!(read(&[&record[..3], &[0], &record[4..]].concat()), Err(Refusal::UnknownSet));
    assert_eq!(read(&record[..739]), Err(Refusal::RecordLength));
    assert_eq!(read(&[&record[..], &[0]].concat()), Err(Refusal::RecordLength));
    assert_eq!(read(&[&[0x1c, 0xff, 0xff, 0, 0], &record[3..]].concat()), Err(Refusal::RecordDoor));
    assert_eq!(read(&[&[0x1c, 0xff, 0xff, 0, 0], &record[3..739]].concat()), Err(Refusal::RecordLength));
    assert_eq!(saber::read_record(&record, &mut ciphertext[1..]), Err(Refusal::OutputLength));
    let narrow = [&[0x1c, 0xff, 0xff, 0, 0], &record[3..]].concat();
    assert_eq!(saber::read_record(&narrow, &mut ciphertext[1..]), Err(Refusal::RecordDoor));
    assert_eq!(ciphertext, [0xa5; 736]);
}

#[test]
fn empty_slices() {
    assert_eq!(saber::shake128(&[], &mut []), Ok(()));
    assert_eq!(saber::sha3_256(&[], &mut []), Err(Refusal::OutputLength));
    assert_eq!(saber::round(&[], &mut []), Err(Refusal::InputLength));
}
