//! SHA-256, and dates.

use formats::date::date_text;
use formats::sha256::{sum_of, sum_of_bytes};

/// The examples of FIPS 180-4 and of the NIST's test vectors, and lengths around the ends of blocks.
#[test]
fn sums() {
    let repeated = |byte: u8, count: usize| vec![byte; count];
    let vectors: [(Vec<u8>, &str); 9] = [
        (vec![], "e3b0c44298fc1c149afbf4c8996fb92427ae41e4649b934ca495991b7852b855"),
        (b"abc".to_vec(), "ba7816bf8f01cfea414140de5dae2223b00361a396177a9cb410ff61f20015ad"),
        (
            b"abcdbcdecdefdefgefghfghighijhijkijkljklmklmnlmnomnopnopq".to_vec(),
            "248d6a61d20638b8e5c026930c3e6039a33ce45964ff2167f6ecedd419db06c1",
        ),
        (vec![0xbd], "68325720aabd7c82f30f554b313d0570c95accbb7dc4b5aae11204c08ffe732b"),
        (repeated(0, 55), "02779466cdec163811d078815c633f21901413081449002f24aa3e80f0b88ef7"),
        (repeated(0, 56), "d4817aa5497628e7c77e6b606107042bbba3130888c5f47a375e6179be789fbb"),
        (repeated(0, 57), "65a16cb7861335d5ace3c60718b5052e44660726da4cd13bb745381b235a1785"),
        (repeated(0, 64), "f5a5fd42d16a20302798ef6ed309979b43003d2320d9f0e8ea9831a92759fb4b"),
        (
            repeated(b'a', 1_000_000),
            "cdc76e5c9914fb9281a1c7e284d73e67f1809a48a497200e046d39ccc7112cd0",
        ),
    ];
    for (bytes, sum) in vectors {
        assert_eq!(sum_of_bytes(&bytes).to_string(), sum, "{} bytes", bytes.len());
        assert_eq!(sum_of(bytes.as_slice()).expect("bytes").to_string(), sum);
    }
}

#[test]
fn dates() {
    let dates = [
        (0, "1970-01-01 00:00:00 UTC"),
        (86_399, "1970-01-01 23:59:59 UTC"),
        (951_782_400, "2000-02-29 00:00:00 UTC"),
        (951_868_800, "2000-03-01 00:00:00 UTC"),
        (1_763_312_405, "2025-11-16 17:00:05 UTC"),
        (4_107_542_399, "2100-02-28 23:59:59 UTC"),
        (4_107_542_400, "2100-03-01 00:00:00 UTC"),
    ];
    for (seconds, text) in dates {
        assert_eq!(date_text(seconds), text);
    }
}
