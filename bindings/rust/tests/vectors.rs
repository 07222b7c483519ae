//! Published vectors, in both directions, fed whole and unit by unit.

mod common;

use common::{bits, bytes, fed, packed};
use conguraha::{
    aes_decrypt, aes_encrypt, aes_expand, cbc_block, cbc_neighbour, counter_place, cts_decrypt,
    cts_encrypt, forecast, Direction, Mode, Session,
};

const KEY_128: &str = "2b7e151628aed2a6abf7158809cf4f3c";
const KEY_192: &str = "8e73b0f7da0e6452c810f32b809079e562f8ead2522c6b7b";
const KEY_256: &str = "603deb1015ca71be2b73aef0857d77811f352c073b6108d72d9810a30914dff4";
const IV: &str = "000102030405060708090a0b0c0d0e0f";
const COUNTER: &str = "f0f1f2f3f4f5f6f7f8f9fafbfcfdfeff";
const TEXT: &str = "6bc1bee22e409f96e93d7e117393172aae2d8a571e03ac9c9eb76fac45af8e51\
     30c81c46a35ce411e5fbc1191a0a52eff69f2445df4f9b17ad2b417be66c3710";

/// SP 800-38A, appendix F: mode, n, key, IV, and what TEXT becomes, or its front.
type Vector = (Mode, usize, &'static str, &'static str, &'static str);

#[rustfmt::skip]
const VECTORS: [Vector; 21] = [
    // F.1.1
    (Mode::Ecb, 128, KEY_128, "",
     "3ad77bb40d7a3660a89ecaf32466ef97f5d3d58503b9699de785895a96fdbaaf\
      43b1cd7f598ece23881b00e3ed0306887b0c785e27e8ad3f8223207104725dd4"),
    // F.1.3
    (Mode::Ecb, 128, KEY_192, "",
     "bd334f1d6e45f25ff712a214571fa5cc974104846d0ad3ad7734ecb3ecee4eef\
      ef7afd2270e2e60adce0ba2face6444e9a4b41ba738d6c72fb16691603c18e0e"),
    // F.1.5
    (Mode::Ecb, 128, KEY_256, "",
     "f3eed1bdb5d2a03c064b5a7e3db181f8591ccb10d410ed26dc5ba74a31362870\
      b6ed21b99ca6f4f9f153e7b1beafed1d23304b7a39f9f3ff067d8d8f9e24ecc7"),
    // F.2.1
    (Mode::Cbc, 128, KEY_128, IV,
     "7649abac8119b246cee98e9b12e9197d5086cb9b507219ee95db113a917678b2\
      73bed6b8e3c1743b7116e69e222295163ff1caa1681fac09120eca307586e1a7"),
    // F.2.3
    (Mode::Cbc, 128, KEY_192, IV,
     "4f021db243bc633d7178183a9fa071e8b4d9ada9ad7dedf4e5e738763f69145a\
      571b242012fb7ae07fa9baac3df102e008b0e27988598881d920a9e64f5615cd"),
    // F.2.5
    (Mode::Cbc, 128, KEY_256, IV,
     "f58c4c04d6e5f1ba779eabfb5f7bfbd69cfc4e967edb808d679f777bc6702c7d\
      39f23369a9d9bacfa530e26304231461b2eb05e2c39be9fcda6c19078c6a9d1b"),
    // F.3.1
    (Mode::Cfb, 1, KEY_128, IV, "68b3"),
    // F.3.3
    (Mode::Cfb, 1, KEY_192, IV, "9359"),
    // F.3.5
    (Mode::Cfb, 1, KEY_256, IV, "9029"),
    // F.3.7
    (Mode::Cfb, 8, KEY_128, IV, "3b79424c9c0dd436bace9e0ed4586a4f32b9"),
    // F.3.9
    (Mode::Cfb, 8, KEY_192, IV, "cda2521ef0a905ca44cd057cbf0d47a0678a"),
    // F.3.11
    (Mode::Cfb, 8, KEY_256, IV, "dc1f1a8520a64db55fcc8ac554844e889700"),
    // F.3.13
    (Mode::Cfb, 128, KEY_128, IV,
     "3b3fd92eb72dad20333449f8e83cfb4ac8a64537a0b3a93fcde3cdad9f1ce58b\
      26751f67a3cbb140b1808cf187a4f4dfc04b05357c5d1c0eeac4c66f9ff7f2e6"),
    // F.3.15
    (Mode::Cfb, 128, KEY_192, IV,
     "cdc80d6fddf18cab34c25909c99a417467ce7f7f81173621961a2b70171d3d7a\
      2e1e8a1dd59b88b1c8e60fed1efac4c9c05f9f9ca9834fa042ae8fba584b09ff"),
    // F.3.17
    (Mode::Cfb, 128, KEY_256, IV,
     "dc7e84bfda79164b7ecd8486985d386039ffed143b28b1c832113c6331e5407b\
      df10132415e54b92a13ed0a8267ae2f975a385741ab9cef82031623d55b1e471"),
    // F.4.1
    (Mode::Ofb, 128, KEY_128, IV,
     "3b3fd92eb72dad20333449f8e83cfb4a7789508d16918f03f53c52dac54ed825\
      9740051e9c5fecf64344f7a82260edcc304c6528f659c77866a510d9c1d6ae5e"),
    // F.4.3
    (Mode::Ofb, 128, KEY_192, IV,
     "cdc80d6fddf18cab34c25909c99a4174fcc28b8d4c63837c09e81700c1100401\
      8d9a9aeac0f6596f559c6d4daf59a5f26d9f200857ca6c3e9cac524bd9acc92a"),
    // F.4.5
    (Mode::Ofb, 128, KEY_256, IV,
     "dc7e84bfda79164b7ecd8486985d38604febdc6740d20b3ac88f6ad82a4fb08d\
      71ab47a086e86eedf39d1c5bba97c4080126141d67f37be8538f5a8be740e484"),
    // F.5.1
    (Mode::Ctr, 128, KEY_128, COUNTER,
     "874d6191b620e3261bef6864990db6ce9806f66b7970fdff8617187bb9fffdff\
      5ae4df3edbd5d35e5b4f09020db03eab1e031dda2fbe03d1792170a0f3009cee"),
    // F.5.3
    (Mode::Ctr, 128, KEY_192, COUNTER,
     "1abc932417521ca24f2b0459fe7e6e0b090339ec0aa6faefd5ccc2c6f4ce8e94\
      1e36b26bd1ebc670d1bd1d665620abf74f78a7f6d29809585a97daec58c6b050"),
    // F.5.5
    (Mode::Ctr, 128, KEY_256, COUNTER,
     "601ec313775789a5b7a7f504bbf3d228f443e3ca4d62b59aca84e990cacaf5c5\
      2b0930daa23de94ce87017ba2d84988ddfc9c58db67aada613c2dd08457941a6"),
];

fn session(vector: &Vector, direction: Direction) -> Session {
    let (mode, n, key, iv, _) = *vector;
    Session::open(mode, direction, n, &bytes(key), &bytes(iv)).expect("an opening")
}

/// The text is fed whole, then unit by unit.
fn becomes(vector: &Vector, direction: Direction, from: &[u8], to: &[u8]) {
    let mut out = vec![0; from.len()];
    let whole = session(vector, direction)
        .feed(from, &mut out)
        .expect("a feed");
    assert_eq!(whole.written, to, "{:?} {:?}", direction, vector);
    let cost = forecast(vector.0, vector.1, 8 * from.len()).expect("a forecast");
    assert_eq!((cost.bytes, cost.runs), (whole.written.len(), whole.runs));

    let mut state = session(vector, direction);
    let mut written = vec![];
    for unit in bits(from).chunks(vector.1) {
        let (next, more) = fed(state, unit);
        state = next;
        written.extend(more);
    }
    assert_eq!(
        packed(&written),
        to,
        "{:?} {:?} by units",
        direction,
        vector
    );
    assert_eq!(state, whole.session);
}

#[test]
fn sp800_38a() {
    for vector in &VECTORS {
        let ciphertext = bytes(vector.4);
        let text = &bytes(TEXT)[..ciphertext.len()];
        becomes(vector, Direction::Encrypt, text, &ciphertext);
        becomes(vector, Direction::Decrypt, &ciphertext, text);
    }
}

#[test]
fn sp800_38a_one_block_of_cbc() {
    for vector in VECTORS.iter().filter(|vector| vector.0 == Mode::Cbc) {
        let (key, iv, ciphertext) = (bytes(vector.2), bytes(vector.3), bytes(vector.4));
        for (j, text) in bytes(TEXT).chunks(16).enumerate() {
            assert_eq!(cbc_block(&key, &iv, &ciphertext, j).expect("a block"), text);
        }
        let neighbour = |j| cbc_neighbour(&iv, &ciphertext, j).expect("a neighbour");
        assert_eq!(neighbour(0).as_ptr(), iv.as_ptr());
        assert_eq!(neighbour(3).as_ptr(), ciphertext[32..].as_ptr());
        assert_eq!(neighbour(3).len(), 16);
    }
}

#[test]
fn sp800_38a_places_of_counter_blocks() {
    let iv = 0xf0f1f2f3f4f5f6f7f8f9fafbfcfdfeff_u128;
    let place = |block: u128, m| counter_place(&iv.to_be_bytes(), &block.to_be_bytes(), m);
    for t in 0..4 {
        assert_eq!(place(iv + t, 128), Ok(t));
    }
    assert_eq!(place(iv - 1, 128), Ok(u128::MAX));
    assert_eq!(place(iv - 0xff, 8), Ok(1));
}

/// FIPS 197, appendices A and C: a key, its rounds, and its last round key.
const EXPANSIONS: [(&str, usize, &str); 3] = [
    (KEY_128, 10, "d014f9a8c9ee2589e13f0cc8b6630ca6"),
    (KEY_192, 12, "e98ba06f448c773c8ecc720401002202"),
    (KEY_256, 14, "fe4890d1e6188d0b046df344706c631e"),
];

#[test]
fn fips_197_expansions() {
    for (key, rounds, last) in EXPANSIONS {
        let expanded = aes_expand(&bytes(key)).expect("an expansion");
        let end = 16 * (rounds + 1);
        assert_eq!(expanded.rounds, rounds);
        assert_eq!(expanded.keys[end - 16..end], bytes(last));
        assert!(expanded.keys[end..].iter().all(|&byte| byte == 0));
    }
}

#[test]
fn fips_197_blocks() {
    let key: Vec<u8> = (0..32).collect();
    let block = 0x00112233445566778899aabbccddeeff_u128.to_be_bytes();
    let made = [
        (16, 0x69c4e0d86a7b0430d8cdb78070b4c55a_u128),
        (24, 0xdda97ca4864cdfe06eaf70a0ec0d7191),
        (32, 0x8ea2b7ca516745bfeafc49904b496089),
    ];
    for (length, made) in made {
        let key = &key[..length];
        assert_eq!(aes_encrypt(key, &block), Ok(made.to_be_bytes()));
        assert_eq!(aes_decrypt(key, &made.to_be_bytes()), Ok(block));
    }
}

/// RFC 3962, appendix B.
#[rustfmt::skip]
const STOLEN: [&str; 6] = [
    "c6353568f2bf8cb4d8a580362da7ff7f97",
    "fc00783e0efdb2c1d445d4c8eff7ed2297687268d6ecccc0c07b25e25ecfe5",
    "39312523a78662d5be7fcbcc98ebf5a897687268d6ecccc0c07b25e25ecfe584",
    "97687268d6ecccc0c07b25e25ecfe584b3fffd940c16a18c1b5549d2f838029e\
     39312523a78662d5be7fcbcc98ebf5",
    "97687268d6ecccc0c07b25e25ecfe5849dad8bbb96c4cdc03bc103e1a194bbd8\
     39312523a78662d5be7fcbcc98ebf5a8",
    "97687268d6ecccc0c07b25e25ecfe58439312523a78662d5be7fcbcc98ebf5a8\
     4807efe836ee89a526730dbc2f7bc8409dad8bbb96c4cdc03bc103e1a194bbd8",
];

#[test]
fn rfc_3962() {
    let text = b"I would like the General Gau's Chicken, please, and wonton soup.";
    let (key, iv) = (b"chicken teriyaki", [0; 16]);
    for sent in STOLEN {
        let sent = bytes(sent);
        let text = &text[..sent.len()];
        let mut out = vec![0xee; sent.len() + 1];
        assert_eq!(cts_encrypt(key, &iv, text, &mut out), Ok(()));
        assert_eq!(out[..sent.len()], sent);
        assert_eq!(cts_decrypt(key, &iv, &sent, &mut out), Ok(()));
        assert_eq!(out[..sent.len()], *text);
        assert_eq!(out[sent.len()], 0xee);
    }
}
