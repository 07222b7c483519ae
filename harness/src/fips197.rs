// AES as FIPS 197 says it: bytes are polynomials, and each table is computed from its rule. The round keys may be any
// bytes, those that no key gives too. A block is the state: byte 4c + r stands in row r, column c (section 3.4).
use std::array::from_fn;

type Block = [u8; 16];

// The product of two polynomials over GF(2), modulo 11b (section 4.2).
const fn product(a: u8, b: u8) -> u8 {
    let mut sum = 0;
    let mut i = 0;
    while i < 8 {
        if b >> i & 1 == 1 {
            sum ^= (a as u16) << i;
        }
        i += 1;
    }
    let mut degree = 14;
    while degree >= 8 {
        if sum >> degree & 1 == 1 {
            sum ^= 0x11b << (degree - 8);
        }
        degree -= 1;
    }
    sum as u8
}

// The byte that has the product 01 with b, and 00 for 00. It is b to the power 254 = 2 + 4 + .. + 128, since a byte
// other than 00 to the power 255 is 01.
const fn inverse(b: u8) -> u8 {
    let mut power = 1;
    let mut square = b;
    let mut i = 0;
    while i < 7 {
        square = product(square, square);
        power = product(power, square);
        i += 1;
    }
    power
}

// SubBytes of a byte: bit i is the XOR of bits i, i+4, i+5, i+6 and i+7 of the inverse and of bit i of 63 (section
// 5.1.1).
const fn sub_byte(b: u8) -> u8 {
    let v = inverse(b);
    v ^ v.rotate_right(4) ^ v.rotate_right(5) ^ v.rotate_right(6) ^ v.rotate_right(7) ^ 0x63
}

const fn sbox() -> [u8; 256] {
    let mut table = [0; 256];
    let mut b = 0;
    while b < 256 {
        table[b] = sub_byte(b as u8);
        b += 1;
    }
    table
}

const fn inv_sbox() -> [u8; 256] {
    let forward = sbox();
    let mut table = [0; 256];
    let mut b = 0;
    while b < 256 {
        table[forward[b] as usize] = b as u8;
        b += 1;
    }
    table
}

// The products of the factors below 16, which those of both matrices are, with each byte.
const fn products() -> [[u8; 256]; 16] {
    let mut table = [[0; 256]; 16];
    let mut factor = 0;
    while factor < 16 {
        let mut b = 0;
        while b < 256 {
            table[factor][b] = product(factor as u8, b as u8);
            b += 1;
        }
        factor += 1;
    }
    table
}

static SBOX: [u8; 256] = sbox();
static INV_SBOX: [u8; 256] = inv_sbox();
static PRODUCTS: [[u8; 256]; 16] = products();

// The first rows of the matrices of MixColumns and InvMixColumns (sections 5.1.3 and 5.3.3).
const MIX: [usize; 4] = [0x02, 0x03, 0x01, 0x01];
const INV_MIX: [usize; 4] = [0x0e, 0x0b, 0x0d, 0x09];

// SubBytes of a state, and SubWord of a word.
fn sub_bytes<const N: usize>(bytes: [u8; N]) -> [u8; N] {
    bytes.map(|b| SBOX[b as usize])
}

fn inv_sub_bytes(state: Block) -> Block {
    state.map(|b| INV_SBOX[b as usize])
}

// Row r is turned left by r.
fn shift_rows(state: Block) -> Block {
    from_fn(|i| state[(i + 4 * (i % 4)) % 16])
}

fn inv_shift_rows(state: Block) -> Block {
    from_fn(|i| state[(i + 16 - 4 * (i % 4)) % 16])
}

// Each column times the matrix with this first row; each later row is the one above turned right by one.
fn mix_columns(state: Block, first_row: [usize; 4]) -> Block {
    from_fn(|i| {
        let (column, r) = (&state[i / 4 * 4..], i % 4);
        let term = |k: usize| PRODUCTS[first_row[(k + 4 - r) % 4]][column[k] as usize];
        term(0) ^ term(1) ^ term(2) ^ term(3)
    })
}

// The rounds and the round keys.
#[derive(Clone, Debug, PartialEq)]
pub struct Schedule {
    pub rounds: usize,
    pub keys: [u8; 240],
}

impl Schedule {
    // What there is where no key was expanded: no rounds, and zero bytes.
    pub fn none() -> Schedule {
        Schedule {
            rounds: 0,
            keys: [0; 240],
        }
    }

    // Key expansion (section 5.2), by words of four bytes. None for a key that is not 16, 24 or 32 bytes long.
    pub fn expand(key: &[u8]) -> Option<Schedule> {
        if ![16, 24, 32].contains(&key.len()) {
            return None;
        }
        let nk = key.len() / 4;
        let rounds = nk + 6;
        let mut keys = [0; 240];
        keys[..key.len()].copy_from_slice(key);
        let mut rcon = 0x01;
        for i in nk..4 * (rounds + 1) {
            let mut word: [u8; 4] = from_fn(|j| keys[4 * (i - 1) + j]);
            if i % nk == 0 {
                word.rotate_left(1);
                word = sub_bytes(word);
                word[0] ^= rcon;
                rcon = product(rcon, 0x02);
            } else if nk == 8 && i % 8 == 4 {
                word = sub_bytes(word);
            }
            for j in 0..4 {
                keys[4 * i + j] = keys[4 * (i - nk) + j] ^ word[j];
            }
        }
        Some(Schedule { rounds, keys })
    }

    pub fn rounds_ok(&self) -> bool {
        [10, 12, 14].contains(&self.rounds)
    }

    fn add_round_key(&self, state: Block, round: usize) -> Block {
        from_fn(|i| state[i] ^ self.keys[16 * round + i])
    }

    // Enc (section 5.1). Under rounds that AES does not have it gives zero bytes, as Dec does.
    pub fn enc(&self, block: &Block) -> Block {
        if !self.rounds_ok() {
            return [0; 16];
        }
        let mut state = self.add_round_key(*block, 0);
        for round in 1..self.rounds {
            state = mix_columns(shift_rows(sub_bytes(state)), MIX);
            state = self.add_round_key(state, round);
        }
        self.add_round_key(shift_rows(sub_bytes(state)), self.rounds)
    }

    // Dec (section 5.3).
    pub fn dec(&self, block: &Block) -> Block {
        if !self.rounds_ok() {
            return [0; 16];
        }
        let mut state = self.add_round_key(*block, self.rounds);
        for round in (1..self.rounds).rev() {
            state = self.add_round_key(inv_sub_bytes(inv_shift_rows(state)), round);
            state = mix_columns(state, INV_MIX);
        }
        self.add_round_key(inv_sub_bytes(inv_shift_rows(state)), 0)
    }
}
