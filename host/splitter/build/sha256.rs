//! SHA-256, by FIPS 180-4. Its constants come from the primes, as there.

/// The digest in hexadecimal.
pub fn hex_digest(message: &[u8]) -> String {
    let mut state = initial_state();
    let keys = round_keys();
    for block in padded(message).chunks_exact(64) {
        compress(&mut state, &keys, block);
    }
    state.iter().map(|word| format!("{word:08x}")).collect()
}

fn padded(message: &[u8]) -> Vec<u8> {
    let bits = 8 * message.len() as u64;
    let zeros = (119 - message.len() % 64) % 64;
    [message, &[0x80], &vec![0; zeros], &bits.to_be_bytes()].concat()
}

fn compress(state: &mut [u32; 8], keys: &[u32; 64], block: &[u8]) {
    let mut w = [0_u32; 64];
    for (word, bytes) in w.iter_mut().zip(block.as_chunks().0) {
        *word = u32::from_be_bytes(*bytes);
    }
    for i in 16..64 {
        let s0 = w[i - 15].rotate_right(7) ^ w[i - 15].rotate_right(18) ^ (w[i - 15] >> 3);
        let s1 = w[i - 2].rotate_right(17) ^ w[i - 2].rotate_right(19) ^ (w[i - 2] >> 10);
        w[i] = sum(&[w[i - 16], s0, w[i - 7], s1]);
    }

    let [mut a, mut b, mut c, mut d, mut e, mut f, mut g, mut h] = *state;
    for i in 0..64 {
        let s1 = e.rotate_right(6) ^ e.rotate_right(11) ^ e.rotate_right(25);
        let t1 = sum(&[h, s1, (e & f) ^ (!e & g), keys[i], w[i]]);
        let s0 = a.rotate_right(2) ^ a.rotate_right(13) ^ a.rotate_right(22);
        let t2 = sum(&[s0, (a & b) ^ (a & c) ^ (b & c)]);
        (h, g, f, e, d, c, b, a) = (g, f, e, sum(&[d, t1]), c, b, a, sum(&[t1, t2]));
    }
    for (word, more) in state.iter_mut().zip([a, b, c, d, e, f, g, h]) {
        *word = sum(&[*word, more]);
    }
}

fn sum(words: &[u32]) -> u32 {
    words.iter().fold(0, |sum, &word| sum.wrapping_add(word))
}

fn initial_state() -> [u32; 8] {
    fraction_bits(|root, prime| root * root <= prime << 64)
}

fn round_keys() -> [u32; 64] {
    fraction_bits(|root, prime| root * root * root <= prime << 96)
}

/// The first 32 bits of the fraction of each prime's root, in order of the primes.
///
/// `below` says whether a number, taken as 32 bits of fraction, is at most the root.
fn fraction_bits<const N: usize>(below: impl Fn(u128, u128) -> bool) -> [u32; N] {
    let mut primes = (2..).filter(|n| (2..*n).all(|d| n % d != 0));
    std::array::from_fn(|_| {
        let prime = primes.next().expect("a next prime");
        let root = (0..38).rev().fold(0, |root, bit| {
            let more = root | 1 << bit;
            if below(more, prime) {
                more
            } else {
                root
            }
        });
        root as u32
    })
}

#[test]
fn the_digests_of_the_standard() {
    let nothing = "e3b0c44298fc1c149afbf4c8996fb92427ae41e4649b934ca495991b7852b855";
    assert_eq!(hex_digest(b""), nothing);
    let abc = "ba7816bf8f01cfea414140de5dae2223b00361a396177a9cb410ff61f20015ad";
    assert_eq!(hex_digest(b"abc"), abc);
    let two_blocks = b"abcdbcdecdefdefgefghfghighijhijkijkljklmklmnlmnomnopnopq";
    let expected = "248d6a61d20638b8e5c026930c3e6039a33ce45964ff2167f6ecedd419db06c1";
    assert_eq!(hex_digest(two_blocks), expected);
}
