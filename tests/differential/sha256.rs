//! SHA-256 (FIPS 180-4). The constants are computed by their definition: the first 32 bits of the fractional parts of
//! the cube roots of the first 64 primes, and of the square roots of the first 8.

/// The largest number whose power `e` is at most `n`.
fn root(n: u128, e: u32) -> u128 {
    let (mut low, mut high) = (0, 1_u128 << 42);
    while high - low > 1 {
        let middle = (low + high) / 2;
        let fits = middle.checked_pow(e).is_some_and(|power| power <= n);
        (low, high) = if fits { (middle, high) } else { (low, middle) };
    }
    low
}

fn primes() -> impl Iterator<Item = u128> {
    (2..).filter(|&n| (2..n).all(|d| n % d != 0))
}

/// The first 32 bits of the fractional part of the root `e` of a prime.
fn fraction(prime: u128, e: u32) -> u32 {
    root(prime << (32 * e), e) as u32
}

fn block(state: &mut [u32; 8], bytes: &[u8], k: &[u32]) {
    let mut w: Vec<u32> = bytes.chunks(4).map(|b| u32::from_be_bytes([b[0], b[1], b[2], b[3]])).collect();
    for i in 16..64 {
        let s0 = w[i - 15].rotate_right(7) ^ w[i - 15].rotate_right(18) ^ (w[i - 15] >> 3);
        let s1 = w[i - 2].rotate_right(17) ^ w[i - 2].rotate_right(19) ^ (w[i - 2] >> 10);
        w.push(w[i - 16].wrapping_add(s0).wrapping_add(w[i - 7]).wrapping_add(s1));
    }
    let [mut a, mut b, mut c, mut d, mut e, mut f, mut g, mut h] = *state;
    for i in 0..64 {
        let s1 = e.rotate_right(6) ^ e.rotate_right(11) ^ e.rotate_right(25);
        let chosen = (e & f) ^ (!e & g);
        let t1 = h.wrapping_add(s1).wrapping_add(chosen).wrapping_add(k[i]).wrapping_add(w[i]);
        let s0 = a.rotate_right(2) ^ a.rotate_right(13) ^ a.rotate_right(22);
        let t2 = s0.wrapping_add((a & b) ^ (a & c) ^ (b & c));
        (h, g, f, e, d, c, b, a) = (g, f, e, d.wrapping_add(t1), c, b, a, t1.wrapping_add(t2));
    }
    for (x, y) in state.iter_mut().zip([a, b, c, d, e, f, g, h]) {
        *x = x.wrapping_add(y);
    }
}

/// The digest in hexadecimal digits.
pub fn hex(text: &[u8]) -> String {
    let k: Vec<u32> = primes().take(64).map(|p| fraction(p, 3)).collect();
    let first: Vec<u32> = primes().take(8).map(|p| fraction(p, 2)).collect();
    let mut state: [u32; 8] = first.try_into().expect("eight");
    let mut padded = text.to_vec();
    padded.push(0x80);
    while padded.len() % 64 != 56 {
        padded.push(0);
    }
    padded.extend((8 * text.len() as u64).to_be_bytes());
    padded.chunks(64).for_each(|bytes| block(&mut state, bytes, &k));
    state.iter().map(|word| format!("{word:08x}")).collect()
}
