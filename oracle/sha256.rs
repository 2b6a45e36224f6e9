//! SHA-256 as FIPS 180-4 has it, for the build script: there is no crate to take it from.

/// The first `n` primes.
fn primes(n: usize) -> Vec<u32> {
    (2u32..).filter(|p| (2..*p).all(|d| p % d != 0)).take(n).collect()
}

/// The first 32 bits of the fraction of the square root (`power` 2) or the cube root (3) of p: the floor of
/// root(p) * 2^32, found bit by bit in whole numbers.
fn fraction(p: u32, power: u32) -> u32 {
    let mut root = 0u128;
    for bit in (0..37).rev() {
        let r = root | 1 << bit;
        if r.pow(power) <= (p as u128) << (32 * power) {
            root = r;
        }
    }
    root as u32
}

fn block(h: &mut [u32; 8], k: &[u32], bytes: &[u8]) {
    let mut w: Vec<u32> = bytes.chunks(4).map(|b| u32::from_be_bytes(b.try_into().unwrap())).collect();
    for i in 16..64 {
        let (a, b) = (w[i - 15], w[i - 2]);
        let s0 = a.rotate_right(7) ^ a.rotate_right(18) ^ (a >> 3);
        let s1 = b.rotate_right(17) ^ b.rotate_right(19) ^ (b >> 10);
        w.push(w[i - 16].wrapping_add(s0).wrapping_add(w[i - 7]).wrapping_add(s1));
    }
    let mut v = *h;
    for i in 0..64 {
        let [a, b, c, d, e, f, g, last] = v;
        let s1 = e.rotate_right(6) ^ e.rotate_right(11) ^ e.rotate_right(25);
        let t1 = last.wrapping_add(s1).wrapping_add((e & f) ^ (!e & g)).wrapping_add(k[i]).wrapping_add(w[i]);
        let s0 = a.rotate_right(2) ^ a.rotate_right(13) ^ a.rotate_right(22);
        let t2 = s0.wrapping_add((a & b) ^ (a & c) ^ (b & c));
        v = [t1.wrapping_add(t2), a, b, c, d.wrapping_add(t1), e, f, g];
    }
    for (x, y) in h.iter_mut().zip(v) {
        *x = x.wrapping_add(y);
    }
}

pub fn hex(text: &[u8]) -> String {
    let k: Vec<u32> = primes(64).into_iter().map(|p| fraction(p, 3)).collect();
    let mut h = [0; 8];
    for (x, p) in h.iter_mut().zip(primes(8)) {
        *x = fraction(p, 2);
    }
    let mut bytes = text.to_vec();
    bytes.push(0x80);
    bytes.resize(bytes.len().next_multiple_of(64), 0);
    if bytes.len() < text.len() + 9 {
        bytes.resize(bytes.len() + 64, 0);
    }
    let end = bytes.len() - 8;
    bytes[end..].copy_from_slice(&(8 * text.len() as u64).to_be_bytes());
    bytes.chunks(64).for_each(|b| block(&mut h, &k, b));
    h.iter().map(|x| format!("{x:08x}")).collect()
}

/// The published values for the empty text, "abc" and 56 bytes (two blocks).
pub fn self_test() {
    assert_eq!(hex(b""), "e3b0c44298fc1c149afbf4c8996fb92427ae41e4649b934ca495991b7852b855");
    assert_eq!(hex(b"abc"), "ba7816bf8f01cfea414140de5dae2223b00361a396177a9cb410ff61f20015ad");
    assert_eq!(
        hex(b"abcdbcdecdefdefgefghfghighijhijkijkljklmklmnlmnomnopnopq"),
        "248d6a61d20638b8e5c026930c3e6039a33ce45964ff2167f6ecedd419db06c1"
    );
}
