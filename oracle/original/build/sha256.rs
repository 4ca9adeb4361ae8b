//! SHA-256 (FIPS 180-4).

/// The first `count` primes, whose roots give the constants.
fn primes(count: usize) -> Vec<u64> {
    let prime = |n: &u64| (2..*n).take_while(|d| d * d <= *n).all(|d| !n.is_multiple_of(d));
    (2u64..).filter(prime).take(count).collect()
}

/// The first 32 bits behind the point of the `degree`-th root of n: the root of n · 2^(32·degree), less its whole part.
fn root_bits(n: u64, degree: u32) -> u32 {
    let scaled = |root: u128| root.checked_pow(degree).is_some_and(|p| p <= u128::from(n) << (32 * degree));
    let mut root = 0u128;
    for bit in (0..40).rev() {
        let next = root | 1 << bit;
        if scaled(next) {
            root = next;
        }
    }
    root as u32
}

pub fn hex(bytes: &[u8]) -> String {
    let rounds: Vec<u32> = primes(64).iter().map(|p| root_bits(*p, 3)).collect();
    let mut state: Vec<u32> = primes(8).iter().map(|p| root_bits(*p, 2)).collect();
    for block in padded(bytes).chunks_exact(64) {
        let mixed = mix(&state, &rounds, block);
        for (word, more) in state.iter_mut().zip(mixed) {
            *word = word.wrapping_add(more);
        }
    }
    state.iter().map(|word| format!("{word:08x}")).collect()
}

fn padded(bytes: &[u8]) -> Vec<u8> {
    let mut padded = bytes.to_vec();
    padded.push(0x80);
    while padded.len() % 64 != 56 {
        padded.push(0);
    }
    padded.extend((bytes.len() as u64 * 8).to_be_bytes());
    padded
}

fn schedule(block: &[u8]) -> Vec<u32> {
    let (words, _) = block.as_chunks::<4>();
    let mut w: Vec<u32> = words.iter().map(|word| u32::from_be_bytes(*word)).collect();
    for i in 16..64 {
        let (a, b) = (w[i - 15], w[i - 2]);
        let s0 = a.rotate_right(7) ^ a.rotate_right(18) ^ (a >> 3);
        let s1 = b.rotate_right(17) ^ b.rotate_right(19) ^ (b >> 10);
        w.push(w[i - 16].wrapping_add(s0).wrapping_add(w[i - 7]).wrapping_add(s1));
    }
    w
}

fn mix(state: &[u32], rounds: &[u32], block: &[u8]) -> [u32; 8] {
    let mut s: [u32; 8] = state.try_into().expect("eight words");
    for (k, w) in rounds.iter().zip(schedule(block)) {
        let [a, b, c, d, e, f, g, h] = s;
        let s1 = e.rotate_right(6) ^ e.rotate_right(11) ^ e.rotate_right(25);
        let choice = (e & f) ^ (!e & g);
        let t1 = h.wrapping_add(s1).wrapping_add(choice).wrapping_add(*k).wrapping_add(w);
        let s0 = a.rotate_right(2) ^ a.rotate_right(13) ^ a.rotate_right(22);
        let majority = (a & b) ^ (a & c) ^ (b & c);
        let t2 = s0.wrapping_add(majority);
        s = [t1.wrapping_add(t2), a, b, c, d.wrapping_add(t1), e, f, g];
    }
    s
}
