// Reading a packet and writing it outwards in plain Rust, beside the proved code: the same results, and the time of both.
use std::hint::black_box;
use std::time::Instant;

extern "C" {
    fn rattle_translate_out(packet: *mut u8, len: usize, address: u32, port: u16) -> u8;
}

fn word(b: &[u8], at: usize) -> u16 {
    u16::from_be_bytes([b[at], b[at + 1]])
}

fn word_sum(b: &[u8]) -> u32 {
    let mut chunks = b.chunks_exact(2);
    let mut sum = 0u32;
    for c in &mut chunks {
        sum += u32::from(u16::from_be_bytes([c[0], c[1]]));
    }
    if let [last] = chunks.remainder() {
        sum += u32::from(*last) << 8;
    }
    sum
}

fn fold(mut s: u32) -> u16 {
    while s > 0xffff {
        s = (s & 0xffff) + (s >> 16);
    }
    s as u16
}

fn update(old: u16, gone: u32, new: u32) -> u16 {
    !fold(u32::from(!old) + u32::from(!fold(gone)) + u32::from(fold(new)) + 0xffff)
}

fn pseudo(h: &[u8], n: usize) -> u32 {
    word_sum(&h[12..20]) + u32::from(h[9]) + n as u32
}

pub fn plain_translate_out(p: &mut [u8], address: u32, port: u16) -> bool {
    if p.len() < 20 || p[0] != 0x45 || usize::from(word(p, 2)) != p.len() || word(p, 6) & 0x3fff != 0 {
        return false;
    }
    let (h, b) = p.split_at_mut(20);
    let protocol = h[9];
    let fits = match protocol {
        17 => b.len() >= 8 && usize::from(word(b, 4)) == b.len(),
        6 => b.len() >= 20 && b[12] >> 4 >= 5 && usize::from(b[12] >> 4) * 4 <= b.len(),
        1 => b.len() >= 8,
        _ => true,
    };
    if !fits || fold(word_sum(h)) != 0xffff {
        return false;
    }
    let before = if protocol == 1 { 0 } else { pseudo(h, b.len()) };
    let right = match protocol {
        17 => word(b, 6) == 0 || fold(before + word_sum(b)) == 0xffff,
        6 => fold(before + word_sum(b)) == 0xffff,
        1 => fold(word_sum(b)) == 0xffff && (b[0] == 8 || b[0] == 0) && b[1] == 0,
        _ => false,
    };
    if !right {
        return false;
    }
    let gone = word_sum(&h[12..16]) + (u32::from(h[8]) << 8);
    h[8] -= 1;
    h[12..16].copy_from_slice(&address.to_be_bytes());
    let new = word_sum(&h[12..16]) + (u32::from(h[8]) << 8);
    let sum = update(word(h, 10), gone, new);
    h[10..12].copy_from_slice(&sum.to_be_bytes());
    let after = if protocol == 1 { 0 } else { pseudo(h, b.len()) };
    let (at, place) = match protocol { 17 => (0, 6), 6 => (0, 16), _ => (4, 2) };
    let gone = before + u32::from(word(b, at));
    b[at..at + 2].copy_from_slice(&port.to_be_bytes());
    let old = word(b, place);
    if protocol == 17 && old == 0 {
        return true;
    }
    let sum = update(old, gone, after + u32::from(port));
    b[place..place + 2].copy_from_slice(&sum.to_be_bytes());
    if sum == 0 && (protocol == 17 || (protocol == 1 && word_sum(b) == 0)) {
        b[place..place + 2].copy_from_slice(&[255, 255]);
    }
    true
}

fn proved(p: &mut [u8], address: u32, port: u16) -> bool {
    unsafe { rattle_translate_out(p.as_mut_ptr(), p.len(), address, port) != 0 }
}

fn packet(n: usize) -> Vec<u8> {
    let mut p = vec![0u8; n];
    for (i, b) in p.iter_mut().enumerate() {
        *b = (i * 37 + 11) as u8;
    }
    p[0] = 0x45; p[1] = 0;
    p[2..4].copy_from_slice(&(n as u16).to_be_bytes());
    p[6..8].copy_from_slice(&[0x40, 0]);
    p[8] = 64; p[9] = 17; p[10] = 0; p[11] = 0;
    let s = !fold(word_sum(&p[..20]));
    p[10..12].copy_from_slice(&s.to_be_bytes());
    let m = n - 20;
    p[24..26].copy_from_slice(&(m as u16).to_be_bytes());
    p[26] = 0; p[27] = 0;
    let s = !fold(pseudo(&p[..20], m) + word_sum(&p[20..]));
    p[26..28].copy_from_slice(&s.to_be_bytes());
    p
}

fn time(name: &str, f: fn(&mut [u8], u32, u16) -> bool, n: usize) {
    let original = packet(n);
    let mut p = original.clone();
    let turns = 2_000_000u32;
    let mut best = f64::MAX;
    for _ in 0..5 {
        let t = Instant::now();
        for i in 0..turns {
            p.copy_from_slice(&original);
            black_box(f(black_box(&mut p), 0xc0000201, (i % 60000) as u16 + 1024));
        }
        best = best.min(t.elapsed().as_nanos() as f64 / f64::from(turns));
    }
    println!("{name} {n} bytes: {best:.1} ns per packet");
}

fn main() {
    let mut x = 88172645463325252u64;
    let mut next = move || { x ^= x << 13; x ^= x >> 7; x ^= x << 17; x };
    let mut same = 0;
    for _ in 0..2_000_000 {
        let n = 28 + (next() % 80) as usize;
        let mut p = packet(n);
        if next() % 4 == 0 { let i = (next() % n as u64) as usize; p[i] ^= (next() % 256) as u8; }
        let mut q = p.clone();
        let (a, port) = (next() as u32, next() as u16);
        let r = plain_translate_out(&mut p, a, port);
        let s = proved(&mut q, a, port);
        assert!(r == s && p == q, "{p:?} {q:?} {r} {s}");
        same += u32::from(r);
    }
    println!("same results on 2000000 packets, {same} of them translated");
    for n in [64, 1500] {
        time("plain Rust", plain_translate_out, n);
        time("Rattle    ", proved, n);
    }
}
