// Whole bootstraps in plain Rust with the split of rx_poly, for `bench/bootstrap` to compare with:
// `bootstraps N KEY_BITS K BASE_LOG LEVELS SWITCH_BASE_LOG SWITCH_LEVELS COUNT` prints a word of the last output, and
// the nanoseconds of COUNT bootstraps and of as many products as they have. Keys and input are any words: the time does
// not depend on them.
use std::env;
use std::time::Instant;

struct Set {
    size: usize,
    key_bits: usize,
    dim: usize,
    base_log: u32,
    levels: usize,
    switch_base_log: u32,
    switch_levels: usize,
}

const LEAF: usize = 8;

fn sum_into(out: &mut [u64], a: &[u64], b: &[u64]) {
    for ((o, x), y) in out.iter_mut().zip(a).zip(b) {
        *o = x.wrapping_add(*y);
    }
}

macro_rules! sum {
    ($($a:ident * $b:ident),+) => {
        0u64$(.wrapping_add($a.wrapping_mul($b)))+
    };
}

/// The seven places of a product of four coefficients and four others.
macro_rules! product {
    ($a:ident $b:ident $c:ident $d:ident, $w:ident $x:ident $y:ident $z:ident) => {
        (
            sum!($a * $w),
            sum!($a * $x, $b * $w),
            sum!($a * $y, $b * $x, $c * $w),
            sum!($a * $z, $b * $y, $c * $x, $d * $w),
            sum!($b * $z, $c * $y, $d * $x),
            sum!($c * $z, $d * $y),
            sum!($d * $z),
        )
    };
}

fn leaf(out: &mut [u64; 16], a: &[u64; 8], b: &[u64; 8]) {
    let [a0, a1, a2, a3, a4, a5, a6, a7] = *a;
    let [b0, b1, b2, b3, b4, b5, b6, b7] = *b;
    let (s0, s1) = (a0.wrapping_add(a4), a1.wrapping_add(a5));
    let (s2, s3) = (a2.wrapping_add(a6), a3.wrapping_add(a7));
    let (t0, t1) = (b0.wrapping_add(b4), b1.wrapping_add(b5));
    let (t2, t3) = (b2.wrapping_add(b6), b3.wrapping_add(b7));
    let (p0, p1, p2, p3, p4, p5, p6) = product!(a0 a1 a2 a3, b0 b1 b2 b3);
    let (q0, q1, q2, q3, q4, q5, q6) = product!(a4 a5 a6 a7, b4 b5 b6 b7);
    let (m0, m1, m2, m3, m4, m5, m6) = product!(s0 s1 s2 s3, t0 t1 t2 t3);
    out[0] = p0;
    out[1] = p1;
    out[2] = p2;
    out[3] = p3;
    out[4] = p4.wrapping_add(m0.wrapping_sub(p0).wrapping_sub(q0));
    out[5] = p5.wrapping_add(m1.wrapping_sub(p1).wrapping_sub(q1));
    out[6] = p6.wrapping_add(m2.wrapping_sub(p2).wrapping_sub(q2));
    out[7] = m3.wrapping_sub(p3).wrapping_sub(q3);
    out[8] = q0.wrapping_add(m4.wrapping_sub(p4).wrapping_sub(q4));
    out[9] = q1.wrapping_add(m5.wrapping_sub(p5).wrapping_sub(q5));
    out[10] = q2.wrapping_add(m6.wrapping_sub(p6).wrapping_sub(q6));
    out[11] = q3;
    out[12] = q4;
    out[13] = q5;
    out[14] = q6;
    out[15] = 0;
}

/// The plain product of a and b in the twice as many places of out.
fn linear(out: &mut [u64], a: &[u64], b: &[u64], scratch: &mut [u64]) {
    let n = a.len();
    if n == LEAF {
        leaf(out.try_into().unwrap(), a.try_into().unwrap(), b.try_into().unwrap());
        return;
    }
    let half = n / 2;
    let (mixed, rest) = scratch.split_at_mut(n);
    let (low, high) = out.split_at_mut(n);
    {
        let (first, second) = low.split_at_mut(half);
        sum_into(first, &a[..half], &a[half..]);
        sum_into(second, &b[..half], &b[half..]);
    }
    linear(mixed, &low[..half], &low[half..n], rest);
    linear(low, &a[..half], &b[..half], rest);
    linear(high, &a[half..], &b[half..], rest);
    let (low_0, low_1) = low.split_at_mut(half);
    let (high_0, high_1) = high.split_at_mut(half);
    let (mixed_0, mixed_1) = mixed.split_at(half);
    for i in 0..half {
        let (second, third) = (low_1[i], high_0[i]);
        low_1[i] = second.wrapping_add(mixed_0[i].wrapping_sub(low_0[i]).wrapping_sub(third));
        high_0[i] = third.wrapping_add(mixed_1[i].wrapping_sub(second).wrapping_sub(high_1[i]));
    }
}

/// Adds the product modulo X^N + 1, in 4N words of scratch.
fn product_add(acc: &mut [u64], small: &[i64], big: &[u64], scratch: &mut [u64]) {
    let n = acc.len();
    let half = n / 2;
    let (a, rest) = scratch.split_at_mut(n);
    let (part, rest) = rest.split_at_mut(n);
    let (sums, rest) = rest.split_at_mut(n);
    for (x, digit) in a.iter_mut().zip(small) {
        *x = *digit as u64;
    }
    let (front, back) = acc.split_at_mut(half);
    linear(part, &a[..half], &big[..half], rest);
    for i in 0..half {
        let (low, high) = (part[i], part[half + i]);
        front[i] = front[i].wrapping_add(low.wrapping_add(high));
        back[i] = back[i].wrapping_add(high.wrapping_sub(low));
    }
    linear(part, &a[half..], &big[half..], rest);
    for i in 0..half {
        let (low, high) = (part[i], part[half + i]);
        front[i] = front[i].wrapping_add(high.wrapping_sub(low));
        back[i] = back[i].wrapping_sub(low.wrapping_add(high));
    }
    let (first, second) = sums.split_at_mut(half);
    sum_into(first, &a[..half], &a[half..]);
    sum_into(second, &big[..half], &big[half..]);
    linear(part, first, second, rest);
    for i in 0..half {
        front[i] = front[i].wrapping_sub(part[half + i]);
        back[i] = back[i].wrapping_add(part[i]);
    }
}

fn offset(base_log: u32, levels: usize) -> u64 {
    let bits = base_log * levels as u32;
    (1..=levels).fold(1u64 << (63 - bits), |sum, t| {
        sum.wrapping_add(1u64 << (base_log - 1) << (64 - base_log * t as u32))
    })
}

fn digit(word: u64, base_log: u32, level: usize) -> i64 {
    let place = 64 - base_log * (level as u32 + 1);
    ((word >> place) & ((1 << base_log) - 1)) as i64 - (1i64 << (base_log - 1))
}

fn rotate_into(out: &mut [u64], poly: &[u64], amount: usize) {
    let n = poly.len();
    let (turn, back) = if amount <= n { (amount, false) } else { (amount - n, true) };
    let (first, last) = out.split_at_mut(turn);
    let (head, tail) = poly.split_at(n - turn);
    let negate = |out: &mut [u64], words: &[u64]| {
        for (o, x) in out.iter_mut().zip(words) {
            *o = x.wrapping_neg();
        }
    };
    if back {
        first.copy_from_slice(tail);
        negate(last, head);
    } else {
        negate(first, tail);
        last.copy_from_slice(head);
    }
}

fn mark(word: u64, log: u32) -> usize {
    let marks = (u128::from(word) + (1u128 << (62 - log))) >> (63 - log);
    (marks % (2u128 << log)) as usize
}

struct Room {
    switched: Vec<u64>,
    turning: Vec<u64>,
    away: Vec<u64>,
    digits: Vec<i64>,
    scratch: Vec<u64>,
}

fn switch_into(set: &Set, rows: &[u64], input: &[u64], out: &mut [u64]) {
    let width = set.key_bits + 1;
    let places = set.dim * set.size;
    let start = offset(set.switch_base_log, set.switch_levels);
    out.fill(0);
    out[set.key_bits] = input[places];
    for u in 0..places {
        let word = input[u].wrapping_add(start);
        for t in 0..set.switch_levels {
            let factor = digit(word, set.switch_base_log, t) as u64;
            let row = &rows[(u * set.switch_levels + t) * width..][..width];
            for (o, x) in out.iter_mut().zip(row) {
                *o = o.wrapping_sub(factor.wrapping_mul(*x));
            }
        }
    }
}

fn external_add(set: &Set, bit: &[u64], room: &mut Room) {
    let (n, count) = (set.size, set.dim + 1);
    let start = offset(set.base_log, set.levels);
    for j in 0..count {
        for t in 0..set.levels {
            for (d, word) in room.digits.iter_mut().zip(&room.away[j * n..(j + 1) * n]) {
                *d = digit(word.wrapping_add(start), set.base_log, t);
            }
            let row = &bit[(j * set.levels + t) * count * n..][..count * n];
            for q in 0..count {
                product_add(
                    &mut room.turning[q * n..(q + 1) * n],
                    &room.digits,
                    &row[q * n..(q + 1) * n],
                    &mut room.scratch,
                );
            }
        }
    }
}

fn bootstrap(set: &Set, room: &mut Room, boot: &[u64], switch: &[u64], table: &[u64], input: &[u64], out: &mut [u64]) {
    let (n, count) = (set.size, set.dim + 1);
    let log = n.trailing_zeros();
    let mut switched = std::mem::take(&mut room.switched);
    switch_into(set, switch, input, &mut switched);
    room.turning.fill(0);
    let body = &mut room.turning[set.dim * n..];
    rotate_into(body, table, (2 * n - mark(switched[set.key_bits], log)) % (2 * n));
    let size = count * set.levels * count * n;
    for i in 0..set.key_bits {
        let amount = mark(switched[i], log);
        for j in 0..count {
            let poly = &room.turning[j * n..(j + 1) * n];
            let away = &mut room.away[j * n..(j + 1) * n];
            rotate_into(away, poly, amount);
            for (o, x) in away.iter_mut().zip(poly) {
                *o = o.wrapping_sub(*x);
            }
        }
        external_add(set, &boot[i * size..(i + 1) * size], room);
    }
    room.switched = switched;
    for j in 0..set.dim {
        let poly = &room.turning[j * n..(j + 1) * n];
        out[j * n] = poly[0];
        for i in 1..n {
            out[j * n + i] = poly[n - i].wrapping_neg();
        }
    }
    out[set.dim * n] = room.turning[set.dim * n];
}

fn words(count: usize, seed: u64) -> Vec<u64> {
    (1..=count as u64).map(|i| (i ^ seed).wrapping_mul(0x9E37_79B9_7F4A_7C15).rotate_left(29).wrapping_mul(0xBF58_476D_1CE4_E5B9)).collect()
}

fn main() {
    let number = |place| env::args().nth(place).and_then(|word| word.parse::<usize>().ok()).unwrap_or(0);
    let set = Set {
        size: number(1),
        key_bits: number(2),
        dim: number(3),
        base_log: number(4) as u32,
        levels: number(5),
        switch_base_log: number(6) as u32,
        switch_levels: number(7),
    };
    let times = number(8);
    let (n, count) = (set.size, set.dim + 1);
    let boot = words(set.key_bits * count * set.levels * count * n, 1);
    let switch = words(set.dim * n * set.switch_levels * (set.key_bits + 1), 2);
    let table: Vec<u64> = (0..n as u64).map(|i| (i / 16) << 58).collect();
    let mut input = words(set.dim * n + 1, 3);
    let mut out = vec![0; set.dim * n + 1];
    let mut room = Room {
        switched: vec![0; set.key_bits + 1],
        turning: vec![0; count * n],
        away: vec![0; count * n],
        digits: vec![0; n],
        scratch: vec![0; 4 * n],
    };
    let start = Instant::now();
    for _ in 0..times {
        bootstrap(&set, &mut room, &boot, &switch, &table, &input, &mut out);
        input.copy_from_slice(&out);
    }
    let whole = start.elapsed().as_nanos();
    let digits: Vec<i64> = (0..n as i64).map(|i| (i * 7919) % 4096 - 2048).collect();
    let start = Instant::now();
    for i in 0..times * set.key_bits * count * set.levels * count {
        let row = i * n % (boot.len() - n + 1) / n * n;
        product_add(&mut room.turning[..n], &digits, &boot[row..row + n], &mut room.scratch);
    }
    println!("{} {whole} {}", out[0] ^ room.turning[0], start.elapsed().as_nanos());
}
