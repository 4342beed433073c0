// The products of a bootstrap as a plain double loop, for `bench/bootstrap` to compare with:
// `products N COUNT` adds COUNT products of polynomials modulo X^N + 1, and prints a word of the sum and the
// nanoseconds.
use std::env;
use std::time::Instant;

fn product_add(acc: &mut [u64], small: &[i64], big: &[u64]) {
    let n = acc.len();
    for j in 0..n {
        let factor = small[j] as u64;
        for i in 0..n - j {
            acc[i + j] = acc[i + j].wrapping_add(factor.wrapping_mul(big[i]));
        }
        for i in n - j..n {
            acc[i + j - n] = acc[i + j - n].wrapping_sub(factor.wrapping_mul(big[i]));
        }
    }
}

fn main() {
    let number = |place| env::args().nth(place).and_then(|word| word.parse::<usize>().ok()).unwrap_or(0);
    let (n, count) = (number(1), number(2));
    let small: Vec<i64> = (0..n as i64).map(|i| (i * 7919) % 4096 - 2048).collect();
    let big: Vec<u64> = (0..n as u64).map(|i| i.wrapping_mul(0x9E37_79B9_7F4A_7C15)).collect();
    let mut acc = vec![0u64; n];
    let start = Instant::now();
    for _ in 0..count {
        product_add(&mut acc, &small, &big);
    }
    println!("{} {}", acc[n / 2], start.elapsed().as_nanos());
}
