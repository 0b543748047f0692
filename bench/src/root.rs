//! The proved root beside the machine's own and two in C, in one run: ns per
//! call and the ratios.

use std::hint::black_box;
use std::time::Instant;

use oracle::flat::same;
use pixel_step::sqrt;

const COUNT: usize = 4096;
const ROUNDS: usize = 400;
const RUNS: usize = 15;

/// For the root that finds a binary digit a turn, which takes over ten times as long
const BITWISE_ROUNDS: usize = 10;

/// What the table has a pair of lines for: a name, and patterns from one up to another
const RANGES: [(&str, u64, u64); 4] = [
    ("normal", 0x0010_0000_0000_0000, 0x7FF0_0000_0000_0000),
    ("0.5 to 4", 0x3FE0_0000_0000_0000, 0x4010_0000_0000_0000),
    ("around one", 0x3FEF_FFFF_FE00_0000, 0x3FF0_0000_0100_0000),
    ("subnormal", 1, 0x0010_0000_0000_0000),
];

#[link(name = "roots", kind = "static")]
unsafe extern "C" {
    safe fn root_by_products(x: f64) -> f64;
    safe fn root_bit_by_bit(x: f64) -> f64;
}

#[inline(never)]
fn machine_sqrt(x: f64) -> f64 {
    x.sqrt()
}

/// The method of musl: a table and multiplications. The function in C is reached by a jump from
/// here, as the proved one is from `pixel_step::sqrt`.
#[inline(never)]
fn by_products(x: f64) -> f64 {
    root_by_products(x)
}

/// The method of fdlibm and newlib: a binary digit a turn. Reached in the same way.
#[inline(never)]
fn bit_by_bit(x: f64) -> f64 {
    root_bit_by_bit(x)
}

/// xorshift64*, so that each run has the same inputs
fn next(state: &mut u64) -> u64 {
    *state ^= *state >> 12;
    *state ^= *state << 25;
    *state ^= *state >> 27;
    state.wrapping_mul(0x2545_F491_4F6C_DD1D)
}

/// Numbers from `low` up to `high`
fn numbers(low: u64, high: u64) -> impl Iterator<Item = u64> {
    let mut state = 0x9E37_79B9_7F4A_7C15;
    (0..COUNT).map(move |_| low + next(&mut state) % (high - low))
}

/// ns per call where calls do not wait for each other, and where each waits for the last one's
/// result
fn time(root: impl Fn(f64) -> f64, values: &[f64], rounds: usize) -> [f64; 2] {
    let calls = (rounds * values.len()) as f64;
    let mut best = [f64::INFINITY; 2];
    for _ in 0..RUNS {
        let start = Instant::now();
        for _ in 0..rounds {
            for &x in values {
                black_box(root(x));
            }
        }
        best[0] = best[0].min(start.elapsed().as_nanos() as f64 / calls);
        let start = Instant::now();
        let mut chained = 0.0;
        for _ in 0..rounds {
            for &x in values {
                chained = root(x + chained * 0.0);
            }
        }
        black_box(chained);
        best[1] = best[1].min(start.elapsed().as_nanos() as f64 / calls);
    }
    best
}

/// Every root has the machine's bits, any NaN for any other.
fn check(x: f64) {
    let root = x.sqrt();
    for (name, other) in [
        ("proved", sqrt(x)),
        ("musl's method", by_products(x)),
        ("bit by bit", bit_by_bit(x)),
    ] {
        assert!(same(root, other), "{name}, {x:e}: {other:e}, not {root:e}");
    }
}

/// What is not timed, of either sign and with its neighbors: the special values, each power of
/// two, exact squares, and what has a root almost half-way between two floats.
fn check_untimed() {
    let specials = [0.0, f64::INFINITY, f64::NAN].map(f64::to_bits).into_iter();
    let subnormals = (0..52).map(|bit| 1 << bit);
    let normals = (1..0x7FF).map(|exponent| exponent << 52);
    let powers = subnormals.chain(normals);
    let squares = numbers(1 << 25, 1 << 26).map(|root| ((root * root) as f64).to_bits());
    let halves = (-1024..1024).map(|c| half_way(8 * c + 1).to_bits());
    for bits in specials.chain(powers).chain(squares).chain(halves) {
        for x in [bits.saturating_sub(1), bits, bits + 1].map(f64::from_bits) {
            check(x);
            check(-x);
        }
    }
}

/// (h² − c) ÷ 2^54, of 53 or 54 digits, for an h with one digit more than a float's. For a small c
/// its root is almost h ÷ 2^27, which is half-way. Where 8 divides c − 1 there is an h, found here
/// digit by digit, so that the quotient is a whole number, and an even one.
fn half_way(c: i64) -> f64 {
    let mut h: u64 = 1;
    for place in 3..55 {
        let wrong = (h.wrapping_mul(h) ^ c as u64) >> place & 1;
        h += wrong << (place - 1);
    }
    let h = i128::from(h.max((1 << 54) - h));
    ((h * h - i128::from(c)) >> 54) as f64
}

pub fn print() {
    check_untimed();
    println!(
        "| inputs | calls | machine, ns | proved, ns | musl's method, ns | bit by bit, ns \
         | proved / machine | proved / musl's |"
    );
    println!("|---|---|---|---|---|---|---|---|");
    for (name, low, high) in RANGES {
        let values: Vec<f64> = numbers(low, high).map(f64::from_bits).collect();
        values.iter().copied().for_each(check);
        let machine = time(machine_sqrt, &values, ROUNDS);
        let proved = time(sqrt, &values, ROUNDS);
        let products = time(by_products, &values, ROUNDS);
        let bitwise = time(bit_by_bit, &values, BITWISE_ROUNDS);
        for (place, kind) in ["independent", "chained"].into_iter().enumerate() {
            let [m, p, t, b] = [machine, proved, products, bitwise].map(|pair| pair[place]);
            println!(
                "| {name} | {kind} | {m:.2} | {p:.2} | {t:.2} | {b:.2} | {:.2} | {:.2} |",
                p / m,
                p / t
            );
        }
    }
}
