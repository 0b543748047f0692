//! A stream of numbers from a seed, of every kind.

/// 2 to the given power, which is that of a normal number.
pub(super) const fn two_to(exponent: i64) -> f64 {
    f64::from_bits(((1023 + exponent) as u64) << 52)
}

/// Numbers at which something changes. Negative ones and neighbors are made
/// from these.
pub const SPECIALS: [f64; 37] = [
    0.0,
    -0.0,
    f64::INFINITY,
    f64::NEG_INFINITY,
    f64::NAN,
    f64::from_bits((0x7FF << 52) + 1), // a signalling NaN
    f64::from_bits(1),                 // least subnormal
    f64::from_bits((1 << 52) - 1),     // largest subnormal
    f64::MIN_POSITIVE,
    f64::MAX,
    1e308, // twice this overflows
    1e-200,
    1e200,
    two_to(-48),
    two_to(-47),
    two_to(-46), // 64ε: pivots and depths
    two_to(-45),
    3.0 * two_to(-46), // 192ε: weak blocks
    two_to(-44),
    two_to(-92), // a scaled pivot of 64ε
    two_to(-91),
    f64::EPSILON,
    two_to(-53),
    0.5,
    1.0,
    2.0,
    3.0,
    4.0,
    1024.0,
    two_to(511),
    two_to(512), // its square overflows
    two_to(-511),
    two_to(-537), // its square is the least subnormal
    two_to(-538),
    two_to(-976),            // below this a floor of 64ε loses bits
    f64::from_bits(1 << 45), // 2^-1029: below this it is lost
    f64::from_bits((1 << 45) - 1),
];

/// A stream of numbers from a seed.
#[derive(Clone, Copy, Debug)]
pub struct Source(u64);

impl Source {
    pub const fn new(seed: u64) -> Self {
        Self(seed)
    }

    /// 64 bits (splitmix64).
    pub fn next_bits(&mut self) -> u64 {
        self.0 = self.0.wrapping_add(0x9E37_79B9_7F4A_7C15);
        let mut z = self.0;
        z = (z ^ (z >> 30)).wrapping_mul(0xBF58_476D_1CE4_E5B9);
        z = (z ^ (z >> 27)).wrapping_mul(0x94D0_49BB_1331_11EB);
        z ^ (z >> 31)
    }

    /// A whole number below `bound`, which is not zero.
    pub fn below(&mut self, bound: usize) -> usize {
        ((u128::from(self.next_bits()) * bound as u128) >> 64) as usize
    }

    /// True once in `times`.
    pub fn once_in(&mut self, times: usize) -> bool {
        self.below(times) == 0
    }

    /// From 0 up to but not 1.
    pub fn unit(&mut self) -> f64 {
        (self.next_bits() >> 11) as f64 / (1u64 << 53) as f64
    }

    /// From `low` up to `high`.
    pub fn between(&mut self, low: f64, high: f64) -> f64 {
        low + (high - low) * self.unit()
    }

    /// Any pattern of 64 bits.
    pub fn pattern(&mut self) -> f64 {
        f64::from_bits(self.next_bits())
    }

    /// Any finite pattern.
    pub fn finite(&mut self) -> f64 {
        loop {
            let value = self.pattern();
            if value.is_finite() {
                return value;
            }
        }
    }

    /// A special, either sign, now and then a neighbor of it.
    pub fn special(&mut self) -> f64 {
        let value = SPECIALS[self.below(SPECIALS.len())];
        let value = match self.below(6) {
            0 => value.next_up(),
            1 => value.next_down(),
            _ => value,
        };
        if self.once_in(4) { -value } else { value }
    }

    /// Between 2^-10 and 2^10 in size, either sign.
    pub fn moderate(&mut self) -> f64 {
        let exponent = 1023 - 10 + self.below(20) as u64;
        let value = f64::from_bits(exponent << 52 | self.next_bits() >> 12);
        if self.once_in(2) { -value } else { value }
    }

    /// A small whole number, for exact sums and exact cancellation.
    pub fn small(&mut self) -> f64 {
        self.below(9) as f64 - 4.0
    }

    /// Any of the kinds above.
    pub fn mixed(&mut self) -> f64 {
        match self.below(8) {
            0 => self.pattern(),
            1 => self.finite(),
            2 | 3 => self.special(),
            4 => self.small(),
            _ => self.moderate(),
        }
    }

    /// `N` numbers, all of one kind or mixed.
    pub fn numbers<const N: usize>(&mut self) -> [f64; N] {
        let kind = self.below(6);
        std::array::from_fn(|_| match kind {
            0 => self.pattern(),
            1 => self.special(),
            2 => self.small(),
            3 => self.mixed(),
            _ => self.moderate(),
        })
    }

    /// `N` moderate numbers.
    pub fn moderates<const N: usize>(&mut self) -> [f64; N] {
        std::array::from_fn(|_| self.moderate())
    }

    /// Puts a special, or a neighbor of what is there, in one to three places.
    pub fn damage(&mut self, places: &mut [&mut f64]) {
        if places.is_empty() {
            return;
        }
        for _ in 0..=self.below(3) {
            let place = self.below(places.len());
            *places[place] = match self.below(8) {
                0 => places[place].next_up(),
                1 => places[place].next_down(),
                2 => self.pattern(),
                3 => -*places[place],
                _ => self.special(),
            };
        }
    }

    /// The same over an array.
    pub fn damage_numbers(&mut self, numbers: &mut [f64]) {
        self.damage(&mut numbers.iter_mut().collect::<Vec<_>>());
    }

    /// A power of two from 2^-1074 to 2^1023.
    pub fn power(&mut self) -> f64 {
        match self.below(2098) as u64 {
            exponent @ 0..52 => f64::from_bits(1 << exponent),
            exponent => f64::from_bits((exponent - 51) << 52),
        }
    }
}
