//! Products and quotients of doubles by whole numbers alone, rounded to the
//! nearest double, to the even one on a tie. No operation of f64 is used, so that
//! what the machine's own come to can be held to it.

/// The bits of a double behind its exponent.
const FRACTION: u32 = 52;

/// The exponent of the last bit of a subnormal.
const LEAST: i32 = -1074;

/// A double above zero and not infinite as whole·2^exponent.
pub fn parts(x: f64) -> (u64, i32) {
    let bits = x.to_bits();
    assert!(0 < bits && bits < f64::INFINITY.to_bits());
    let (biased, fraction) = (bits >> FRACTION, bits & ((1 << FRACTION) - 1));
    match biased {
        0 => (fraction, LEAST),
        _ => (fraction | 1 << FRACTION, LEAST + biased as i32 - 1),
    }
}

/// The double nearest to whole·2^exponent; with `more`, to something above that
/// by less than a unit of `whole`. Zero and infinity are possible.
fn nearest(whole: u128, exponent: i32, more: bool) -> f64 {
    let length = (u128::BITS - whole.leading_zeros()) as i32;
    // 53 bits are kept, or fewer where the last would lie below a subnormal's.
    let mut unit = (exponent + length - 53).max(LEAST);
    let cut = unit - exponent;
    assert!(cut > 0 || !more && cut == 0, "all of the bits are known");
    let mut kept = match cut {
        0 => whole,
        // Below half of a unit.
        _ if cut > length => 0,
        _ => {
            let kept = whole >> cut;
            let rest = whole - (kept << cut);
            let half = 1 << (cut - 1);
            let up = rest > half || rest == half && (more || kept % 2 == 1);
            kept + u128::from(up)
        }
    };
    if kept == 1 << 53 {
        kept >>= 1;
        unit += 1;
    }
    let kept = kept as u64;
    if kept < 1 << FRACTION {
        return f64::from_bits(kept);
    }
    let biased = (unit - LEAST + 1) as u64;
    if biased > 2046 {
        return f64::INFINITY;
    }
    f64::from_bits(biased << FRACTION | (kept - (1 << FRACTION)))
}

/// x·y.
pub fn product(x: f64, y: f64) -> f64 {
    let ((x, i), (y, j)) = (parts(x), parts(y));
    nearest(u128::from(x) * u128::from(y), i + j, false)
}

/// x/y.
pub fn quotient(x: f64, y: f64) -> f64 {
    let ((x, i), (y, j)) = (parts(x), parts(y));
    // Up to the top bit, so that the quotient has more than 53 bits.
    let up = u128::from(x).leading_zeros() as i32;
    let (x, y) = (u128::from(x) << up, u128::from(y));
    nearest(x / y, i - up - j, x % y != 0)
}

#[cfg(test)]
mod tests {
    use super::*;
    use crate::random::Random;

    const TINY: f64 = f64::from_bits(1);

    /// A double above zero and not infinite, of any size.
    fn any(random: &mut Random) -> f64 {
        let most = f64::INFINITY.to_bits();
        let bits = match random.below(4) {
            0 => random.bits() % (1 << FRACTION),
            1 => random.bits() % 64,
            2 => most - 1 - random.bits() % 64,
            _ => random.bits() % (most - 1),
        };
        f64::from_bits(bits.max(1))
    }

    /// The machine's products and quotients are these.
    #[test]
    fn as_the_machine() {
        let mut random = Random::new(1);
        let mut kinds = [0; 3];
        for _ in 0..200_000 {
            let (x, y) = (any(&mut random), any(&mut random));
            for (here, machine) in [(product(x, y), x * y), (quotient(x, y), x / y)] {
                assert_eq!(here.to_bits(), machine.to_bits(), "{x:e} {y:e}");
                kinds[0] += usize::from(here == 0.0);
                kinds[1] += usize::from(here.is_subnormal());
                kinds[2] += usize::from(here.is_infinite());
            }
        }
        assert!(kinds.iter().all(|&count| count > 1000), "{kinds:?}");
    }

    /// Ties go to the even one, also at the least subnormal and at the largest
    /// double.
    #[test]
    fn ties() {
        assert_eq!(product(0.5, TINY).to_bits(), 0);
        assert_eq!(product(0.75, TINY).to_bits(), 1);
        assert_eq!(product(1.5, TINY).to_bits(), 2);
        assert_eq!(product(2.5, TINY).to_bits(), 2);
        assert_eq!(product(3.5, TINY).to_bits(), 4);
        assert_eq!(quotient(TINY, 2.0).to_bits(), 0);
        assert_eq!(quotient(f64::from_bits(3), 2.0).to_bits(), 2);
        // (1 + 2^-52)(2 - 2^-51) is 2 - 2^-103.
        let (x, y) = (1.0 + f64::EPSILON, 2.0 - 2.0 * f64::EPSILON);
        assert_eq!(product(x, y).to_bits(), 2f64.to_bits());
        assert_eq!(product(f64::MAX, x).to_bits(), f64::INFINITY.to_bits());
        assert_eq!(product(f64::MAX, 1.0).to_bits(), f64::MAX.to_bits());
    }
}
