//! Parts and shares, exact.

/// `floor(a * b / c)` and the remainder, where `b <= c` and all are at most 10^17.
///
/// The quotient of doubles is off by at most 70, so what it leaves is told apart by the lower 64 bits alone.
#[inline(always)]
pub fn part(a: u64, b: u64, c: u64) -> (u64, u64) {
    let mut quotient = (a as f64 * (b as f64 / c as f64)) as u64;
    let mut rest = a.wrapping_mul(b).wrapping_sub(quotient.wrapping_mul(c)) as i64;
    while rest < 0 {
        quotient -= 1;
        rest += c as i64;
    }
    while rest >= c as i64 {
        quotient += 1;
        rest -= c as i64;
    }
    (quotient, rest as u64)
}

/// The part of a capacity for costs that a cost needs at a rate, rounded up.
#[inline(always)]
pub fn need(cost: u64, ppm: u64) -> u64 {
    match cost.checked_mul(ppm) {
        Some(millionths) => millionths.div_ceil(1_000_000),
        None => (u128::from(cost) * u128::from(ppm)).div_ceil(1_000_000) as u64,
    }
}

/// Shares an amount by weights that sum to `whole`, by largest remainder, of equal ones the first.
pub fn share(amount: u64, weights: &[u64], whole: u64, shares: &mut Vec<u64>, ranked: &mut Vec<(u64, u32)>) {
    shares.clear();
    ranked.clear();
    let mut given = 0;
    for (place, &weight) in weights.iter().enumerate() {
        let (share, remainder) = part(amount, weight, whole);
        given += share;
        shares.push(share);
        // Greatest remainder first.
        ranked.push((u64::MAX - remainder, place as u32));
    }
    let over = (amount - given) as usize;
    if over > 0 {
        if over < ranked.len() {
            ranked.select_nth_unstable(over);
        }
        for &(_, place) in &ranked[..over] {
            shares[place as usize] += 1;
        }
    }
}
