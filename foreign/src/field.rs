//! The field of 256 elements: bytes as polynomials over two elements modulo 0x11B, without tables.

/// The product, by shift and add; the shifted factor is reduced at every step.
pub fn mul(a: u8, b: u8) -> u8 {
    let mut sum = 0u16;
    let mut shifted = u16::from(a);
    for bit in 0..8 {
        if (b >> bit) & 1 == 1 {
            sum ^= shifted;
        }
        shifted <<= 1;
        if shifted & 0x100 != 0 {
            shifted ^= 0x11B;
        }
    }
    sum as u8
}

/// The inverse, by search; 0 for 0.
pub fn inv(a: u8) -> u8 {
    (0..=255).find(|&x| mul(a, x) == 1).unwrap_or(0)
}

/// `a` to the power `k`, by squaring; 0 to the power 0 is 1.
pub fn pow(a: u8, k: u64) -> u8 {
    let mut result = 1;
    let mut square = a;
    let mut rest = k;
    while rest > 0 {
        if rest & 1 == 1 {
            result = mul(result, square);
        }
        square = mul(square, square);
        rest >>= 1;
    }
    result
}

#[cfg(test)]
mod tests {
    use super::*;

    #[test]
    fn worked_cases() {
        assert_eq!(mul(0x57, 0x83), 0xC1);
        assert_eq!(inv(0x02), 0x8D);
        assert_eq!(mul(0x57, 0x13), 0xFE); // FIPS 197
    }

    #[test]
    fn products_obey_the_laws() {
        for a in 0..=255u8 {
            assert_eq!(mul(a, 1), a);
            assert_eq!(mul(a, 0), 0);
            for b in 0..=255u8 {
                assert_eq!(mul(a, b), mul(b, a));
                assert_eq!(mul(a, b ^ 0x1D), mul(a, b) ^ mul(a, 0x1D));
                assert_eq!(mul(mul(a, b), 0x35), mul(a, mul(b, 0x35)));
            }
        }
    }

    #[test]
    fn inverses_by_search_and_by_fermat_agree() {
        assert_eq!(inv(0), 0);
        for a in 1..=255u8 {
            assert_eq!(mul(a, inv(a)), 1);
            assert_eq!(inv(a), pow(a, 254));
        }
    }

    #[test]
    fn powers_agree_with_repeated_products() {
        for a in 0..=255u8 {
            let mut product = 1;
            for k in 0..600u64 {
                assert_eq!(pow(a, k), product);
                product = mul(product, a);
            }
        }
        assert_eq!(pow(0, 0), 1);
        assert_eq!(pow(0, u64::MAX), 0);
        assert_eq!(pow(3, u64::MAX), 1); // 255 divides two to the 64 less one
    }

    #[test]
    fn three_generates_the_field() {
        let first = (1..=255u64).find(|&k| pow(3, k) == 1);
        assert_eq!(first, Some(255));
    }
}
