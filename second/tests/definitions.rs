// The transform against the matrix power and the halves, the check polynomials against remainders
// worked out by hand and by a shift register, and the ones in front of the free bits.

mod common;
use common::{any_sheet, check_kept, ones, register, register_bits};
use second::check::{checked_sequence, polynomial, remainder};
use second::code::{free_bits, keeps, transform};
use second::limits::LARGEST_EXPONENT;
use second::make::{bits, Misreading, MISREADINGS};
use second::rng::Rng;

fn random(rng: &mut Rng, length: usize) -> Vec<bool> {
    bits(rng, length).into_iter().map(|bit| bit == 1).collect()
}

/// The entry of the n-fold Kronecker power of F = [1 0; 1 1] at row i, column j.
fn entry(n: usize, i: usize, j: usize) -> bool {
    let f = [[true, false], [true, true]];
    (0..n).all(|bit| f[i >> bit & 1][j >> bit & 1])
}

#[test]
fn transform_is_the_matrix_power() {
    let mut rng = Rng::new(1);
    for n in 0..=LARGEST_EXPONENT {
        let u = random(&mut rng, 1 << n);
        let x: Vec<bool> = (0..1 << n)
            .map(|j| (0..1 << n).filter(|&i| u[i] && entry(n, i, j)).count() % 2 == 1)
            .collect();
        assert_eq!(transform(&u), x);
        assert_eq!(transform(&x), u, "its own inverse");
    }
}

#[test]
fn transform_splits_into_halves() {
    let mut rng = Rng::new(2);
    for n in 1..=LARGEST_EXPONENT {
        let u = random(&mut rng, 1 << n);
        let (left, right) = u.split_at(1 << (n - 1));
        let (v, w) = (transform(left), transform(right));
        let mut x: Vec<bool> = v.iter().zip(&w).map(|(a, b)| a ^ b).collect();
        x.extend(&w);
        assert_eq!(transform(&u), x);
    }
}

fn text(bits: &[bool]) -> String {
    bits.iter()
        .map(|&bit| if bit { '1' } else { '0' })
        .collect()
}

/// The remainder of a payload shifted by r.
fn shifted(payload: &str, r: usize) -> String {
    let mut sequence: Vec<bool> = payload.chars().map(|c| c == '1').collect();
    sequence.extend(vec![false; r]);
    text(&remainder(&sequence, r))
}

#[test]
fn remainders_by_hand() {
    // D^6 = D^5 + 1, so D^7 = D^6 + D = D^5 + D + 1
    assert_eq!(shifted("1", 6), "100001");
    assert_eq!(shifted("10", 6), "100011");
    assert_eq!(shifted("11", 6), "000010");
    // D^11 = D^10 + D^9 + D^5 + 1, so D^12 = D^9 + D^6 + D^5 + D + 1 after D^11 is replaced
    assert_eq!(shifted("1", 11), "11000100001");
    assert_eq!(shifted("10", 11), "01001100011");
    assert_eq!(shifted("1011", 0), "");
    for r in 0..300 {
        assert_eq!(polynomial(r).is_some(), [0, 6, 11].contains(&r), "r = {r}");
    }
}

#[test]
fn remainders_by_a_register() {
    let mut rng = Rng::new(3);
    let mut divided = 0;
    for r in [6, 11] {
        for length in r + 1..=1 << LARGEST_EXPONENT {
            let sequence = random(&mut rng, length);
            let rest = remainder(&sequence, r);
            let number = register(0, &sequence, r);
            assert_eq!(rest, register_bits(number, r));
            // with the remainder added at its end the sequence is divided
            let mut whole = sequence.clone();
            for (bit, rest) in whole[length - r..].iter_mut().zip(&rest) {
                *bit ^= rest;
            }
            assert_eq!(remainder(&whole, r), vec![false; r]);
            divided += usize::from(number == 0);
        }
    }
    assert!(divided < 20, "most sequences are not divided");
}

/// The remainder of what the check divides.
fn checked(free_bits: &[bool], r: usize) -> Vec<bool> {
    remainder(&checked_sequence(free_bits, r), r)
}

#[test]
fn the_check_starts_from_ones() {
    let mut rng = Rng::new(5);
    for r in [6, 11] {
        // r ones go into an empty register and fill it
        assert_eq!(register(0, &vec![true; r], r), ones(r));
        for k in r + 1..=1 << LARGEST_EXPONENT {
            let bits = random(&mut rng, k);
            let in_front = [vec![true; r], bits.clone()].concat();
            assert_eq!(checked(&bits, r), remainder(&in_front, r));
            let preset = register(ones(r), &bits, r);
            assert_eq!(checked(&bits, r), register_bits(preset, r));
        }
    }
    assert_eq!(checked_sequence(&[false, true], 0), [false, true]);
}

/// The check bits of a payload.
fn check_bits(payload: &str, r: usize) -> String {
    let bits: Vec<bool> = payload.chars().map(|c| c == '1').collect();
    text(&checked(&[bits, vec![false; r]].concat(), r))
}

#[test]
fn check_bits_by_hand() {
    // r = 6 as in tests/bench.rs; the payload bit 1 adds D^6 = 100001
    assert_eq!(check_bits("0", 6), "110101");
    assert_eq!(check_bits("1", 6), "010100");
    // r = 11: eleven ones, the payload bit 0 and eleven zeros; the bit 1 adds D^11 = 11000100001
    //   11111111111000000000000
    //   111000100001
    //      111011111000
    //      111000100001
    //          110110010000
    //          111000100001
    //            111011000100
    //            111000100001
    //               01110010100
    assert_eq!(check_bits("0", 11), "01110010100");
    assert_eq!(check_bits("1", 11), "10110110101");
    assert_eq!(check_bits("1011", 0), "");
}

/// The least t above 0 with D^t = 1 modulo the polynomial.
fn order_of_d(r: usize) -> usize {
    let mut power = vec![true];
    loop {
        power.push(false);
        if register(0, &power, r) == 1 {
            return power.len() - 1;
        }
    }
}

#[test]
fn zeros_in_front_are_seen() {
    let mut rng = Rng::new(6);
    // where r = 6, D has order 63, so that a multiple of 63 zeros goes unseen; where r = 11, 2047
    for (r, order) in [(6, 63), (11, 2047)] {
        assert_eq!(order_of_d(r), order);
        for zeros in 1..1 << LARGEST_EXPONENT {
            let k = rng.within(r + 1, 1 << LARGEST_EXPONENT);
            let bits = random(&mut rng, k);
            let longer = [vec![false; zeros], bits.clone()].concat();
            // without ones in front they change nothing
            assert_eq!(remainder(&longer, r), remainder(&bits, r));
            let [before, after] = [&bits, &longer].map(|bits| checked(bits, r));
            assert_eq!(before == after, zeros % order == 0, "{zeros} zeros");
            // what they change is what a register of ones comes to in so many steps more
            let [short, long] = [k, k + zeros]
                .map(|steps| register_bits(register(ones(r), &vec![false; steps], r), r));
            for power in 0..r {
                assert_eq!(before[power] ^ after[power], short[power] ^ long[power]);
            }
        }
    }
}

#[test]
fn no_misreading_is_the_check() {
    for r in [6, 11] {
        for k in r + 1..=1 << LARGEST_EXPONENT {
            let payload = vec![0; k - r];
            for misreading in MISREADINGS {
                let bits = misreading.free_bits(&payload, r);
                assert!(misreading.keeps(&bits, r));
                // r ones behind are r ones in front where D^(K + r) = 1
                let same = (r, misreading) == (6, Misreading::OnesBehind) && (k + r) % 63 == 0;
                assert_eq!(check_kept(&bits, r), same, "{misreading:?}, K {k}");
                assert_eq!(checked(&bits, r) == vec![false; r], same);
            }
        }
    }
}

#[test]
fn every_rule_and_the_check_is_kept() {
    // of all u of N = 8 exactly 2^(K-r) keep rules and check, whatever the rules are
    let mut rng = Rng::new(4);
    for round in 0..200 {
        let r = if round % 2 == 0 { 0 } else { 6 };
        let (_, sheet) = any_sheet(&mut rng, 3, r);
        let kept = (0..256)
            .map(|t| (0..8).map(|i| t >> i & 1 == 1).collect::<Vec<bool>>())
            .filter(|u| keeps(&sheet, r, u))
            .inspect(|u| {
                assert!(check_kept(&free_bits(&sheet, u), r));
            })
            .count();
        assert_eq!(kept, 1 << (sheet.k() - r));
    }
}
