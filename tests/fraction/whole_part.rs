//! The proved whole part beside the machine's own conversion: every exponent with edge fractions, both signs, and random words.

#[link(name = "fraction_c")]
extern "C" {
    fn whole_part_of(x: f64) -> u64;
}

const FRACTION_BITS: u32 = 52;
const EXPONENTS: u64 = 2048;
const RANDOM_WORDS: u64 = 10_000_000;

/// The numbers of docs/WHOLE_PART.md: the number, its sign, exponent and fraction, and its whole part.
const BY_HAND: [(f64, u64, u64, u64, u64); 7] = [
    (0.75, 0, 1022, 0x8000000000000, 0),
    (1.0, 0, 1023, 0, 1),
    (6.5, 0, 1025, 0xa000000000000, 6),
    (4505.6, 0, 1035, 0x199999999999a, 4505),
    (18446744073709549568.0, 0, 1086, 0xfffffffffffff, 18446744073709549568),
    (18446744073709551616.0, 0, 1087, 0, u64::MAX),
    (-6.5, 1, 1025, 0xa000000000000, 0),
];

fn word(sign: u64, exponent: u64, fraction: u64) -> u64 {
    sign << 63 | exponent << FRACTION_BITS | fraction
}

/// The library's whole part of the float with this word; it must be the machine's.
fn whole(word: u64) -> u64 {
    let x = f64::from_bits(word);
    let proved = unsafe { whole_part_of(x) };
    assert_eq!(proved, x as u64, "the whole part of {x:?}, word {word:#018x}");
    proved
}

/// 0, 1, the largest, and each power of two with its neighbours.
fn edge_fractions() -> Vec<u64> {
    let largest = (1 << FRACTION_BITS) - 1;
    let mut fractions = vec![0, largest];
    for bit in 0..FRACTION_BITS {
        let power = 1 << bit;
        fractions.extend([power - 1, power, power + 1, largest - power]);
    }
    fractions.sort_unstable();
    fractions.dedup();
    fractions
}

/// The next of a sequence of words in no order (splitmix64).
fn next(state: &mut u64) -> u64 {
    *state = state.wrapping_add(0x9e3779b97f4a7c15);
    let mut z = *state;
    z = (z ^ z >> 30).wrapping_mul(0xbf58476d1ce4e5b9);
    z = (z ^ z >> 27).wrapping_mul(0x94d049bb133111eb);
    z ^ z >> 31
}

fn main() {
    for (number, sign, exponent, fraction, answer) in BY_HAND {
        let word = word(sign, exponent, fraction);
        assert_eq!(number.to_bits(), word, "the fields of {number:?}");
        assert_eq!(whole(word), answer, "the whole part of {number:?}");
    }
    let fractions = edge_fractions();
    let mut answered = [0u64; 3];
    for exponent in 0..EXPONENTS {
        for &fraction in &fractions {
            for sign in [0, 1] {
                let answer = whole(word(sign, exponent, fraction));
                answered[usize::from(answer != 0) + usize::from(answer == u64::MAX)] += 1;
            }
        }
    }
    let mut state = 1;
    for _ in 0..RANDOM_WORDS {
        let random = next(&mut state);
        whole(random);
        whole(word(0, 1000 + random % 100, random >> 12));
    }
    println!("{} numbers by hand", BY_HAND.len());
    println!("{EXPONENTS} exponents x {} fractions x 2 signs", fractions.len());
    let [zero, between, largest] = answered;
    println!("of these {zero} have the whole part 0, {between} one between, {largest} the largest");
    println!("{RANDOM_WORDS} random words, and as many numbers with exponents around those of whole parts");
    println!("no difference from the machine's conversion");
}
