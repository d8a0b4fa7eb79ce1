//! "Field and digits": the primes, the half range, sums modulo a prime, and
//! "Constants near zero".

/// The 53 odd primes from 3 to 251.
pub const PRIMES: [u8; 53] = [
    3, 5, 7, 11, 13, 17, 19, 23, 29, 31, 37, 41, 43, 47, 53, 59, 61, 67, 71, 73, 79, 83, 89, 97,
    101, 103, 107, 109, 113, 127, 131, 137, 139, 149, 151, 157, 163, 167, 173, 179, 181, 191, 193,
    197, 199, 211, 223, 227, 229, 233, 239, 241, 251,
];

/// The most digits of a number, of a condition and of a card, and the most slots
/// of a side.
pub const MOST_DIGITS: usize = 16;

/// "p is one of the 53 odd primes from 3 to 251."
pub fn is_listed(p: u8) -> bool {
    PRIMES.binary_search(&p).is_ok()
}

/// B = (p+1)/2; digits are below it.
pub fn half_range(p: u8) -> u8 {
    p / 2 + 1
}

/// floor(log2(x)) of a positive x.
pub fn floor_log2(x: u32) -> u32 {
    x.ilog2()
}

/// ceil(log2(x)) of a positive x.
pub fn ceil_log2(x: u32) -> u32 {
    x.next_power_of_two().ilog2()
}

/// a + b modulo p, for a and b below p.
pub fn add(p: u8, a: u8, b: u8) -> u8 {
    reduce(p, u16::from(a) + u16::from(b))
}

/// a - b modulo p, for a and b below p.
pub fn sub(p: u8, a: u8, b: u8) -> u8 {
    reduce(p, u16::from(a) + u16::from(p) - u16::from(b))
}

/// a times b modulo p.
pub fn mul(p: u8, a: u8, b: u8) -> u8 {
    reduce(p, u16::from(a) * u16::from(b))
}

/// a times a signed constant modulo p.
pub fn scale(p: u8, a: u8, constant: i16) -> u8 {
    let product = i32::from(a) * i32::from(constant);
    product.rem_euclid(i32::from(p)) as u8
}

fn reduce(p: u8, x: u16) -> u8 {
    (x % u16::from(p)) as u8
}

/// "A signed 16-bit number from -(p-1)/2 to (p-1)/2."
pub fn is_near_zero(p: u8, constant: i16) -> bool {
    let most = i16::from(p / 2);
    (-most..=most).contains(&constant)
}

/// The signed number of that range that is "equal to the old constant modulo
/// p", for a constant below p.
pub fn near_zero(p: u8, constant: u8) -> i16 {
    let constant = i16::from(constant);
    if is_near_zero(p, constant) {
        constant
    } else {
        constant - i16::from(p)
    }
}

/// The constants c_i of an order digit, in the order in which they are used:
/// i = 1, 3, .. p-2, then p-1.
///
/// "For odd i, c_i is the sum of b^(p-1-i), b from 1 to (p-1)/2, modulo p;
/// c_(p-1) = (p+1)/2."
pub fn order_constants(p: u8) -> Vec<u8> {
    let half = p / 2;
    let mut constants = vec![0; usize::from(half)];
    for b in 1..=half {
        let square = mul(p, b, b);
        let mut power = b;
        // p-1-i is 1 for the last odd i, and 2 more for each one before it.
        for constant in constants.iter_mut().rev() {
            *constant = add(p, *constant, power);
            power = mul(p, power, square);
        }
    }
    constants.push(half_range(p));
    constants
}
