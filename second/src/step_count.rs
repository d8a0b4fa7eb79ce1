//! "Fewer products by a step size": what the tables of step sizes count, from
//! the card alone, and which step size is the best.

use crate::card::Card;
use crate::field::{ceil_log2, floor_log2, half_range, order_constants};
use crate::forecast::{joined_report, Share};
use crate::report::{Depth, Report};

/// "A step size k from 1 to (p-1)/2": the last one.
pub fn last_step(p: u8) -> u8 {
    half_range(p) - 1
}

/// A step size of a card, with what its table answers.
#[derive(Clone, Copy, Debug, PartialEq, Eq)]
pub struct Choice {
    pub step: u8,
    pub report: Report,
}

/// The best of all step sizes within the cap: "No k from 1 to (p-1)/2 within the
/// cap costs less than the one chosen; equal costs go to lower depth, then lower
/// k." `None` where no k is within the cap. The card is a plain one.
pub fn best_choice(card: &Card, cap: u16) -> Option<Choice> {
    let terms = order_terms(card.p);
    (1..=last_step(card.p))
        .map(|step| Choice {
            step,
            report: report_with(card, &terms, step),
        })
        .filter(|choice| choice.report.depth <= Depth(cap))
        // The first of equal ones, which has the lower k.
        .min_by_key(|choice| (choice.report.cost, choice.report.depth))
}

/// What the table of a plain card with this step size answers.
pub fn step_report(card: &Card, step: u8) -> Report {
    report_with(card, &order_terms(card.p), step)
}

fn report_with(card: &Card, terms: &[u8], step: u8) -> Report {
    let digits = DigitShares::new(card.p, terms, usize::from(step));
    joined_report(card, |n| digits.condition(n))
}

/// The constants of an order digit's sum, those of z^1 to z^(p-1): c_i for odd i
/// and for p-1, and 0 for the others.
pub fn order_terms(p: u8) -> Vec<u8> {
    let last = usize::from(p) - 1;
    let mut terms = vec![0; last];
    let places = (1..last).step_by(2).chain([last]);
    for (i, constant) in places.zip(order_constants(p)) {
        terms[i - 1] = constant;
    }
    terms
}

/// A piece without the zero terms at its end: its length is its degree, and it is
/// empty where it is zero.
pub fn piece_of(terms: &[u8]) -> &[u8] {
    let degree = terms.iter().rposition(|&c| c != 0).map_or(0, |i| i + 1);
    &terms[..degree]
}

/// "A larger piece splits at m = k times 2^(j-1), j least such that k times 2^j
/// reaches its degree": the highest k times a power of two below the degree,
/// which is larger than k.
pub fn split_place(step: usize, degree: usize) -> usize {
    let mut place = step;
    while 2 * place < degree {
        place *= 2;
    }
    place
}

/// What the two kinds of order digits have with one step size.
struct DigitShares {
    /// The lowest one, which has no E.
    lowest: Share,
    other: Share,
    /// E of a digit.
    equal_depth: u32,
}

impl DigitShares {
    fn new(p: u8, terms: &[u8], step: usize) -> DigitShares {
        let sum = SumCounts::new(terms, step);
        // LEFT, RIGHT and z come before the sum.
        let lowest = Share {
            gates: 3 + sum.gates,
            products: sum.products,
            squares: sum.squares,
            depth: sum.depth,
        };
        let t = u32::from(p) - 1;
        let (chain_squares, chain_products) = (floor_log2(t), t.count_ones() - 1);
        // The chain's first MUL is over z and z, as is that of z^2, and both count
        // once. All others of the chain are over gates of its own.
        let repeated = u32::from(sum.has_square_of_z);
        let other = Share {
            // The chain ends with a FLIP.
            gates: lowest.gates + chain_squares + chain_products + 1,
            products: lowest.products + chain_products,
            squares: lowest.squares + chain_squares - repeated,
            depth: lowest.depth,
        };
        DigitShares {
            lowest,
            other,
            equal_depth: ceil_log2(t),
        }
    }

    /// A condition of n digits: the digits and what joins them. A join has a MUL,
    /// an ADD and, unless its run has digit 0, a second MUL; flog(n) runs have it.
    fn condition(&self, n: u32) -> Share {
        let muls = 2 * (n - 1) - floor_log2(n);
        let (lowest, other) = (&self.lowest, &self.other);
        Share {
            gates: lowest.gates + (n - 1) * other.gates + muls + n - 1,
            products: lowest.products + (n - 1) * other.products + muls,
            squares: lowest.squares + (n - 1) * other.squares,
            depth: self.run_depth(n),
        }
    }

    /// L of a run of n digits. "MUL(E_high, L_low), ADD(L_high, it)", where E of m
    /// digits is a tree of MULs with ceil(log2(m)) levels.
    fn run_depth(&self, n: u32) -> u32 {
        if n == 1 {
            return self.lowest.depth;
        }
        let high = n - n / 2;
        let high_equal = self.equal_depth + ceil_log2(high);
        let decided_low = high_equal.max(self.run_depth(n / 2)) + 1;
        decided_low.max(self.run_depth(high))
    }
}

/// The gates of an order digit's sum, with those of the powers: products and
/// squares are those that the sum needs.
struct SumCounts {
    gates: u32,
    products: u32,
    squares: u32,
    depth: u32,
    /// Whether the sum needs a MUL over z and z.
    has_square_of_z: bool,
}

impl SumCounts {
    fn new(terms: &[u8], step: usize) -> SumCounts {
        let mut pieces = Pieces::new(step);
        let terms = piece_of(terms);
        let depth = pieces.depth_of(terms);
        // "Then squares to z^(2k), z^(4k), up to the highest split below": the
        // first split is the highest one, and needs z^k and each of them.
        let large_squares = (split_place(step, terms.len()) / step).ilog2();
        pieces.needed[step] = true;
        let (products, squares) = pieces.small_powers();
        let has_square_of_z = pieces.needed[2] || step == 1 && large_squares > 0;
        SumCounts {
            gates: step as u32 - 1 + large_squares + pieces.gates,
            products: products + pieces.splits,
            squares: squares + large_squares,
            depth,
            has_square_of_z,
        }
    }
}

/// Powers up to z^k fit, as k is at most 125, and so does z^2.
const PLACES: usize = 128;

/// What is met in the pieces of a sum.
struct Pieces {
    step: usize,
    /// Which of the powers up to z^k are needed.
    needed: [bool; PLACES],
    /// SCALEs, ADDs and MULs of the pieces.
    gates: u32,
    /// The MULs among them, one for each split.
    splits: u32,
}

impl Pieces {
    fn new(step: usize) -> Pieces {
        Pieces {
            step,
            needed: [false; PLACES],
            gates: 0,
            splits: 0,
        }
    }

    /// Counts a piece, which is not zero and has no zero terms at its end, and
    /// tells its depth. Power i is ceil(log2(i)) deep, a split's power too.
    fn depth_of(&mut self, piece: &[u8]) -> u32 {
        if piece.len() <= self.step {
            return self.depth_of_terms(piece);
        }
        let place = split_place(self.step, piece.len());
        let (lower, upper) = piece.split_at(place);
        let lower = piece_of(lower);
        // The MUL, and the ADD of a lower piece that is not zero.
        self.splits += 1;
        self.gates += 1 + u32::from(!lower.is_empty());
        let lower_depth = if lower.is_empty() {
            0
        } else {
            self.depth_of(lower)
        };
        let upper_depth = self.depth_of(upper);
        let product_depth = ceil_log2(place as u32).max(upper_depth) + 1;
        lower_depth.max(product_depth)
    }

    /// A SCALE for each term that is not zero, and an ADD for each after the first.
    fn depth_of_terms(&mut self, piece: &[u8]) -> u32 {
        let mut scales = 0;
        for (i, _) in (1..).zip(piece).filter(|&(_, &c)| c != 0) {
            self.needed[i] = true;
            scales += 1;
        }
        self.gates += 2 * scales - 1;
        // The last term is not zero, and none is deeper.
        ceil_log2(piece.len() as u32)
    }

    /// Products and squares among the powers up to z^k that are needed, directly
    /// or for higher ones.
    fn small_powers(&mut self) -> (u32, u32) {
        let (mut products, mut squares) = (0, 0);
        for i in (2..=self.step).rev() {
            if !self.needed[i] {
                continue;
            }
            self.needed[i / 2] = true;
            self.needed[i.div_ceil(2)] = true;
            if i % 2 == 0 {
                squares += 1;
            } else {
                products += 1;
            }
        }
        (products, squares)
    }
}
