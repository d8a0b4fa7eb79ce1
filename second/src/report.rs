//! What Build, Forecast and Check answer.

/// Levels of multiplication.
#[derive(Clone, Copy, Debug, PartialEq, Eq, PartialOrd, Ord)]
pub struct Depth(pub u16);

/// Hundredths of a product.
#[derive(Clone, Copy, Debug, PartialEq, Eq, PartialOrd, Ord)]
pub struct Cost(pub u32);

/// "Success answers G, products, squares, cost, depth."
#[derive(Clone, Copy, Debug, PartialEq, Eq)]
pub struct Report {
    pub gates: u16,
    pub products: u16,
    pub squares: u16,
    pub cost: Cost,
    pub depth: Depth,
}

/// "Cost is 100 times the products plus s times the squares."
pub fn cost(weight: u8, products: u16, squares: u16) -> Cost {
    Cost(100 * u32::from(products) + u32::from(weight) * u32::from(squares))
}
