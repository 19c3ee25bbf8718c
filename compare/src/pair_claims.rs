//! What must be so of the four calls of a pair, whatever they are answered: it is looked
//! at in their answers and in the bytes that they leave, and nowhere else.

/// The orders of a pair: which call is made first, and which on what that left.
pub const ORDERS: [[usize; 2]; 2] = [[0, 1], [1, 0]];
pub const ORDER_NAMES: [&str; 2] = ["A then B", "B then A"];

/// What a call answered and what it left.
#[derive(Clone, PartialEq)]
pub struct Step {
    pub code: u64,
    /// Record and position of a refusal.
    pub told: Vec<u64>,
    pub flow: Vec<u8>,
}

/// The two calls of each order.
pub struct Ends {
    pub orders: [[Step; 2]; 2],
    /// Both calls name one line.
    pub same_line: bool,
}

impl Ends {
    /// Whether both calls of an order are made.
    pub fn is_made(&self, order: usize) -> bool {
        self.orders[order].iter().all(|step| step.code == 0)
    }

    pub fn all_made(&self) -> bool {
        self.is_made(0) && self.is_made(1)
    }

    /// The bytes in the end of an order.
    pub fn end(&self, order: usize) -> &[u8] {
        &self.orders[order][1].flow
    }

    /// Which claim does not hold.
    pub fn broken(&self) -> Option<&'static str> {
        let of_order = |order: usize| {
            let common = self.refused_alone(order);
            common.or_else(|| if self.same_line { self.last_stands(order) } else { self.second(order) })
        };
        (0..2).find_map(of_order).or_else(|| self.ends_agree())
    }

    /// All four are made, and the two ends are not the same.
    fn ends_agree(&self) -> Option<&'static str> {
        let differs = !self.same_line && self.all_made() && self.end(0) != self.end(1);
        Some("both orders are made and their ends are not the same").filter(|_| differs)
    }

    /// What is refused first leaves the flow: the other call is as it is by itself.
    fn refused_alone(&self, order: usize) -> Option<&'static str> {
        let [first, second] = &self.orders[order];
        let [alone, _] = &self.orders[1 - order];
        let differs = first.code != 0 && second != alone;
        Some("after a refused call the other one is not as by itself").filter(|_| differs)
    }

    /// Of two lines: what is made after the other is made, or waits for it; and where each
    /// is made by itself and not after the other, both are refused for the same.
    fn second(&self, order: usize) -> Option<&'static str> {
        let [first, second] = &self.orders[order];
        let [alone, after] = &self.orders[1 - order];
        if first.code != 0 {
            return None;
        }
        match (second.code, alone.code) {
            (0, 0) if after.code != 0 => Some("made in the one order, and in the other refused as the second"),
            (0, 0 | 14 | 23) if alone.told.iter().any(|&number| number != 0) => Some("what waits is told a place"),
            (0, 0 | 14 | 23) => None,
            (0, _) => Some("what waits for the other is refused neither 14 nor 23"),
            (number, 0) if after.code != number => Some("either by itself, and not refused the same together"),
            _ => None,
        }
    }

    /// Of one line twice: the last amounts stand, and nothing hangs on those before.
    fn last_stands(&self, order: usize) -> Option<&'static str> {
        let [_, last] = &self.orders[order];
        let [alone, _] = &self.orders[1 - order];
        let differs = last.code != alone.code || last.code == 0 && last.flow != alone.flow;
        Some("the last amounts of a line do not stand").filter(|_| differs)
    }

    /// What the first call of an order comes to when it is made once more in the end. Where
    /// it was made, the line has its amounts already; where it was refused, the other may
    /// have made way.
    pub fn once_more(&self, order: usize) -> (u64, &[u8]) {
        let [first, second] = &self.orders[order];
        let [_, after] = &self.orders[1 - order];
        match first.code {
            0 if self.same_line => (0, &first.flow),
            0 => (0, &second.flow),
            _ => (after.code, &after.flow),
        }
    }
}
