//! Ratios of whole numbers: compared by cross products, printed reduced.

/// Its numbers are far below the limits of 128 bits: eight summands of at most 999,999 or of 64 x 64 x 64 assignments make a sum, and two
/// sums a cross product.
#[derive(Clone, Copy, PartialEq, Debug)]
pub struct Ratio {
    pub top: u128,
    pub bottom: u128,
}

/// The greatest number that divides both, which are not both 0.
fn common(a: u128, b: u128) -> u128 {
    if b == 0 { a } else { common(b, a % b) }
}

impl Ratio {
    /// "A ratio with bottom 0 makes every comparison false", `!=` too.
    pub fn compares(&self, sign: &str, other: &Ratio) -> bool {
        let (a, b) = (self.top * other.bottom, other.top * self.bottom);
        let holds = match sign {
            "=" => a == b,
            "!=" => a != b,
            "<" => a < b,
            "<=" => a <= b,
            ">" => a > b,
            _ => a >= b,
        };
        self.bottom != 0 && other.bottom != 0 && holds
    }
    /// "prints `none`; otherwise a ratio prints reduced, as top, slash, bottom": with a slash also where the bottom comes to 1.
    pub fn text(&self) -> String {
        if self.bottom == 0 {
            return "none".into();
        }
        let by = common(self.top, self.bottom);
        format!("{}/{}", self.top / by, self.bottom / by)
    }
    /// What decides its text.
    pub fn how(&self) -> &'static str {
        match self.bottom {
            0 if self.top == 0 => "ratio printed: 0 over 0",
            0 => "ratio printed: over 0",
            _ if self.top == 0 => "ratio printed: 0",
            b if self.top % b == 0 => "ratio printed: whole",
            b if common(self.top, b) > 1 => "ratio printed: reduced",
            _ => "ratio printed: as it is",
        }
    }
    /// What decides its comparisons with another.
    pub fn beside(&self, other: &Ratio) -> &'static str {
        let (a, b) = (self.top * other.bottom, other.top * self.bottom);
        match (self.bottom, other.bottom) {
            (0, 0) => "compared: both over 0",
            (0, _) => "compared: the left over 0",
            (_, 0) => "compared: the right over 0",
            _ if self == other => "compared: the same numbers",
            _ if a == b => "compared: equal by cross products",
            _ if a.cmp(&b) == self.top.cmp(&other.top) => "compared: ordered as the tops",
            _ => "compared: not ordered as the tops",
        }
    }
}
