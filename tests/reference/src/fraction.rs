use std::cmp::Ordering;

/// An exact fraction above zero, not reduced.
#[derive(Clone, Copy, Debug)]
pub struct Fraction {
    pub over: u128,
    pub under: u128,
}

impl Fraction {
    pub fn new(over: u128, under: u128) -> Fraction {
        assert!(over > 0 && under > 0);
        Fraction { over, under }
    }

    pub fn whole(number: u128) -> Fraction {
        Fraction::new(number, 1)
    }

    pub fn times(self, number: u128) -> Fraction {
        Fraction::new(self.over * number, self.under)
    }

    pub fn divided_by(self, number: u128) -> Fraction {
        Fraction::new(self.over, self.under * number)
    }

    /// `self / other`.
    pub fn ratio(self, other: Fraction) -> Fraction {
        Fraction::new(self.over * other.under, self.under * other.over)
    }

    pub fn floor(self) -> u128 {
        self.over / self.under
    }

    pub fn ceil(self) -> u128 {
        self.over.div_ceil(self.under)
    }

    /// The number that this fraction is, which must be a whole one.
    pub fn exact(self) -> u128 {
        assert_eq!(self.over % self.under, 0);
        self.over / self.under
    }
}

impl PartialEq for Fraction {
    fn eq(&self, other: &Fraction) -> bool {
        self.cmp(other) == Ordering::Equal
    }
}

impl Eq for Fraction {}

impl PartialOrd for Fraction {
    fn partial_cmp(&self, other: &Fraction) -> Option<Ordering> {
        Some(self.cmp(other))
    }
}

impl Ord for Fraction {
    fn cmp(&self, other: &Fraction) -> Ordering {
        (self.over * other.under).cmp(&(other.over * self.under))
    }
}
