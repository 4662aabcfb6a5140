// Intervals and boxes of `i128` by the plain formulas, which the other programs of this folder share: the four products of a product of intervals,
// and a division for each end of a quotient.
#![allow(dead_code)]

#[derive(Clone, Copy)]
pub struct Interval {
    pub lo: i128,
    pub hi: i128,
}

#[derive(Clone, Copy)]
pub struct CBox {
    pub re: Interval,
    pub im: Interval,
}

impl Interval {
    pub fn add(self, o: Interval) -> Interval {
        Interval { lo: self.lo + o.lo, hi: self.hi + o.hi }
    }

    pub fn sub(self, o: Interval) -> Interval {
        Interval { lo: self.lo - o.hi, hi: self.hi - o.lo }
    }

    pub fn neg(self) -> Interval {
        Interval { lo: -self.hi, hi: -self.lo }
    }

    pub fn scale(self, k: i128) -> Interval {
        let (a, b) = (self.lo * k, self.hi * k);
        Interval { lo: a.min(b), hi: a.max(b) }
    }

    pub fn times(self, o: Interval) -> Interval {
        let (a, b, c, d) = (self.lo * o.lo, self.lo * o.hi, self.hi * o.lo, self.hi * o.hi);
        Interval { lo: a.min(b).min(c.min(d)), hi: a.max(b).max(c.max(d)) }
    }

    pub fn quotient(self, n: i128) -> Interval {
        Interval { lo: self.lo.div_euclid(n), hi: -(-self.hi).div_euclid(n) }
    }

    pub fn shifted(self, bits: u32) -> Interval {
        Interval { lo: self.lo >> bits, hi: -(-self.hi >> bits) }
    }

    // the interval, or its negative
    pub fn signed(self, odd: bool) -> Interval {
        if odd { self.neg() } else { self }
    }
}

impl CBox {
    pub fn add(self, o: CBox) -> CBox {
        CBox { re: self.re.add(o.re), im: self.im.add(o.im) }
    }

    pub fn times(self, o: CBox) -> CBox {
        CBox {
            re: self.re.times(o.re).sub(self.im.times(o.im)),
            im: self.re.times(o.im).add(self.im.times(o.re)),
        }
    }
}
