//! A byte string made smaller as long as it stays bad.

/// Smaller bytes that are bad like these: parts are taken out, large ones first and single bytes
/// last, and then bytes are lowered, until nothing helps or so many tries were made.
pub fn shrink(bytes: &[u8], tries: usize, bad: impl Fn(&[u8]) -> bool) -> Vec<u8> {
    let mut shrinker = Shrinker {
        bytes: bytes.to_vec(),
        tries,
        bad,
    };
    while shrinker.take_out() | shrinker.lower() {}
    shrinker.bytes
}

struct Shrinker<B> {
    bytes: Vec<u8>,
    tries: usize,
    bad: B,
}

impl<B: Fn(&[u8]) -> bool> Shrinker<B> {
    /// Goes over to other bytes if they are bad.
    fn change(&mut self, other: Vec<u8>) -> bool {
        if self.tries == 0 {
            return false;
        }
        self.tries -= 1;
        let bad = (self.bad)(&other);
        if bad {
            self.bytes = other;
        }
        bad
    }

    /// Takes parts out; whether one could be.
    fn take_out(&mut self) -> bool {
        let mut smaller = false;
        // Powers of two, and short parts at every place: the commands of cables have four bytes.
        let mut length = self.bytes.len().next_power_of_two();
        while length > 0 {
            let step = if length <= 8 { 1 } else { length };
            // From the end, since what stands at the front decides what the rest means.
            let mut end = self.bytes.len();
            while end > 0 {
                let start = end.saturating_sub(length);
                let without = [&self.bytes[..start], &self.bytes[end..]].concat();
                if self.change(without) {
                    smaller = true;
                    end = start;
                } else {
                    end = end.saturating_sub(step);
                }
            }
            length /= 2;
        }
        smaller
    }

    /// Lowers bytes; whether one could be.
    fn lower(&mut self) -> bool {
        let mut smaller = false;
        for place in 0..self.bytes.len() {
            loop {
                let byte = self.bytes[place];
                let lowered = [0, byte / 2, byte.saturating_sub(1)]
                    .into_iter()
                    .filter(|&lower| lower < byte)
                    .any(|lower| {
                        let mut other = self.bytes.clone();
                        other[place] = lower;
                        self.change(other)
                    });
                if !lowered {
                    break;
                }
                smaller = true;
            }
        }
        smaller
    }
}
