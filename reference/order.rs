//! The three key orders.

#[derive(Clone, Copy, Debug, PartialEq, Eq)]
pub enum Order {
    Number,
    Lane,
    Label,
}

impl Order {
    pub fn is_key(self, word: u64) -> bool {
        match self {
            Order::Number => true,
            Order::Lane => word >> 40 == 0,
            Order::Label => {
                let bytes = word.to_le_bytes();
                let letters = bytes.iter().take_while(|&&byte| byte != 0).count();
                bytes[letters..].iter().all(|&byte| byte == 0)
            }
        }
    }

    pub fn before(self, first: u64, second: u64) -> bool {
        match self {
            Order::Number => first < second,
            Order::Lane => lane_place(first) < lane_place(second),
            Order::Label => first.to_le_bytes() < second.to_le_bytes(),
        }
    }
}

/// The lane, and the place in it in two's complement.
fn lane_place(word: u64) -> (u64, i32) {
    (word >> 32, word as u32 as i32)
}

#[cfg(test)]
mod tests {
    use super::*;

    fn ascends(order: Order, keys: &[u64]) {
        for pair in keys.windows(2) {
            assert!(order.before(pair[0], pair[1]) && !order.before(pair[1], pair[0]));
        }
        assert!(keys
            .iter()
            .all(|&key| order.is_key(key) && !order.before(key, key)));
    }

    #[test]
    fn the_tables_stand_in_their_order() {
        ascends(Order::Number, &[0, 1, u64::MAX]);
        ascends(
            Order::Lane,
            &[
                4_294_967_295,
                0,
                8_589_934_587,
                4_294_967_296,
                1_099_511_627_775,
            ],
        );
        assert!(!Order::Lane.is_key(1_099_511_627_776));
        ascends(Order::Label, &[0, 65, 16_961, 66]);
        assert!(!Order::Label.is_key(256));
        assert!(Order::Label.is_key(u64::MAX));
    }
}
