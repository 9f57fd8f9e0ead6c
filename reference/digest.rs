//! FNV-1a of 64 bits over the little-endian bytes of numbers.

pub struct Digest {
    hash: u64,
}

impl Digest {
    pub fn new() -> Digest {
        Digest {
            hash: 0xCBF2_9CE4_8422_2325,
        }
    }

    pub fn add(&mut self, number: u64) {
        for byte in number.to_le_bytes() {
            self.hash = (self.hash ^ u64::from(byte)).wrapping_mul(0x0100_0000_01B3);
        }
    }

    pub fn value(&self) -> u64 {
        self.hash
    }
}

#[cfg(test)]
mod tests {
    use super::*;

    fn digest(numbers: &[u64]) -> u64 {
        let mut digest = Digest::new();
        numbers.iter().for_each(|&number| digest.add(number));
        digest.value()
    }

    #[test]
    fn known_digests() {
        assert_eq!(digest(&[]), 14_695_981_039_346_656_037);
        assert_eq!(digest(&[0]), 12_161_962_213_042_174_405);
        assert_eq!(digest(&[1, 2, 3]), 15_720_935_049_292_226_309);
    }
}
