//! Digests of what calls answer, so that answers that were once compared with
//! the original can be compared without it.

/// The seed of the stored digests.
pub const SEED: u64 = 1;

/// How many jobs and how many dense cases the stored digests are of.
pub const SAMPLE: u64 = 2_000;

/// A line for each, `NAME DIGEST`.
const STORED: &str = include_str!("../../differential/digest");

/// FNV-1a of 64 bits.
pub struct Digest(u64);

impl Default for Digest {
    fn default() -> Digest {
        Digest(0xcbf2_9ce4_8422_2325)
    }
}

impl Digest {
    /// The numbers' bytes, of each the lowest first.
    pub fn add(&mut self, numbers: &[u64]) {
        self.bytes(numbers.iter().flat_map(|number| number.to_le_bytes()));
    }

    fn bytes(&mut self, bytes: impl IntoIterator<Item = u8>) {
        for byte in bytes {
            self.0 = (self.0 ^ u64::from(byte)).wrapping_mul(0x0100_0000_01b3);
        }
    }

    /// The digest of a text.
    pub fn of(text: &str) -> u64 {
        let mut digest = Digest::default();
        digest.bytes(text.bytes());
        digest.0
    }

    /// Holds it to the stored one of that name.
    pub fn holds(&self, name: &str) -> Result<String, String> {
        let line = format!("{name} {:016x}", self.0);
        if STORED.lines().any(|stored| stored == line) {
            Ok(line)
        } else {
            Err(format!("the digest is not the stored one: {line}"))
        }
    }
}
