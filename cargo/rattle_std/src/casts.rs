//! Casts that Rust has since 1.87, for older releases.

pub trait CastUnsigned {
    fn cast_unsigned(self) -> u64;
}

impl CastUnsigned for i64 {
    /// Returns the number of the same bits.
    fn cast_unsigned(self) -> u64 {
        u64::from_ne_bytes(self.to_ne_bytes())
    }
}
