//! The one type that ast.rs takes from `inetnum`. The formatter never reads it.

pub mod asn {
    /// An autonomous system number.
    #[derive(Clone, Copy, Debug)]
    pub struct Asn(pub u32);
}
