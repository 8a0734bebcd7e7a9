//! Stand-in `Matter`: a code and raw bytes. Equality is over both, as document 01 says of items.
use alloc::borrow::Cow;
use alloc::string::String;
use alloc::vec::Vec;

#[derive(Clone, Debug, Eq)]
pub struct Matter<'a, C> {
    code: C,
    raw: Cow<'a, [u8]>,
    soft: Cow<'a, str>,
}

/// As derived, but that two empty soft parts are not compared: glibc's memcmp for AVX-512 takes 100 ns for an empty string's
/// dangling address, which would be charged to the Rust.
impl<C: PartialEq> PartialEq for Matter<'_, C> {
    fn eq(&self, other: &Self) -> bool {
        let no_soft = self.soft.is_empty() && other.soft.is_empty();
        self.code == other.code && self.raw == other.raw && (no_soft || self.soft == other.soft)
    }
}

impl<'a, C> Matter<'a, C> {
    pub const fn new(code: C, raw: Cow<'a, [u8]>, soft: Cow<'a, str>) -> Self {
        Self { code, raw, soft }
    }

    pub const fn code(&self) -> &C {
        &self.code
    }

    pub fn raw(&self) -> &[u8] {
        &self.raw
    }

    pub fn soft(&self) -> &str {
        &self.soft
    }

    pub fn into_static(self) -> Matter<'static, C> {
        Matter {
            code: self.code,
            raw: Cow::Owned(Vec::from(self.raw)),
            soft: Cow::Owned(String::from(self.soft)),
        }
    }
}
