//! Stand-in code of an indexed signature: any byte, only compared.

#[derive(Clone, Copy, Debug, PartialEq, Eq)]
pub struct IndexedSigCode(pub u8);

/// "00" to "ff" in a row: `as_str` has to lend a static text that tells all bytes apart.
static NAMES: [u8; 512] = {
    let digits = b"0123456789abcdef";
    let mut names = [0; 512];
    let mut byte = 0;
    while byte < 256 {
        names[2 * byte] = digits[byte / 16];
        names[2 * byte + 1] = digits[byte % 16];
        byte += 1;
    }
    names
};

impl IndexedSigCode {
    pub fn as_str(&self) -> &'static str {
        let start = 2 * usize::from(self.0);
        str::from_utf8(&NAMES[start..start + 2]).expect("hex digits")
    }
}
