//! A run of RPL options end to end: Pad1 is a single byte 0, every other option is type, length,
//! data.

/// Option types: a single byte, and a DAG Metric Container.
const PAD1: u8 = 0;
pub const CONTAINER: u8 = 2;

/// The type and the length of an option that is not Pad1.
pub const HEAD: usize = 2;

/// A whole option that is not Pad1: all its bytes.
#[derive(Clone, Copy)]
pub struct Whole<'a> {
    pub bytes: &'a [u8],
}

impl<'a> Whole<'a> {
    pub fn is_container(&self) -> bool {
        self.bytes[0] == CONTAINER
    }

    pub fn data(&self) -> &'a [u8] {
        &self.bytes[HEAD..]
    }
}

/// The whole options in order, but for Pad1; where one is cut short it stops, with a rest left.
pub struct Options<'a> {
    pub rest: &'a [u8],
}

impl<'a> Iterator for Options<'a> {
    type Item = Whole<'a>;

    fn next(&mut self) -> Option<Whole<'a>> {
        while let [PAD1, behind @ ..] = self.rest {
            self.rest = behind;
        }
        let size = HEAD + usize::from(*self.rest.get(1)?);
        let (bytes, rest) = self.rest.split_at_checked(size)?;
        self.rest = rest;
        Some(Whole { bytes })
    }
}
