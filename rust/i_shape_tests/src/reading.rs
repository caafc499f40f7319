//! The program reads its input with each growth of memory refused in turn.

use crate::erased::fallible::Vec;
use crate::erased::fallible::alloc::Global;
use crate::growths::{refuse, was_refused};
use crate::host::FallibleRead as _;
use std::io::{self, ErrorKind, Read};

/// Gives a text in small parts. Each second read is interrupted.
struct Halting<'a> {
    text: &'a [u8],
    halts: bool,
}

impl Read for Halting<'_> {
    fn read(&mut self, bytes: &mut [u8]) -> io::Result<usize> {
        self.halts = !self.halts;
        if self.halts {
            return Err(ErrorKind::Interrupted.into());
        }
        let few = bytes.len().min(999);
        self.text.read(&mut bytes[..few])
    }
}

#[test]
fn a_refused_growth_is_an_error_and_loses_no_byte() -> io::Result<()> {
    const GROWTHS: usize = 4;
    let text: std::vec::Vec<_> = (0..=u8::MAX).cycle().take(100_000).collect();
    for growth in 1..=GROWTHS + 1 {
        let (text, halts) = (text.as_slice(), false);
        let mut input = Halting { text, halts };
        let mut bytes = Vec::new(Global);
        refuse(growth);
        let read = input.fallible_read_to_end(&mut bytes);
        refuse(0);
        assert_eq!(was_refused(), growth <= GROWTHS);
        assert_eq!([bytes.as_slice(), input.text].concat(), text);
        if growth > GROWTHS {
            assert_eq!(read?, text.len());
        } else {
            let kind = read.expect_err("memory was refused").kind();
            assert_eq!(kind, ErrorKind::OutOfMemory);
        }
    }
    Ok(())
}
