//! The call of the C library: four tapes in, one number out.

use crate::fault::Fault;
use crate::register::Register;
use crate::ruling::Filters;
use crate::scheme::Scheme;
use crate::store::Store;
use crate::tape;

/// What a call is handed.
#[derive(Clone, Debug, Default)]
pub struct Tapes {
    pub scheme: Vec<u8>,
    pub opening: Vec<u8>,
    pub certificate: Vec<u8>,
    pub bans: Vec<u8>,
}

impl Tapes {
    /// What the call answers: 0, or the first fault as one number.
    pub fn answer(&self) -> u32 {
        match self.check() {
            Ok(()) => 0,
            Err(fault) => code(fault),
        }
    }

    fn check(&self) -> Result<(), Fault> {
        let scheme = Scheme::read(&self.scheme)?;
        let mut register = Register::new(scheme, Store::Board, Filters::default());
        register.open(&self.opening)?;
        register.check(&self.certificate, &self.bans)?;
        Ok(())
    }

    /// The line that hands the tapes to the C program.
    pub fn line(&self) -> String {
        [&self.scheme, &self.opening, &self.certificate, &self.bans]
            .map(|tape| tape::digits(tape))
            .join(" / ")
    }
}

fn code(fault: Fault) -> u32 {
    let place = u32::try_from(fault.place).unwrap_or(u32::MAX);
    ((fault.layer as u32) << 24) + ((fault.rule as u32) << 16) + place
}

#[cfg(test)]
mod tests {
    use super::*;

    #[test]
    fn a_fault_is_one_number() {
        let tapes = |scheme: &[u8], opening: &[u8], certificate: &[u8], bans: &[u8]| Tapes {
            scheme: scheme.to_vec(),
            opening: opening.to_vec(),
            certificate: certificate.to_vec(),
            bans: bans.to_vec(),
        };
        let card = [0x40, 9, 1, 1, 1, 1];
        assert_eq!(tapes(&[], &[], &[], &[]).answer(), 0);
        assert_eq!(tapes(&[0x10], &[0], &[0], &[0]).answer(), 0x0102_0000);
        assert_eq!(tapes(&[0; 65_536], &[], &[], &[]).answer(), 0x0101_FFFF);
        assert_eq!(
            tapes(&[], &[card, card].concat(), &[0], &[]).answer(),
            0x0207_0006
        );
        assert_eq!(tapes(&[], &card, &[], &[0x60]).answer(), 0x0402_0000);
        assert_eq!(tapes(&[], &card, &[], &[]).answer(), 0x0611_0009);
    }
}
