//! The lines of a script.

use crate::power::Tear;
use crate::text::Reader;

pub enum Command {
    Write {
        address: u16,
        value: u32,
    },
    Forget {
        address: u16,
    },
    Read {
        address: u16,
    },
    Clean,
    /// `passing` further steps pass, and the next is cut.
    Cut {
        passing: u64,
        tear: Tear,
    },
    TurnOn,
}

impl Command {
    /// Reads a line. None if it is a bad one.
    pub fn read(reader: &mut Reader) -> Option<Command> {
        let command = match reader.byte()? {
            b'w' => {
                let address = read_address(reader)?;
                reader.expect(b" ")?;
                let value = reader.number(u64::from(u32::MAX))? as u32;
                Command::Write { address, value }
            }
            b'f' => Command::Forget {
                address: read_address(reader)?,
            },
            b'r' => Command::Read {
                address: read_address(reader)?,
            },
            b'c' => Command::Clean,
            b'x' => {
                reader.expect(b" ")?;
                let passing = reader.number(u64::MAX)?.checked_sub(1)?;
                reader.expect(b" ")?;
                let tear = tear(reader.byte()?)?;
                Command::Cut { passing, tear }
            }
            b'p' => Command::TurnOn,
            _ => return None,
        };
        reader.expect(b"\n")?;
        Some(command)
    }
}

fn read_address(reader: &mut Reader) -> Option<u16> {
    reader.expect(b" ")?;
    let address = reader.number(65534)? as u16;
    (address > 0).then_some(address)
}

fn tear(letter: u8) -> Option<Tear> {
    match letter {
        b'n' => Some(Tear::Nothing),
        b'd' => Some(Tear::Done),
        b't' => Some(Tear::Torn),
        b'm' => Some(Tear::Mixed),
        _ => None,
    }
}
