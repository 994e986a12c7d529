//! Answering a script: a line for each of its lines, how the store stands, and a certificate.

use crate::script::Command;
use crate::store::{Changed, Refused, Store};
use crate::text::{push_number, Reader};
use crate::ways::Way;

/// The report of a script. None at a bad line.
pub fn answer<W: Way>(store: &mut Store<W>, script: &[u8]) -> Option<Vec<u8>> {
    let mut out = Vec::with_capacity(script.len());
    let mut notes = Notes::of(store);
    let mut reader = Reader::new(script);
    while !reader.is_done() {
        let command = Command::read(&mut reader)?;
        let refused = meet(store, command, &mut notes, &mut out).err();
        if let Some(refused) = refused {
            notes.was_cut |= matches!(refused, Refused::Cut);
            out.extend_from_slice(refused.word());
        }
        out.push(b'\n');
    }
    push_end(&mut out, store, notes.stretches.len());
    notes.push_certificate(&mut out, store.slots());
    Some(out)
}

/// Does what a command says, and appends the answer without its line feed, if it is not refused.
fn meet<W: Way>(
    store: &mut Store<W>,
    command: Command,
    notes: &mut Notes,
    out: &mut Vec<u8>,
) -> Result<(), Refused> {
    let word: &[u8] = match command {
        Command::Write { address, value } => {
            let changed = store.write(address, value)?;
            notes.note_change(changed, store.fill())
        }
        Command::Forget { address } => {
            let changed = store.forget(address)?;
            notes.note_change(changed, store.fill())
        }
        Command::Read { address } => match store.read(address)? {
            Some(value) => {
                push_number(out, u64::from(value));
                b""
            }
            None => b"none",
        },
        Command::Clean if store.clean()? => b"clean",
        Command::Clean => b"idle",
        Command::Cut { passing, tear } => {
            store.arm(passing, tear);
            b"armed"
        }
        Command::TurnOn => {
            store.turn_on()?;
            b"open"
        }
    };
    out.extend_from_slice(word);
    Ok(())
}

impl Refused {
    fn word(&self) -> &'static [u8] {
        match self {
            Refused::Full => b"full",
            Refused::Absent => b"absent",
            Refused::Spent => b"spent",
            Refused::Cut => b"cut",
            Refused::Off => b"off",
        }
    }
}

/// A stretch of the certificate: the change that moved, and the used slots that it began with. No
/// script has lines for more than 32 bits.
struct Stretch {
    to: u32,
    from: u32,
}

/// What the certificate is made of.
struct Notes {
    start_fill: usize,
    start_live: usize,
    /// How many changes were made.
    changes: u32,
    /// The used slots that the stretch which has not ended yet began with.
    from: u32,
    stretches: Vec<Stretch>,
    was_cut: bool,
}

impl Notes {
    fn of<W: Way>(store: &mut Store<W>) -> Self {
        Notes {
            start_fill: store.fill(),
            start_live: store.count(),
            changes: 0,
            from: store.fill() as u32,
            stretches: Vec::new(),
            was_cut: false,
        }
    }

    /// Takes note of a change that left so many slots used, and gives its answer.
    fn note_change(&mut self, changed: Changed, fill: usize) -> &'static [u8] {
        self.changes += 1;
        match changed {
            Changed::Appended => b"ok",
            Changed::Moved => {
                self.stretches.push(Stretch {
                    to: self.changes,
                    from: self.from,
                });
                // A transfer leaves one slot for each live address.
                self.from = fill as u32;
                b"moved"
            }
        }
    }

    fn push_certificate(&self, out: &mut Vec<u8>, slots: usize) {
        if self.was_cut {
            out.extend_from_slice(b"no certificate\n");
            return;
        }
        let start = [
            ("slots ", slots),
            (" fill ", self.start_fill),
            (" live ", self.start_live),
            (" writes ", self.changes as usize),
        ];
        push_line(out, &start);
        for &Stretch { to, from } in &self.stretches {
            push_line(out, &[("to ", to as usize), (" from ", from as usize)]);
        }
        push_line(out, &[("transfers ", self.stretches.len())]);
    }
}

/// Appends words, each with the number behind it, as a line.
fn push_line(out: &mut Vec<u8>, parts: &[(&str, usize)]) {
    for &(word, number) in parts {
        out.extend_from_slice(word.as_bytes());
        push_number(out, number as u64);
    }
    out.push(b'\n');
}

fn push_end<W: Way>(out: &mut Vec<u8>, store: &mut Store<W>, transfers: usize) {
    if !store.is_open() {
        push_line(out, &[("end off transfers ", transfers)]);
        return;
    }
    let room = store.slots() - store.fill();
    let end = [
        ("end fill ", store.fill()),
        (" room ", room),
        (" live ", store.count()),
        (" pending ", store.pending()),
        (" transfers ", transfers),
    ];
    push_line(out, &end);
}
