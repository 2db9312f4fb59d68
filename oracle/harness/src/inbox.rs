//! The words of an inbox, read as 01's section "Inbox and tape" lays them out:
//! "1 command and 2 snapshot (low 16 bits stamp), each followed by 4 (low 24 bits handle);
//! 3 clock (low 28 bits client id), then six of kind 5, two floats of three words (8, 28, 28 bits,
//! high first): send time, server time. Other bits are 0."

#[derive(Clone, Copy, Debug, PartialEq)]
pub enum Message {
    Command { stamp: i16, handle: u32 },
    Snapshot { stamp: i16, handle: u32 },
    Clock { id: u32, send: f64, server: f64 },
}

/// What keeps an inbox from being a list of messages.
#[derive(Clone, Copy, Debug, PartialEq, Eq)]
pub enum Fault {
    /// "4 a word of wrong kind, place or spare bits"
    Word,
    /// "5 inbox ends inside a message"
    End,
}

struct Reader<'a> {
    words: &'a [u32],
}

impl Reader<'_> {
    /// The next word's payload; it must be of this kind and use only the low `bits` bits.
    fn next(&mut self, kind: u32, bits: u32) -> Result<u32, Fault> {
        let (&word, rest) = self.words.split_first().ok_or(Fault::End)?;
        self.words = rest;
        let payload = word & 0x0fff_ffff;
        if word >> 28 != kind || payload >> bits != 0 {
            return Err(Fault::Word);
        }
        Ok(payload)
    }

    fn float(&mut self) -> Result<f64, Fault> {
        let high = u64::from(self.next(5, 8)?);
        let middle = u64::from(self.next(5, 28)?);
        let low = u64::from(self.next(5, 28)?);
        Ok(f64::from_bits(high << 56 | middle << 28 | low))
    }

    fn message(&mut self) -> Result<Message, Fault> {
        match self.words[0] >> 28 {
            1 => Ok(Message::Command {
                stamp: self.next(1, 16)? as u16 as i16,
                handle: self.next(4, 24)?,
            }),
            2 => Ok(Message::Snapshot {
                stamp: self.next(2, 16)? as u16 as i16,
                handle: self.next(4, 24)?,
            }),
            3 => Ok(Message::Clock {
                id: self.next(3, 28)?,
                send: self.float()?,
                server: self.float()?,
            }),
            _ => Err(Fault::Word),
        }
    }
}

/// The messages of an inbox. A wrong word anywhere comes before an end inside a message, since the
/// words are read in order and only the last message can be cut off.
pub fn messages(words: &[u32]) -> Result<Vec<Message>, Fault> {
    let mut reader = Reader { words };
    let mut messages = Vec::new();
    while !reader.words.is_empty() {
        messages.push(reader.message()?);
    }
    Ok(messages)
}
