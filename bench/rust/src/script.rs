//! The calls of a script (bench/README.md has its layout).

/// Before the calls stand the repetitions and the settings.
const CALLS: usize = 20;

pub enum Call<'a> {
    Update {
        delta: f64,
        seconds: f64,
        inbox: &'a [u32],
    },
    Issue(u32),
    Report,
}

pub struct Calls<'a> {
    script: &'a [u32],
    at: usize,
}

impl<'a> Calls<'a> {
    pub fn new(script: &'a [u32]) -> Self {
        Self { script, at: CALLS }
    }
}

/// The float of the words at a place and after it, high word first.
pub fn float_at(script: &[u32], at: usize) -> f64 {
    f64::from_bits(u64::from(script[at]) << 32 | u64::from(script[at + 1]))
}

impl<'a> Iterator for Calls<'a> {
    type Item = Call<'a>;

    /// The next call. A word that begins no call ends the script.
    fn next(&mut self) -> Option<Call<'a>> {
        let at = self.at;
        match self.script.get(at)? {
            1 => {
                let end = at + 6 + self.script[at + 5] as usize;
                self.at = end;
                Some(Call::Update {
                    delta: float_at(self.script, at + 1),
                    seconds: float_at(self.script, at + 3),
                    inbox: &self.script[at + 6..end],
                })
            }
            2 => {
                self.at = at + 2;
                Some(Call::Issue(self.script[at + 1]))
            }
            3 => {
                self.at = at + 1;
                Some(Call::Report)
            }
            _ => None,
        }
    }
}
