//! Bytes to be lent, with guard bytes before and behind them.

const GUARD_LENGTH: usize = 64;

/// No two neighbours are the same, so that bytes moved by a place show too.
const GUARD: [u8; GUARD_LENGTH] = guard();

const fn guard() -> [u8; GUARD_LENGTH] {
    let mut bytes = [0; GUARD_LENGTH];
    let mut at = 0;
    while at < GUARD_LENGTH {
        bytes[at] = (at * 151 + 89) as u8;
        at += 1;
    }
    bytes
}

#[derive(Clone)]
pub struct Lent {
    /// Guard, contents, guard.
    whole: Vec<u8>,
}

impl Lent {
    pub fn new(contents: &[u8]) -> Lent {
        Lent {
            whole: [&GUARD, contents, &GUARD].concat(),
        }
    }

    fn behind(&self) -> usize {
        self.whole.len() - GUARD_LENGTH
    }

    pub fn contents(&self) -> &[u8] {
        &self.whole[GUARD_LENGTH..self.behind()]
    }

    pub fn contents_mut(&mut self) -> &mut [u8] {
        let behind = self.behind();
        &mut self.whole[GUARD_LENGTH..behind]
    }

    /// Whether the contents are these and no guard byte was changed.
    pub fn is(&self, contents: &[u8]) -> bool {
        self.contents() == contents
            && self.whole[..GUARD_LENGTH] == GUARD
            && self.whole[self.behind()..] == GUARD
    }
}
