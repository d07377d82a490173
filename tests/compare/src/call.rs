//! The calls of a node as values, so that one call can be made twice.

/// The plain numbers of `hydra_begin`.
#[derive(Clone, Copy, Debug)]
pub struct Beginning {
    pub node: u32,
    pub nodes: u32,
    pub slots: u32,
    pub rounds: u32,
    pub heard: u32,
    pub split: u32,
    pub version: u32,
    pub flags: u32,
    pub demand: u32,
}

/// The plain numbers of `hydra_restart`.
#[derive(Clone, Copy, Debug)]
pub struct Restarting {
    pub node: u32,
    pub nodes: u32,
    pub slots: u32,
    pub rounds: u32,
    pub heard: u32,
    pub split: u32,
    pub flags: u32,
    pub place: u32,
}

/// A call with its plain numbers. The bytes are lent beside it: the node area
/// to every call, an input to `Hear` (packet) and `Take` (schedule), an
/// output to `Send`, `Close`, `Read` and `Slots`, to the last as numbers of
/// 8 bytes each.
#[derive(Clone, Copy, Debug)]
pub enum Call {
    Begin(Beginning),
    Restart(Restarting),
    Send,
    Hear,
    Close,
    Take,
    End,
    Want(u32),
    Read,
    Slots,
}

/// An implementation of all calls: it makes one on the lent area, input and
/// output, and returns 0 or the refusal number.
pub type Run = fn(Call, &mut [u8], &[u8], &mut [u8]) -> u32;

/// The calls' names, in the order of [`Call::index`].
pub const NAMES: [&str; 10] = [
    "begin", "restart", "send", "hear", "close", "take", "end", "want", "read", "slots",
];

impl Call {
    pub fn index(self) -> usize {
        match self {
            Call::Begin(_) => 0,
            Call::Restart(_) => 1,
            Call::Send => 2,
            Call::Hear => 3,
            Call::Close => 4,
            Call::Take => 5,
            Call::End => 6,
            Call::Want(_) => 7,
            Call::Read => 8,
            Call::Slots => 9,
        }
    }
}
