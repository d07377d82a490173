//! The C calls as the headers in `include/` declare them, and their numbers.

pub const SITE_WORDS: usize = 264;
pub const SITE_BYTES: usize = 24769;
pub const AREA_SIZE: usize = 11_520;
pub const SHOWN_SIZE: usize = 90;
pub const PACKET_SIZE: usize = 45;
pub const GROUND_SIZE: usize = 2;
pub const REPORTS_SIZE: usize = GROUND_SIZE * TOP_NODES;
pub const TOP_NODES: usize = 32;
/// The answer to a hearing that would give a box two requests of one.
pub const TWO_REQUESTS: u32 = 13;
pub const TALLY_EPOCHS: u32 = 100_000;

#[repr(C)]
#[derive(Clone, Copy, PartialEq, Eq, Debug)]
pub struct Window {
    pub node: u32,
    pub first: u32,
    pub end: u32,
    pub demand: u32,
}

#[repr(C)]
#[derive(Clone, Copy, PartialEq, Eq, Debug, Default)]
pub struct Tally {
    pub epochs: u32,
    pub total: u32,
    pub slots: [u32; TOP_NODES],
    pub held: [u32; TOP_NODES],
}

extern "C" {
    #[link_name = "hydra_site_load_4"]
    pub fn hydra_site_load(
        words: *mut u32,
        words_length: usize,
        bytes: *mut u8,
        bytes_length: usize,
        nodes: u32,
        slots: u32,
        rounds: u32,
        heard: u32,
        split: u32,
        rows: *const u32,
        rows_length: usize,
        day: u32,
        windows: *const Window,
        windows_length: usize,
        tally: *mut Tally,
    ) -> u32;
    #[link_name = "hydra_site_event_3"]
    pub fn hydra_site_event(
        words: *mut u32,
        words_length: usize,
        bytes: *mut u8,
        bytes_length: usize,
        area: *mut u8,
        area_length: usize,
        event: u32,
        node: u32,
        with: u32,
        windows: *const Window,
        windows_length: usize,
        tally: *mut Tally,
        reports: *mut u8,
        reports_length: usize,
    ) -> u32;
    pub fn hydra_site_node(
        words: *const u32,
        words_length: usize,
        bytes: *const u8,
        bytes_length: usize,
        node: u32,
        out: *mut u8,
        out_length: usize,
    ) -> u32;
    pub fn hydra_demand(
        nodes: u32,
        node: u32,
        day: u32,
        windows: *const Window,
        windows_length: usize,
        epoch: u32,
        demand: *mut u32,
    ) -> u32;
    pub fn hydra_reduce(
        script: *const u8,
        script_length: usize,
        out: *mut u8,
        out_length: usize,
        length: *mut u32,
        number: u32,
    ) -> u32;
}
