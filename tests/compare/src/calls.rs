//! The first implementation: the C functions, declared as in include/hydra.h,
//! and safe wrappers. A slice goes over as a pointer and a length.

use reference::tally::Tally;
use reference::windows::Window;

use crate::call::{Beginning, Call, Restarting};
use reference::wire::SCHEDULE_LENGTH;

extern "C" {
    fn hydra_version() -> u32;
    #[link_name = "hydra_begin_3"]
    fn hydra_begin(
        area: *mut u8,
        area_length: usize,
        node: u32,
        nodes: u32,
        slots: u32,
        rounds: u32,
        heard: u32,
        split: u32,
        version: u32,
        flags: u32,
        demand: u32,
    ) -> u32;
    #[link_name = "hydra_restart_3"]
    fn hydra_restart(
        area: *mut u8,
        area_length: usize,
        node: u32,
        nodes: u32,
        slots: u32,
        rounds: u32,
        heard: u32,
        split: u32,
        flags: u32,
        place: u32,
    ) -> u32;
    fn hydra_send(area: *const u8, area_length: usize, out: *mut u8, out_length: usize) -> u32;
    fn hydra_hear(
        area: *mut u8,
        area_length: usize,
        packet: *const u8,
        packet_length: usize,
    ) -> u32;
    #[link_name = "hydra_close_2"]
    fn hydra_close(
        area: *mut u8,
        area_length: usize,
        out: *mut u8,
        out_length: usize,
        ground: *mut u8,
        ground_length: usize,
    ) -> u32;
    fn hydra_take(
        area: *mut u8,
        area_length: usize,
        schedule: *const u8,
        schedule_length: usize,
    ) -> u32;
    fn hydra_end(area: *mut u8, area_length: usize) -> u32;
    fn hydra_want(area: *mut u8, area_length: usize, demand: u32) -> u32;
    fn hydra_read(area: *const u8, area_length: usize, out: *mut u8, out_length: usize) -> u32;
    fn hydra_slots(area: *const u8, area_length: usize, out: *mut u64, out_length: usize) -> u32;
    #[link_name = "hydra_replay_2"]
    fn hydra_replay(
        script: *const u8,
        script_length: usize,
        area: *mut u8,
        area_length: usize,
        out: *mut u8,
        out_length: usize,
        length: *mut u32,
        day: u32,
        windows: *const Window,
        windows_length: usize,
    ) -> u32;
    fn hydra_demand(
        nodes: u32,
        node: u32,
        day: u32,
        windows: *const Window,
        windows_length: usize,
        epoch: u32,
        demand: *mut u32,
    ) -> u32;
    #[link_name = "hydra_why_2"]
    fn hydra_why(
        script: *const u8,
        script_length: usize,
        part: u32,
        area: *mut u8,
        area_length: usize,
        out: *mut u8,
        out_length: usize,
        length: *mut u32,
        day: u32,
        windows: *const Window,
        windows_length: usize,
    ) -> u32;
    fn hydra_reduce(
        script: *const u8,
        script_length: usize,
        out: *mut u8,
        out_length: usize,
        length: *mut u32,
        number: u32,
    ) -> u32;
    #[link_name = "hydra_site_load_4"]
    fn hydra_site_load(
        words: *mut u32,
        words_length: usize,
        bytes: *mut u8,
        bytes_length: usize,
        nodes: u32,
        slots: u32,
        rounds: u32,
        heard: u32,
        split: u32,
        rows: *const u32,
        rows_length: usize,
        day: u32,
        windows: *const Window,
        windows_length: usize,
        tally: *mut Tally,
    ) -> u32;
    #[link_name = "hydra_site_event_3"]
    fn hydra_site_event(
        words: *mut u32,
        words_length: usize,
        bytes: *mut u8,
        bytes_length: usize,
        area: *mut u8,
        area_length: usize,
        event: u32,
        node: u32,
        with: u32,
        windows: *const Window,
        windows_length: usize,
        tally: *mut Tally,
        reports: *mut u8,
        reports_length: usize,
    ) -> u32;
    fn hydra_site_node(
        words: *const u32,
        words_length: usize,
        bytes: *const u8,
        bytes_length: usize,
        node: u32,
        out: *mut u8,
        out_length: usize,
    ) -> u32;
    fn hydra_group_begin(
        words: *const u32,
        words_length: usize,
        bytes: *const u8,
        bytes_length: usize,
        table: *mut u32,
        table_length: usize,
    ) -> u32;
    #[link_name = "hydra_group_load_2"]
    fn hydra_group_load(
        words: *mut u32,
        words_length: usize,
        bytes: *mut u8,
        bytes_length: usize,
        table: *mut u32,
        table_length: usize,
        number: u32,
        nodes: u32,
        slots: u32,
        rounds: u32,
        heard: u32,
        split: u32,
        rows: *const u32,
        rows_length: usize,
        day: u32,
        windows: *const Window,
        windows_length: usize,
        tally: *mut Tally,
    ) -> u32;
    #[link_name = "hydra_group_event_2"]
    fn hydra_group_event(
        words: *mut u32,
        words_length: usize,
        bytes: *mut u8,
        bytes_length: usize,
        table: *mut u32,
        table_length: usize,
        area: *mut u8,
        area_length: usize,
        number: u32,
        event: u32,
        node: u32,
        with: u32,
        windows: *const Window,
        windows_length: usize,
        tally: *mut Tally,
        reports: *mut u8,
        reports_length: usize,
    ) -> u32;
    fn hydra_group_node(
        words: *const u32,
        words_length: usize,
        bytes: *const u8,
        bytes_length: usize,
        table: *const u32,
        table_length: usize,
        number: u32,
        node: u32,
        out: *mut u8,
        out_length: usize,
    ) -> u32;
}

// SAFETY, of every block below: the functions ask nothing of their arguments
// but that each pointer is that of a slice of the given length, to be written
// only where it is `*mut`, and that slices do not overlap. Borrowed slices are
// just that. No pointer is kept beyond the call.

/// The release of the library as one number.
pub fn version() -> u32 {
    // SAFETY: it takes nothing.
    unsafe { hydra_version() }
}

/// Makes a call, and returns 0 or its refusal number.
pub fn run(call: Call, area: &mut [u8], input: &[u8], output: &mut [u8]) -> u32 {
    match call {
        Call::Begin(numbers) => begin(area, numbers),
        Call::Restart(numbers) => restart(area, numbers),
        Call::Send => send(area, output),
        Call::Hear => hear(area, input),
        Call::Close => close(area, output),
        Call::Take => take(area, input),
        Call::End => end(area),
        Call::Want(demand) => want(area, demand),
        Call::Read => read(area, output),
        Call::Slots => slots(area, output),
    }
}

pub fn begin(area: &mut [u8], numbers: Beginning) -> u32 {
    unsafe {
        hydra_begin(
            area.as_mut_ptr(),
            area.len(),
            numbers.node,
            numbers.nodes,
            numbers.slots,
            numbers.rounds,
            numbers.heard,
            numbers.split,
            numbers.version,
            numbers.flags,
            numbers.demand,
        )
    }
}

pub fn restart(area: &mut [u8], numbers: Restarting) -> u32 {
    unsafe {
        hydra_restart(
            area.as_mut_ptr(),
            area.len(),
            numbers.node,
            numbers.nodes,
            numbers.slots,
            numbers.rounds,
            numbers.heard,
            numbers.split,
            numbers.flags,
            numbers.place,
        )
    }
}

pub fn send(area: &[u8], output: &mut [u8]) -> u32 {
    unsafe { hydra_send(area.as_ptr(), area.len(), output.as_mut_ptr(), output.len()) }
}

pub fn hear(area: &mut [u8], packet: &[u8]) -> u32 {
    unsafe { hydra_hear(area.as_mut_ptr(), area.len(), packet.as_ptr(), packet.len()) }
}

/// The ground goes behind the first 84 bytes of the output.
pub fn close(area: &mut [u8], output: &mut [u8]) -> u32 {
    let (output, ground) = close_places(output);
    unsafe {
        hydra_close(
            area.as_mut_ptr(),
            area.len(),
            output.as_mut_ptr(),
            output.len(),
            ground.as_mut_ptr(),
            ground.len(),
        )
    }
}

/// The two places of a close, as parts of one output: that of a schedule, and
/// what is behind it for the ground.
pub fn close_places(output: &mut [u8]) -> (&mut [u8], &mut [u8]) {
    let schedule = output.len().min(SCHEDULE_LENGTH);
    output.split_at_mut(schedule)
}

pub fn take(area: &mut [u8], schedule: &[u8]) -> u32 {
    unsafe {
        hydra_take(
            area.as_mut_ptr(),
            area.len(),
            schedule.as_ptr(),
            schedule.len(),
        )
    }
}

pub fn end(area: &mut [u8]) -> u32 {
    unsafe { hydra_end(area.as_mut_ptr(), area.len()) }
}

pub fn want(area: &mut [u8], demand: u32) -> u32 {
    unsafe { hydra_want(area.as_mut_ptr(), area.len(), demand) }
}

pub fn read(area: &[u8], output: &mut [u8]) -> u32 {
    unsafe { hydra_read(area.as_ptr(), area.len(), output.as_mut_ptr(), output.len()) }
}

pub fn slots(area: &[u8], output: &mut [u8]) -> u32 {
    lend_numbers(output, |numbers| unsafe {
        hydra_slots(
            area.as_ptr(),
            area.len(),
            numbers.as_mut_ptr(),
            numbers.len(),
        )
    })
}

/// The most numbers that an output of bytes is lent as.
const MOST_NUMBERS: usize = 16;

/// Lends an output of bytes as numbers of 8 bytes each, in the machine's
/// order; the bytes behind the last whole number are not lent. The numbers
/// beside the lent ones are guards.
pub fn lend_numbers(output: &mut [u8], call: impl FnOnce(&mut [u64]) -> u32) -> u32 {
    const GUARD: u64 = 0xA5A5_A5A5_A5A5_A5A5;
    let count = output.len() / 8;
    let mut lent = [GUARD; MOST_NUMBERS + 2];
    let numbers = &mut lent[1..=count];
    for (number, bytes) in numbers.iter_mut().zip(output.chunks_exact(8)) {
        *number = u64::from_ne_bytes(bytes.try_into().expect("8 bytes"));
    }
    let answer = call(numbers);
    for (bytes, number) in output.chunks_exact_mut(8).zip(numbers) {
        bytes.copy_from_slice(&number.to_ne_bytes());
    }
    assert!(
        lent[0] == GUARD && lent[count + 1] == GUARD,
        "a number beside the output changed"
    );
    answer
}

/// Runs a script without windows. `length` becomes the number of bytes written
/// to `output`.
pub fn replay(script: &[u8], area: &mut [u8], output: &mut [u8], length: &mut u32) -> u32 {
    replay_day(script, area, output, length, 1, &[])
}

/// As [`replay`], with a day and windows.
pub fn replay_day(
    script: &[u8],
    area: &mut [u8],
    output: &mut [u8],
    length: &mut u32,
    day: u32,
    windows: &[Window],
) -> u32 {
    unsafe {
        hydra_replay(
            script.as_ptr(),
            script.len(),
            area.as_mut_ptr(),
            area.len(),
            output.as_mut_ptr(),
            output.len(),
            length,
            day,
            windows.as_ptr(),
            windows.len(),
        )
    }
}

/// The demand of a node as an epoch begins, in place of the one it has.
pub fn demand(
    nodes: u32,
    node: u32,
    day: u32,
    windows: &[Window],
    epoch: u32,
    demand: &mut u32,
) -> u32 {
    unsafe {
        hydra_demand(
            nodes,
            node,
            day,
            windows.as_ptr(),
            windows.len(),
            epoch,
            demand,
        )
    }
}

/// A part of a script's reasons, with a day and windows; the length is written
/// only where it is done.
pub fn why_day(
    script: &[u8],
    part: u32,
    area: &mut [u8],
    output: &mut [u8],
    length: &mut u32,
    day: u32,
    windows: &[Window],
) -> u32 {
    unsafe {
        hydra_why(
            script.as_ptr(),
            script.len(),
            part,
            area.as_mut_ptr(),
            area.len(),
            output.as_mut_ptr(),
            output.len(),
            length,
            day,
            windows.as_ptr(),
            windows.len(),
        )
    }
}

/// A script with no idle event; the length is written only where it is done.
pub fn reduce(script: &[u8], output: &mut [u8], length: &mut u32, number: u32) -> u32 {
    unsafe {
        hydra_reduce(
            script.as_ptr(),
            script.len(),
            output.as_mut_ptr(),
            output.len(),
            length,
            number,
        )
    }
}

/// Loads a site into lent words and bytes: N, K, F, heard and split, three
/// words for each node, and its day with its windows. The tally is set anew.
pub fn site_load(
    words: &mut [u32],
    bytes: &mut [u8],
    figures: [u32; 5],
    rows: &[u32],
    day: u32,
    windows: &[Window],
    tally: &mut Tally,
) -> u32 {
    let [nodes, slots, rounds, heard, split] = figures;
    unsafe {
        hydra_site_load(
            words.as_mut_ptr(),
            words.len(),
            bytes.as_mut_ptr(),
            bytes.len(),
            nodes,
            slots,
            rounds,
            heard,
            split,
            rows.as_ptr(),
            rows.len(),
            day,
            windows.as_ptr(),
            windows.len(),
            tally,
        )
    }
}

/// One event of a site in lent words and bytes, by its three numbers.
pub fn site_event(
    words: &mut [u32],
    bytes: &mut [u8],
    area: &mut [u8],
    event: [u32; 3],
    windows: &[Window],
    tally: &mut Tally,
    reports: &mut [u8],
) -> u32 {
    let [number, node, with] = event;
    unsafe {
        hydra_site_event(
            words.as_mut_ptr(),
            words.len(),
            bytes.as_mut_ptr(),
            bytes.len(),
            area.as_mut_ptr(),
            area.len(),
            number,
            node,
            with,
            windows.as_ptr(),
            windows.len(),
            tally,
            reports.as_mut_ptr(),
            reports.len(),
        )
    }
}

/// What a listing shows of a node, in bytes.
pub fn site_node(words: &[u32], bytes: &[u8], node: u32, output: &mut [u8]) -> u32 {
    unsafe {
        hydra_site_node(
            words.as_ptr(),
            words.len(),
            bytes.as_ptr(),
            bytes.len(),
            node,
            output.as_mut_ptr(),
            output.len(),
        )
    }
}

/// Nothing is loaded in a group, and every place is free.
pub fn group_begin(words: &[u32], bytes: &[u8], table: &mut [u32]) -> u32 {
    unsafe {
        hydra_group_begin(
            words.as_ptr(),
            words.len(),
            bytes.as_ptr(),
            bytes.len(),
            table.as_mut_ptr(),
            table.len(),
        )
    }
}

/// What is lent of a group beside its packet area, with the tally of a number.
pub struct Lending<'a> {
    pub words: &'a mut [u32],
    pub bytes: &'a mut [u8],
    pub table: &'a mut [u32],
    pub tally: &'a mut Tally,
}

/// Loads a number of a group: N, K, F, heard and split, three words for each node, a
/// day, and its windows.
pub fn group_load(
    lent: Lending,
    number: u32,
    figures: [u32; 5],
    rows: &[u32],
    day: u32,
    windows: &[Window],
) -> u32 {
    let [nodes, slots, rounds, heard, split] = figures;
    unsafe {
        hydra_group_load(
            lent.words.as_mut_ptr(),
            lent.words.len(),
            lent.bytes.as_mut_ptr(),
            lent.bytes.len(),
            lent.table.as_mut_ptr(),
            lent.table.len(),
            number,
            nodes,
            slots,
            rounds,
            heard,
            split,
            rows.as_ptr(),
            rows.len(),
            day,
            windows.as_ptr(),
            windows.len(),
            lent.tally,
        )
    }
}

/// One event of a number of a group, by its three numbers.
pub fn group_event(
    lent: Lending,
    area: &mut [u8],
    number: u32,
    event: [u32; 3],
    windows: &[Window],
    reports: &mut [u8],
) -> u32 {
    let [kind, node, with] = event;
    unsafe {
        hydra_group_event(
            lent.words.as_mut_ptr(),
            lent.words.len(),
            lent.bytes.as_mut_ptr(),
            lent.bytes.len(),
            lent.table.as_mut_ptr(),
            lent.table.len(),
            area.as_mut_ptr(),
            area.len(),
            number,
            kind,
            node,
            with,
            windows.as_ptr(),
            windows.len(),
            lent.tally,
            reports.as_mut_ptr(),
            reports.len(),
        )
    }
}

/// What a listing shows of a node of a number of a group, in bytes.
pub fn group_node(lent: Lending, number: u32, node: u32, output: &mut [u8]) -> u32 {
    unsafe {
        hydra_group_node(
            lent.words.as_ptr(),
            lent.words.len(),
            lent.bytes.as_ptr(),
            lent.bytes.len(),
            lent.table.as_ptr(),
            lent.table.len(),
            number,
            node,
            output.as_mut_ptr(),
            output.len(),
        )
    }
}
