//! The box in plain C, `plain/box.c`: the same calls, in place on the bytes of
//! the area; and the run of a script in plain C, `plain/replay.c`. A third
//! implementation for the tests, and what the library's speed is measured by.

use crate::call::{Beginning, Call, Restarting};
use crate::calls::{close_places, lend_numbers};
use reference::windows::Window;

// Declared as in plain/box.h and plain/replay.h.
extern "C" {
    fn plain_begin(
        area: *mut u8,
        area_length: usize,
        node: u32,
        nodes: u32,
        slots: u32,
        rounds: u32,
        heard: u32,
        split: u32,
        version: u32,
        flags: u32,
        demand: u32,
    ) -> u32;
    fn plain_restart(
        area: *mut u8,
        area_length: usize,
        node: u32,
        nodes: u32,
        slots: u32,
        rounds: u32,
        heard: u32,
        split: u32,
        flags: u32,
        place: u32,
    ) -> u32;
    fn plain_send(area: *const u8, area_length: usize, out: *mut u8, out_length: usize) -> u32;
    fn plain_hear(
        area: *mut u8,
        area_length: usize,
        packet: *const u8,
        packet_length: usize,
    ) -> u32;
    fn plain_close(
        area: *mut u8,
        area_length: usize,
        out: *mut u8,
        out_length: usize,
        ground: *mut u8,
        ground_length: usize,
    ) -> u32;
    fn plain_take(
        area: *mut u8,
        area_length: usize,
        schedule: *const u8,
        schedule_length: usize,
    ) -> u32;
    fn plain_end(area: *mut u8, area_length: usize) -> u32;
    fn plain_want(area: *mut u8, area_length: usize, demand: u32) -> u32;
    fn plain_read(area: *const u8, area_length: usize, out: *mut u8, out_length: usize) -> u32;
    fn plain_slots(area: *const u8, area_length: usize, out: *mut u64, out_length: usize) -> u32;
    fn plain_replay(
        script: *const u8,
        script_length: usize,
        area: *mut u8,
        area_length: usize,
        out: *mut u8,
        out_length: usize,
        length: *mut u32,
        day: u32,
        windows: *const Window,
        windows_length: usize,
    ) -> u32;
}

// SAFETY, of every block below: as in calls.rs. The functions read and write
// within the lengths that they are given, keep no pointer, and slices that
// are borrowed here do not overlap.

/// Makes a call, and returns 0 or its refusal number.
pub fn run(call: Call, area: &mut [u8], input: &[u8], output: &mut [u8]) -> u32 {
    match call {
        Call::Begin(numbers) => begin(area, numbers),
        Call::Restart(numbers) => restart(area, numbers),
        Call::Send => send(area, output),
        Call::Hear => hear(area, input),
        Call::Close => close(area, output),
        Call::Take => take(area, input),
        Call::End => end(area),
        Call::Want(demand) => want(area, demand),
        Call::Read => read(area, output),
        Call::Slots => slots(area, output),
    }
}

fn begin(area: &mut [u8], numbers: Beginning) -> u32 {
    unsafe {
        plain_begin(
            area.as_mut_ptr(),
            area.len(),
            numbers.node,
            numbers.nodes,
            numbers.slots,
            numbers.rounds,
            numbers.heard,
            numbers.split,
            numbers.version,
            numbers.flags,
            numbers.demand,
        )
    }
}

fn restart(area: &mut [u8], numbers: Restarting) -> u32 {
    unsafe {
        plain_restart(
            area.as_mut_ptr(),
            area.len(),
            numbers.node,
            numbers.nodes,
            numbers.slots,
            numbers.rounds,
            numbers.heard,
            numbers.split,
            numbers.flags,
            numbers.place,
        )
    }
}

fn send(area: &[u8], output: &mut [u8]) -> u32 {
    unsafe { plain_send(area.as_ptr(), area.len(), output.as_mut_ptr(), output.len()) }
}

fn hear(area: &mut [u8], packet: &[u8]) -> u32 {
    unsafe { plain_hear(area.as_mut_ptr(), area.len(), packet.as_ptr(), packet.len()) }
}

/// The ground goes behind the first 84 bytes of the output.
fn close(area: &mut [u8], output: &mut [u8]) -> u32 {
    let (output, ground) = close_places(output);
    unsafe {
        plain_close(
            area.as_mut_ptr(),
            area.len(),
            output.as_mut_ptr(),
            output.len(),
            ground.as_mut_ptr(),
            ground.len(),
        )
    }
}

fn take(area: &mut [u8], schedule: &[u8]) -> u32 {
    unsafe {
        plain_take(
            area.as_mut_ptr(),
            area.len(),
            schedule.as_ptr(),
            schedule.len(),
        )
    }
}

fn end(area: &mut [u8]) -> u32 {
    unsafe { plain_end(area.as_mut_ptr(), area.len()) }
}

fn want(area: &mut [u8], demand: u32) -> u32 {
    unsafe { plain_want(area.as_mut_ptr(), area.len(), demand) }
}

fn read(area: &[u8], output: &mut [u8]) -> u32 {
    unsafe { plain_read(area.as_ptr(), area.len(), output.as_mut_ptr(), output.len()) }
}

fn slots(area: &[u8], output: &mut [u8]) -> u32 {
    lend_numbers(output, |numbers| unsafe {
        plain_slots(
            area.as_ptr(),
            area.len(),
            numbers.as_mut_ptr(),
            numbers.len(),
        )
    })
}

/// Writes the listing of a script to the start of the output, and its length.
pub fn replay(script: &[u8], area: &mut [u8], output: &mut [u8], length: &mut u32) -> u32 {
    replay_day(script, area, output, length, 1, &[])
}

/// As [`replay`], with a day and windows.
pub fn replay_day(
    script: &[u8],
    area: &mut [u8],
    output: &mut [u8],
    length: &mut u32,
    day: u32,
    windows: &[Window],
) -> u32 {
    unsafe {
        plain_replay(
            script.as_ptr(),
            script.len(),
            area.as_mut_ptr(),
            area.len(),
            output.as_mut_ptr(),
            output.len(),
            length,
            day,
            windows.as_ptr(),
            windows.len(),
        )
    }
}
