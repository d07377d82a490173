//! The second implementation behind the interface of the C calls: it reads
//! the node area, makes the step, and writes the next node's bytes.

use reference::node::{Node, Phase};
use reference::refusal::Refusal;
use reference::settings::{Settings, MAX_REQUEST};
use reference::wire::{write_schedule, SCHEDULE_LENGTH};

use crate::area;
use crate::call::{Beginning, Call, Restarting};
use crate::calls::close_places;

pub const REPORT_LENGTH: usize = 96;

/// Numbers of `hydra_slots`.
pub const SLOTS_LENGTH: usize = 3;

/// Refusal 14, which the second implementation itself does not know.
pub const NOT_A_NODE: u32 = 14;

/// Makes a call on lent bytes, and returns 0 or its refusal number.
// Not inlined, so that a profile shows what it costs.
#[inline(never)]
pub fn run(call: Call, area: &mut [u8], input: &[u8], output: &mut [u8]) -> u32 {
    match attempt(call, area, input, output) {
        Ok(()) => 0,
        Err(number) => number,
    }
}

/// Plain numbers first (2 and 3), then the area (14), then the step's own.
fn attempt(call: Call, area: &mut [u8], input: &[u8], output: &mut [u8]) -> Result<(), u32> {
    check_numbers(call).map_err(number)?;
    let node = match call {
        Call::Begin(_) | Call::Restart(_) => first(call).map_err(number)?,
        _ => {
            let mut node = area::decode(area).ok_or(NOT_A_NODE)?;
            step(&mut node, call, input, output).map_err(number)?;
            node
        }
    };
    if !matches!(call, Call::Send | Call::Read | Call::Slots) {
        let area: &mut [u8; area::LENGTH] = area.try_into().map_err(|_| NOT_A_NODE)?;
        *area = area::encode(&node);
    }
    Ok(())
}

fn check_numbers(call: Call) -> Result<(), Refusal> {
    match call {
        Call::Want(demand) if demand > MAX_REQUEST => Err(Refusal::Value),
        _ => Ok(()),
    }
}

/// The number that a C call returns for a refusal.
pub fn number(refusal: Refusal) -> u32 {
    u32::from(refusal.number())
}

/// The node that a beginning or a restart makes.
pub fn first(call: Call) -> Result<Node, Refusal> {
    match call {
        Call::Begin(numbers) => begin(numbers),
        Call::Restart(numbers) => restart(numbers),
        _ => panic!("{call:?} needs a node"),
    }
}

/// A call on a node, which it changes in place; a refused one leaves it as it
/// was. A beginning or a restart makes another node of it.
pub fn step(node: &mut Node, call: Call, input: &[u8], output: &mut [u8]) -> Result<(), Refusal> {
    match call {
        Call::Begin(_) | Call::Restart(_) => {
            *node = first(call)?;
            Ok(())
        }
        Call::Send => node.send_into(output),
        Call::Hear => node.hear_bytes(input),
        Call::Close => {
            let (output, ground) = close_places(output);
            node.close_into(output, ground)
        }
        Call::Take => node.take_bytes(input),
        Call::End => node.end(),
        Call::Want(demand) => node.want(demand),
        Call::Read => read_into(node, output),
        Call::Slots => slots_into(node, output),
    }
}

fn begin(numbers: Beginning) -> Result<Node, Refusal> {
    let settings = Settings::new(
        numbers.nodes,
        numbers.slots,
        numbers.rounds,
        numbers.heard,
        numbers.split,
    )?;
    Node::begin(
        settings,
        numbers.node,
        numbers.version,
        numbers.flags,
        numbers.demand,
    )
}

fn restart(numbers: Restarting) -> Result<Node, Refusal> {
    let settings = Settings::new(
        numbers.nodes,
        numbers.slots,
        numbers.rounds,
        numbers.heard,
        numbers.split,
    )?;
    Node::restart(settings, numbers.place, numbers.node, numbers.flags)
}

/// The report: version and schedule as on the air, flags, place, and the four
/// small values as in the area.
pub fn report(node: &Node) -> [u8; REPORT_LENGTH] {
    let mut bytes = [0; REPORT_LENGTH];
    bytes[..SCHEDULE_LENGTH].copy_from_slice(&write_schedule(node.version, &node.schedule));
    bytes[84..88].copy_from_slice(&node.flags.to_be_bytes());
    bytes[88..92].copy_from_slice(&node.place.to_be_bytes());
    bytes[92..].copy_from_slice(&area::small(node));
    bytes
}

fn read_into(node: &Node, output: &mut [u8]) -> Result<(), Refusal> {
    let part = output.get_mut(..REPORT_LENGTH).ok_or(Refusal::Capacity)?;
    part.copy_from_slice(&report(node));
    Ok(())
}

/// The node's own slots: bits for the first 64, bits for the others, and how
/// many they are. Only a node in negotiation tells them.
fn slots_into(node: &Node, output: &mut [u8]) -> Result<(), Refusal> {
    if node.phase != Phase::Negotiation {
        return Err(Refusal::WrongPhase);
    }
    let part = output
        .get_mut(..8 * SLOTS_LENGTH)
        .ok_or(Refusal::Capacity)?;
    let index = node.id as usize - 1;
    let mask = node.schedule.mask(index);
    let count = u64::from(node.schedule.counts()[index]);
    let numbers: [u64; SLOTS_LENGTH] = [mask as u64, (mask >> 64) as u64, count];
    for (bytes, number) in part.chunks_exact_mut(8).zip(numbers) {
        bytes.copy_from_slice(&number.to_ne_bytes());
    }
    Ok(())
}
