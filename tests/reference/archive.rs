//! The two archives under test: what they declare, and a safe wrapper for each call, of the same shape as the reference's own.

use crate::program::Buffers;
use crate::reply::Reply;
use crate::table::Table;
use crate::text::Rule;

/// A lent part of memory, as an array of names holds it.
#[repr(C)]
struct Part {
    start: *const u8,
    length: usize,
}

#[repr(C)]
struct FitReply {
    number: u32,
    table: u32,
    compatible: bool,
    rounds: usize,
    placed: bool,
    cell_state: usize,
    cell_signal: usize,
}

#[repr(C)]
struct RefineReply {
    number: u32,
    table: u32,
    refines: bool,
    placed: bool,
    cell_state: usize,
    cell_signal: usize,
}

#[repr(C)]
struct FollowReply {
    number: u32,
    table: u32,
    moved: bool,
    state: usize,
    placed: bool,
    cell_state: usize,
    cell_signal: usize,
}

#[repr(C)]
struct Follower {
    state: usize,
}

extern "C" {
    fn harness_judge(states: usize, initial: usize, inputs: u32, outputs: u32, cells: *const u16, length: usize) -> Reply;
    fn harness_mirror(states: usize, initial: usize, inputs: u32, outputs: u32, cells: *const u16, length: usize) -> Reply;
    fn harness_follow(
        states: usize, initial: usize, inputs: u32, outputs: u32, cells: *const u16, length: usize, state: usize, signal: usize) -> Reply;
    fn harness_count_kept(flags: *const u8, length: usize) -> usize;
    fn harness_count_singly(flags: *const u8, length: usize) -> usize;
    fn harness_count_steps(states: usize, cells: *const u16, length: usize) -> usize;
    fn harness_count_ends(
        states: usize, initial: usize, inputs: u32, outputs: u32, cells: *const u16, cells_length: usize,
        flags: *const u8, flags_length: usize) -> usize;
    fn harness_mark_reached(
        marks: *mut u8, marks_length: usize, initial: usize, sets: *const u32, sets_length: usize, cells: *const u16, cells_length: usize);
    fn harness_read_alone(text: *const u8, length: usize, cells: *mut u16, cells_length: usize) -> Reply;
    fn harness_read_archive_alone(text: *const u8, length: usize, cells: *mut u16, cells_length: usize) -> Reply;
    fn harness_read_together(
        module: *const u8, module_length: usize, plan: *const u8, plan_length: usize,
        module_cells: *mut u16, module_cells_length: usize, plan_cells: *mut u16, plan_cells_length: usize) -> Reply;
    fn harness_read_archive_together(
        module: *const u8, module_length: usize, plan: *const u8, plan_length: usize,
        module_cells: *mut u16, module_cells_length: usize, plan_cells: *mut u16, plan_cells_length: usize) -> Reply;
    fn harness_name(
        module: *const u8, module_length: usize, plan: *const u8, plan_length: usize, signal: usize, out: *mut u8, length: usize) -> Reply;
    fn harness_archive_name(
        module: *const u8, module_length: usize, plan: *const u8, plan_length: usize, signal: usize, out: *mut u8, length: usize) -> Reply;
    fn harness_name_alone(text: *const u8, text_length: usize, signal: usize, out: *mut u8, length: usize) -> Reply;
    fn harness_archive_name_alone(text: *const u8, text_length: usize, signal: usize, out: *mut u8, length: usize) -> Reply;
    fn harness_list(
        module: *const u8, module_length: usize, plan: *const u8, plan_length: usize,
        module_cells: *mut u16, module_cells_length: usize, plan_cells: *mut u16, plan_cells_length: usize,
        out: *mut u8, length: usize) -> usize;
    fn harness_write(
        states: usize, initial: usize, inputs: u32, outputs: u32, cells: *const u16, cells_length: usize,
        name: *const u8, name_length: usize, names: *const Part, names_length: usize, out: *mut u8, length: usize) -> Reply;
    fn harness_report(
        module: *const u8, module_length: usize, plan: *const u8, plan_length: usize,
        module_cells: *mut u16, module_cells_length: usize, plan_cells: *mut u16, plan_cells_length: usize,
        cells: *mut u16, cells_length: usize, flags: *mut u8, flags_length: usize, out: *mut u8, length: usize) -> usize;

    fn moqresam_fit(
        states_a: usize, initial_a: usize, inputs_a: u32, outputs_a: u32, cells_a: *const u8, length_a: usize,
        states_b: usize, initial_b: usize, inputs_b: u32, outputs_b: u32, cells_b: *const u8, length_b: usize,
        flags: *mut u8, length: usize) -> FitReply;
    fn moqresam_count_kept(flags: *const u8, length: usize) -> usize;
    fn moqresam_refine(
        states_a: usize, initial_a: usize, inputs_a: u32, outputs_a: u32, cells_a: *const u8, length_a: usize,
        states_b: usize, initial_b: usize, inputs_b: u32, outputs_b: u32, cells_b: *const u8, length_b: usize,
        marks: *mut u8, length: usize) -> RefineReply;
    fn moqresam_follow(
        states: usize, initial: usize, inputs: u32, outputs: u32, cells: *const u8, length: usize, state: usize, signal: usize) -> FollowReply;
    fn moqresam_follow_record(
        states: usize, initial: usize, inputs: u32, outputs: u32, cells: *const u8, length: usize,
        follower: *mut Follower, signal: usize) -> FollowReply;
}

pub fn judge(t: &Table) -> Reply {
    unsafe { harness_judge(t.states, t.initial, t.inputs, t.outputs, t.cells.as_ptr(), t.cells.len()) }
}

pub fn mirror(t: &Table) -> Reply {
    unsafe { harness_mirror(t.states, t.initial, t.inputs, t.outputs, t.cells.as_ptr(), t.cells.len()) }
}

pub fn follow(t: &Table, state: usize, signal: usize) -> Reply {
    unsafe { harness_follow(t.states, t.initial, t.inputs, t.outputs, t.cells.as_ptr(), t.cells.len(), state, signal) }
}

/// A call on two tables with some lent buffers: what the archive declares, and the wrapper.
macro_rules! call_on_two_tables {
    ($wrapper:ident, $call:ident, $($lent:ident: $cell:ty),*) => {
        pub fn $wrapper(a: &Table, b: &Table, $($lent: &mut [$cell]),*) -> Reply {
            extern "C" {
                fn $call(
                    _: usize, _: usize, _: u32, _: u32, _: *const u16, _: usize,
                    _: usize, _: usize, _: u32, _: u32, _: *const u16, _: usize, $(_: *mut $cell, _: usize),*) -> Reply;
            }
            unsafe {
                $call(
                    a.states, a.initial, a.inputs, a.outputs, a.cells.as_ptr(), a.cells.len(),
                    b.states, b.initial, b.inputs, b.outputs, b.cells.as_ptr(), b.cells.len(), $($lent.as_mut_ptr(), $lent.len()),*)
            }
        }
    };
}
call_on_two_tables!(make_product, harness_product, cells: u16);
call_on_two_tables!(judge_fit, harness_fit, flags: u8);
call_on_two_tables!(make_composition, harness_compose, cells: u16, flags: u8);
call_on_two_tables!(judge_refinement, harness_refine, marks: u8);
call_on_two_tables!(synthesize, harness_synthesize, cells: u16, flags: u8);

pub fn count_kept(flags: &[u8]) -> usize {
    unsafe { harness_count_kept(flags.as_ptr(), flags.len()) }
}

pub fn count_singly(flags: &[u8]) -> usize {
    unsafe { harness_count_singly(flags.as_ptr(), flags.len()) }
}

pub fn count_steps(states: usize, cells: &[u16]) -> usize {
    unsafe { harness_count_steps(states, cells.as_ptr(), cells.len()) }
}

pub fn count_ends(t: &Table, flags: &[u8]) -> usize {
    unsafe { harness_count_ends(t.states, t.initial, t.inputs, t.outputs, t.cells.as_ptr(), t.cells.len(), flags.as_ptr(), flags.len()) }
}

pub fn mark_reached(marks: &mut [u8], initial: usize, sets: &[u32], cells: &[u16]) {
    unsafe { harness_mark_reached(marks.as_mut_ptr(), marks.len(), initial, sets.as_ptr(), sets.len(), cells.as_ptr(), cells.len()) }
}

pub fn read_alone(rule: Rule, text: &[u8], cells: &mut [u16]) -> Reply {
    let read = match rule {
        Rule::Folded => harness_read_alone,
        Rule::Exact => harness_read_archive_alone,
    };
    unsafe { read(text.as_ptr(), text.len(), cells.as_mut_ptr(), cells.len()) }
}

pub fn read_together(rule: Rule, module: &[u8], plan: &[u8], module_cells: &mut [u16], plan_cells: &mut [u16]) -> Reply {
    let read = match rule {
        Rule::Folded => harness_read_together,
        Rule::Exact => harness_read_archive_together,
    };
    let (to_m, to_p) = (module_cells, plan_cells);
    unsafe {
        read(module.as_ptr(), module.len(), plan.as_ptr(), plan.len(), to_m.as_mut_ptr(), to_m.len(), to_p.as_mut_ptr(), to_p.len())
    }
}

pub fn name(rule: Rule, module: &[u8], plan: Option<&[u8]>, signal: usize, out: &mut [u8]) -> Reply {
    let (joint, alone) = match rule {
        Rule::Folded => (harness_name as JointName, harness_name_alone as NameAlone),
        Rule::Exact => (harness_archive_name as JointName, harness_archive_name_alone as NameAlone),
    };
    let (to, room) = (out.as_mut_ptr(), out.len());
    match plan {
        Some(plan) => unsafe { joint(module.as_ptr(), module.len(), plan.as_ptr(), plan.len(), signal, to, room) },
        None => unsafe { alone(module.as_ptr(), module.len(), signal, to, room) },
    }
}

type JointName = unsafe extern "C" fn(*const u8, usize, *const u8, usize, usize, *mut u8, usize) -> Reply;
type NameAlone = unsafe extern "C" fn(*const u8, usize, usize, *mut u8, usize) -> Reply;

/// How many bytes of `out` the lister prints, or one more than `out` has where it has too few.
pub fn list(module: &[u8], plan: &[u8], module_cells: &mut [u16], plan_cells: &mut [u16], out: &mut [u8]) -> usize {
    let (to_m, to_p) = (module_cells, plan_cells);
    unsafe {
        harness_list(
            module.as_ptr(), module.len(), plan.as_ptr(), plan.len(), to_m.as_mut_ptr(), to_m.len(), to_p.as_mut_ptr(), to_p.len(),
            out.as_mut_ptr(), out.len())
    }
}

pub fn write(t: &Table, name: &[u8], names: &[&[u8]], out: &mut [u8]) -> Reply {
    let parts: Vec<Part> = names.iter().map(|name| Part { start: name.as_ptr(), length: name.len() }).collect();
    unsafe {
        harness_write(
            t.states, t.initial, t.inputs, t.outputs, t.cells.as_ptr(), t.cells.len(),
            name.as_ptr(), name.len(), parts.as_ptr(), parts.len(), out.as_mut_ptr(), out.len())
    }
}

/// How many bytes of `out` the program prints.
pub fn report(module: &[u8], plan: &[u8], lent: &mut Buffers, out: &mut [u8]) -> usize {
    let (to_m, to_p, cells, flags) = (lent.module_cells.part(), lent.plan_cells.part(), lent.cells.part(), lent.flags.part());
    unsafe {
        harness_report(
            module.as_ptr(), module.len(), plan.as_ptr(), plan.len(), to_m.as_mut_ptr(), to_m.len(), to_p.as_mut_ptr(), to_p.len(),
            cells.as_mut_ptr(), cells.len(), flags.as_mut_ptr(), flags.len(), out.as_mut_ptr(), out.len())
    }
}

/// No bytes at all may be lent as NULL in C.
fn start(bytes: &[u8]) -> *const u8 {
    if bytes.is_empty() { std::ptr::null() } else { bytes.as_ptr() }
}

/// The calls for C take the numbers of a table from `a` and `b`, and the cells from the bytes beside them.
pub fn c_fit(a: &Table, a_bytes: &[u8], b: &Table, b_bytes: &[u8], flags: &mut [u8]) -> Reply {
    let FitReply { number, table, compatible: yes, rounds: value, placed, cell_state, cell_signal } = unsafe {
        moqresam_fit(
            a.states, a.initial, a.inputs, a.outputs, start(a_bytes), a_bytes.len(),
            b.states, b.initial, b.inputs, b.outputs, start(b_bytes), b_bytes.len(), flags.as_mut_ptr(), flags.len())
    };
    Reply { number, table, yes, value, placed, cell_state, cell_signal, ..Reply::default() }
}

pub fn c_refine(x: &Table, x_bytes: &[u8], y: &Table, y_bytes: &[u8], marks: &mut [u8]) -> Reply {
    let RefineReply { number, table, refines: yes, placed, cell_state, cell_signal } = unsafe {
        moqresam_refine(
            x.states, x.initial, x.inputs, x.outputs, start(x_bytes), x_bytes.len(),
            y.states, y.initial, y.inputs, y.outputs, start(y_bytes), y_bytes.len(), marks.as_mut_ptr(), marks.len())
    };
    Reply { number, table, yes, placed, cell_state, cell_signal, ..Reply::default() }
}

pub fn c_follow(t: &Table, bytes: &[u8], state: usize, signal: usize) -> Reply {
    follower_reply(unsafe { moqresam_follow(t.states, t.initial, t.inputs, t.outputs, start(bytes), bytes.len(), state, signal) })
}

/// The record is lent, and holds the state afterwards.
pub fn c_follow_record(t: &Table, bytes: &[u8], state: &mut usize, signal: usize) -> Reply {
    let mut record = Follower { state: *state };
    let reply =
        unsafe { moqresam_follow_record(t.states, t.initial, t.inputs, t.outputs, start(bytes), bytes.len(), &mut record, signal) };
    *state = record.state;
    follower_reply(reply)
}

pub fn c_count_kept(flags: &[u8]) -> usize {
    unsafe { moqresam_count_kept(start(flags), flags.len()) }
}

fn follower_reply(FollowReply { number, table, moved: yes, state: value, placed, cell_state, cell_signal }: FollowReply) -> Reply {
    Reply { number, table, yes, value, placed, cell_state, cell_signal, ..Reply::default() }
}
