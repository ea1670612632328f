//! The three libraries that are compared, behind one interface.

use crate::plain::{self, Reply, Scratch, Table};

pub trait Library {
    fn judge(&mut self, t: &Table) -> Reply;
    fn fit(&mut self, a: &Table, b: &Table, flags: &mut [u8]) -> Reply;
    fn refine(&mut self, a: &Table, b: &Table, marks: &mut [u8]) -> Reply;
    fn synthesize(&mut self, a: &Table, b: &Table, cells: &mut [u16], flags: &mut [u8]) -> Reply;
    fn count_kept(&mut self, flags: &[u8]) -> usize;

    /// The loop of before, which counts one by one; the baselines have no other.
    fn count_singly(&mut self, flags: &[u8]) -> usize {
        self.count_kept(flags)
    }

    fn count_ends(&mut self, t: &Table, flags: &[u8]) -> usize;
    fn mark_reached(&mut self, marks: &mut [u8], initial: usize, sets: &[u32], cells: &[u16]);
    fn follow(&mut self, t: &Table, state: usize, signal: usize) -> Reply;
    fn read_together(&mut self, m: &[u8], p: &[u8], cm: &mut [u16], cp: &mut [u16]) -> Reply;
    fn read_archive_together(&mut self, m: &[u8], p: &[u8], cm: &mut [u16], cp: &mut [u16]) -> Reply;
    fn list(&mut self, m: &[u8], p: &[u8], cm: &mut [u16], cp: &mut [u16], out: &mut [u8]) -> usize;
    fn write(&mut self, t: &Table, name: &[u8], names: &[&[u8]], out: &mut [u8]) -> Reply;
    fn report(&mut self, texts: [&[u8]; 2], tables: [&mut [u16]; 2], cells: &mut [u16], flags: &mut [u8], out: &mut [u8]) -> usize;
}

/// The archive, proved.
pub struct Archive;

/// Plain C.
pub struct PlainC;

/// Plain Rust.
pub struct PlainRust(pub Scratch);

/// A slice as C takes it.
#[repr(C)]
struct Part {
    bytes: *const u8,
    length: usize,
}

fn part(s: &[u8]) -> Part {
    Part { bytes: s.as_ptr(), length: s.len() }
}

/// Lent cells as C takes them.
#[repr(C)]
struct Cells {
    cells: *mut u16,
    count: usize,
}

fn lent(c: &mut [u16]) -> Cells {
    Cells { cells: c.as_mut_ptr(), count: c.len() }
}

#[repr(C)]
struct CTable {
    states: usize,
    initial: usize,
    inputs: u32,
    outputs: u32,
    cells: *const u16,
    count: usize,
}

fn c_table(t: &Table) -> CTable {
    CTable { states: t.states, initial: t.initial, inputs: t.inputs, outputs: t.outputs, cells: t.cells.as_ptr(), count: t.cells.len() }
}

#[rustfmt::skip]
unsafe extern "C" {
    fn harness_judge(s: usize, i: usize, inputs: u32, outputs: u32, c: *const u16, n: usize) -> Reply;
    fn harness_fit(
        sa: usize, ia: usize, ina: u32, outa: u32, ca: *const u16, na: usize,
        sb: usize, ib: usize, inb: u32, outb: u32, cb: *const u16, nb: usize,
        flags: *mut u8, n: usize) -> Reply;
    fn harness_refine(
        sa: usize, ia: usize, ina: u32, outa: u32, ca: *const u16, na: usize,
        sb: usize, ib: usize, inb: u32, outb: u32, cb: *const u16, nb: usize,
        marks: *mut u8, n: usize) -> Reply;
    fn harness_synthesize(
        sa: usize, ia: usize, ina: u32, outa: u32, ca: *const u16, na: usize,
        sb: usize, ib: usize, inb: u32, outb: u32, cb: *const u16, nb: usize,
        cells: *mut u16, m: usize, flags: *mut u8, n: usize) -> Reply;
    fn harness_count_kept(flags: *const u8, n: usize) -> usize;
    fn harness_count_singly(flags: *const u8, n: usize) -> usize;
    fn harness_count_ends(s: usize, i: usize, inputs: u32, outputs: u32, c: *const u16, n: usize, flags: *const u8, nf: usize) -> usize;
    fn harness_mark_reached(marks: *mut u8, n: usize, initial: usize, sets: *const u32, ns: usize, c: *const u16, nc: usize);
    fn harness_follow(
        s: usize, i: usize, inputs: u32, outputs: u32, c: *const u16, n: usize, state: usize, signal: usize) -> Reply;
    fn harness_read_together(
        m: *const u8, nm: usize, p: *const u8, np: usize, cm: *mut u16, ncm: usize, cp: *mut u16, ncp: usize) -> Reply;
    fn harness_read_archive_together(
        m: *const u8, nm: usize, p: *const u8, np: usize, cm: *mut u16, ncm: usize, cp: *mut u16, ncp: usize) -> Reply;
    fn harness_list(
        m: *const u8, nm: usize, p: *const u8, np: usize, cm: *mut u16, ncm: usize, cp: *mut u16, ncp: usize,
        out: *mut u8, nout: usize) -> usize;
    fn harness_write(
        s: usize, i: usize, inputs: u32, outputs: u32, c: *const u16, n: usize,
        name: *const u8, nn: usize, names: *const Part, nnames: usize, out: *mut u8, nout: usize) -> Reply;
    fn harness_report(
        m: *const u8, nm: usize, p: *const u8, np: usize, cm: *mut u16, ncm: usize, cp: *mut u16, ncp: usize,
        cells: *mut u16, ncells: usize, flags: *mut u8, nflags: usize, out: *mut u8, nout: usize) -> usize;

    fn plain_judge(t: *const CTable) -> Reply;
    fn plain_fit(a: *const CTable, b: *const CTable, flags: *mut u8, n: usize) -> Reply;
    fn plain_refine(a: *const CTable, b: *const CTable, marks: *mut u8, n: usize) -> Reply;
    fn plain_synthesize(a: *const CTable, b: *const CTable, cells: *mut u16, m: usize, flags: *mut u8, n: usize) -> Reply;
    fn plain_count_kept(flags: *const u8, n: usize) -> usize;
    fn plain_count_ends(t: *const CTable, flags: *const u8, n: usize) -> usize;
    fn plain_mark_reached(marks: *mut u8, n: usize, initial: usize, sets: *const u32, ns: usize, c: *const u16, nc: usize);
    fn plain_follow(t: *const CTable, state: usize, signal: usize) -> Reply;
    fn plain_read_together(m: Part, p: Part, cm: Cells, cp: Cells) -> Reply;
    fn plain_read_archive_together(m: Part, p: Part, cm: Cells, cp: Cells) -> Reply;
    fn plain_list(m: Part, p: Part, cm: Cells, cp: Cells, out: *mut u8, nout: usize) -> usize;
    fn plain_write(t: *const CTable, name: Part, names: *const Part, n: usize, out: *mut u8, nout: usize) -> Reply;
    fn plain_report(
        m: Part, p: Part, cm: Cells, cp: Cells, cells: Cells, flags: *mut u8, nflags: usize, out: *mut u8, nout: usize) -> usize;
}

// Every pointer below comes from a slice and goes with its length, and no slice that is written overlaps another.
#[rustfmt::skip]
impl Library for Archive {
    fn judge(&mut self, t: &Table) -> Reply {
        unsafe { harness_judge(t.states, t.initial, t.inputs, t.outputs, t.cells.as_ptr(), t.cells.len()) }
    }

    fn fit(&mut self, a: &Table, b: &Table, flags: &mut [u8]) -> Reply {
        unsafe {
            harness_fit(
                a.states, a.initial, a.inputs, a.outputs, a.cells.as_ptr(), a.cells.len(),
                b.states, b.initial, b.inputs, b.outputs, b.cells.as_ptr(), b.cells.len(),
                flags.as_mut_ptr(), flags.len(),
            )
        }
    }

    fn refine(&mut self, a: &Table, b: &Table, marks: &mut [u8]) -> Reply {
        unsafe {
            harness_refine(
                a.states, a.initial, a.inputs, a.outputs, a.cells.as_ptr(), a.cells.len(),
                b.states, b.initial, b.inputs, b.outputs, b.cells.as_ptr(), b.cells.len(),
                marks.as_mut_ptr(), marks.len(),
            )
        }
    }

    fn synthesize(&mut self, a: &Table, b: &Table, cells: &mut [u16], flags: &mut [u8]) -> Reply {
        unsafe {
            harness_synthesize(
                a.states, a.initial, a.inputs, a.outputs, a.cells.as_ptr(), a.cells.len(),
                b.states, b.initial, b.inputs, b.outputs, b.cells.as_ptr(), b.cells.len(),
                cells.as_mut_ptr(), cells.len(), flags.as_mut_ptr(), flags.len(),
            )
        }
    }

    fn count_kept(&mut self, flags: &[u8]) -> usize {
        unsafe { harness_count_kept(flags.as_ptr(), flags.len()) }
    }

    fn count_singly(&mut self, flags: &[u8]) -> usize {
        unsafe { harness_count_singly(flags.as_ptr(), flags.len()) }
    }

    fn count_ends(&mut self, t: &Table, flags: &[u8]) -> usize {
        unsafe {
            harness_count_ends(
                t.states, t.initial, t.inputs, t.outputs, t.cells.as_ptr(), t.cells.len(), flags.as_ptr(), flags.len(),
            )
        }
    }

    fn mark_reached(&mut self, marks: &mut [u8], initial: usize, sets: &[u32], cells: &[u16]) {
        unsafe {
            harness_mark_reached(
                marks.as_mut_ptr(), marks.len(), initial, sets.as_ptr(), sets.len(), cells.as_ptr(), cells.len(),
            )
        }
    }

    fn follow(&mut self, t: &Table, state: usize, signal: usize) -> Reply {
        unsafe { harness_follow(t.states, t.initial, t.inputs, t.outputs, t.cells.as_ptr(), t.cells.len(), state, signal) }
    }

    fn read_together(&mut self, m: &[u8], p: &[u8], cm: &mut [u16], cp: &mut [u16]) -> Reply {
        unsafe {
            harness_read_together(
                m.as_ptr(), m.len(), p.as_ptr(), p.len(), cm.as_mut_ptr(), cm.len(), cp.as_mut_ptr(), cp.len(),
            )
        }
    }

    fn read_archive_together(&mut self, m: &[u8], p: &[u8], cm: &mut [u16], cp: &mut [u16]) -> Reply {
        unsafe {
            harness_read_archive_together(
                m.as_ptr(), m.len(), p.as_ptr(), p.len(), cm.as_mut_ptr(), cm.len(), cp.as_mut_ptr(), cp.len(),
            )
        }
    }

    fn list(&mut self, m: &[u8], p: &[u8], cm: &mut [u16], cp: &mut [u16], out: &mut [u8]) -> usize {
        unsafe {
            harness_list(
                m.as_ptr(), m.len(), p.as_ptr(), p.len(), cm.as_mut_ptr(), cm.len(), cp.as_mut_ptr(), cp.len(),
                out.as_mut_ptr(), out.len(),
            )
        }
    }

    fn write(&mut self, t: &Table, name: &[u8], names: &[&[u8]], out: &mut [u8]) -> Reply {
        let parts: [Part; 32] = std::array::from_fn(|i| part(names.get(i).unwrap_or(&&[][..])));
        unsafe {
            harness_write(
                t.states, t.initial, t.inputs, t.outputs, t.cells.as_ptr(), t.cells.len(),
                name.as_ptr(), name.len(), parts.as_ptr(), names.len(), out.as_mut_ptr(), out.len(),
            )
        }
    }

    fn report(&mut self, [m, p]: [&[u8]; 2], [cm, cp]: [&mut [u16]; 2], cells: &mut [u16], flags: &mut [u8], out: &mut [u8]) -> usize {
        unsafe {
            harness_report(
                m.as_ptr(), m.len(), p.as_ptr(), p.len(), cm.as_mut_ptr(), cm.len(), cp.as_mut_ptr(), cp.len(),
                cells.as_mut_ptr(), cells.len(), flags.as_mut_ptr(), flags.len(), out.as_mut_ptr(), out.len(),
            )
        }
    }
}

impl Library for PlainC {
    fn judge(&mut self, t: &Table) -> Reply {
        unsafe { plain_judge(&c_table(t)) }
    }

    fn fit(&mut self, a: &Table, b: &Table, flags: &mut [u8]) -> Reply {
        unsafe { plain_fit(&c_table(a), &c_table(b), flags.as_mut_ptr(), flags.len()) }
    }

    fn refine(&mut self, a: &Table, b: &Table, marks: &mut [u8]) -> Reply {
        unsafe { plain_refine(&c_table(a), &c_table(b), marks.as_mut_ptr(), marks.len()) }
    }

    fn synthesize(&mut self, a: &Table, b: &Table, cells: &mut [u16], flags: &mut [u8]) -> Reply {
        let (m, n) = (cells.len(), flags.len());
        unsafe { plain_synthesize(&c_table(a), &c_table(b), cells.as_mut_ptr(), m, flags.as_mut_ptr(), n) }
    }

    fn count_kept(&mut self, flags: &[u8]) -> usize {
        unsafe { plain_count_kept(flags.as_ptr(), flags.len()) }
    }

    fn count_ends(&mut self, t: &Table, flags: &[u8]) -> usize {
        unsafe { plain_count_ends(&c_table(t), flags.as_ptr(), flags.len()) }
    }

    fn mark_reached(&mut self, marks: &mut [u8], initial: usize, sets: &[u32], cells: &[u16]) {
        let (n, ns, nc) = (marks.len(), sets.len(), cells.len());
        unsafe { plain_mark_reached(marks.as_mut_ptr(), n, initial, sets.as_ptr(), ns, cells.as_ptr(), nc) }
    }

    fn follow(&mut self, t: &Table, state: usize, signal: usize) -> Reply {
        unsafe { plain_follow(&c_table(t), state, signal) }
    }

    fn read_together(&mut self, m: &[u8], p: &[u8], cm: &mut [u16], cp: &mut [u16]) -> Reply {
        unsafe { plain_read_together(part(m), part(p), lent(cm), lent(cp)) }
    }

    fn read_archive_together(&mut self, m: &[u8], p: &[u8], cm: &mut [u16], cp: &mut [u16]) -> Reply {
        unsafe { plain_read_archive_together(part(m), part(p), lent(cm), lent(cp)) }
    }

    fn list(&mut self, m: &[u8], p: &[u8], cm: &mut [u16], cp: &mut [u16], out: &mut [u8]) -> usize {
        unsafe { plain_list(part(m), part(p), lent(cm), lent(cp), out.as_mut_ptr(), out.len()) }
    }

    fn write(&mut self, t: &Table, name: &[u8], names: &[&[u8]], out: &mut [u8]) -> Reply {
        let parts: [Part; 32] = std::array::from_fn(|i| part(names.get(i).unwrap_or(&&[][..])));
        unsafe { plain_write(&c_table(t), part(name), parts.as_ptr(), names.len(), out.as_mut_ptr(), out.len()) }
    }

    fn report(&mut self, [m, p]: [&[u8]; 2], [cm, cp]: [&mut [u16]; 2], cells: &mut [u16], flags: &mut [u8], out: &mut [u8]) -> usize {
        let (n, room) = (flags.len(), out.len());
        unsafe { plain_report(part(m), part(p), lent(cm), lent(cp), lent(cells), flags.as_mut_ptr(), n, out.as_mut_ptr(), room) }
    }
}

impl Library for PlainRust {
    fn judge(&mut self, t: &Table) -> Reply {
        self.0.judge(*t)
    }

    fn fit(&mut self, a: &Table, b: &Table, flags: &mut [u8]) -> Reply {
        self.0.fit(*a, *b, flags)
    }

    fn refine(&mut self, a: &Table, b: &Table, marks: &mut [u8]) -> Reply {
        self.0.refine(*a, *b, marks)
    }

    fn synthesize(&mut self, a: &Table, b: &Table, cells: &mut [u16], flags: &mut [u8]) -> Reply {
        self.0.synthesize(*a, *b, cells, flags)
    }

    fn count_kept(&mut self, flags: &[u8]) -> usize {
        plain::count_kept(flags)
    }

    fn count_ends(&mut self, t: &Table, flags: &[u8]) -> usize {
        self.0.count_ends(*t, flags)
    }

    fn mark_reached(&mut self, marks: &mut [u8], initial: usize, sets: &[u32], cells: &[u16]) {
        self.0.mark_reached(marks, initial, sets, cells)
    }

    fn follow(&mut self, t: &Table, state: usize, signal: usize) -> Reply {
        plain::follow(t, state, signal)
    }

    fn read_together(&mut self, m: &[u8], p: &[u8], cm: &mut [u16], cp: &mut [u16]) -> Reply {
        plain::read_together(m, p, cm, cp)
    }

    fn read_archive_together(&mut self, m: &[u8], p: &[u8], cm: &mut [u16], cp: &mut [u16]) -> Reply {
        plain::read_archive_together(m, p, cm, cp)
    }

    fn list(&mut self, m: &[u8], p: &[u8], cm: &mut [u16], cp: &mut [u16], out: &mut [u8]) -> usize {
        self.0.list(m, p, cm, cp, out)
    }

    fn write(&mut self, t: &Table, name: &[u8], names: &[&[u8]], out: &mut [u8]) -> Reply {
        self.0.write(*t, name, names, out)
    }

    fn report(&mut self, texts: [&[u8]; 2], tables: [&mut [u16]; 2], cells: &mut [u16], flags: &mut [u8], out: &mut [u8]) -> usize {
        self.0.report(texts, tables, cells, flags, out)
    }
}
