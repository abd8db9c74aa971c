//! The port's functions: lists and answers by the crate in rust/, over the archive
//! of crates/murm_c_c; the others out of the archive of crates/bench. No other file
//! here names them.

use murm::{Arrays, Query, Record, Refusal};

use super::lent::{By, Finding, Lookup, Mode, Reply, Table};

/// What a find and an answer return for none. A lower number is a node times `NODE`
/// and its gate count, or a gate count alone; a higher one is a refusal's number
/// times `STEP`, and its position.
const NONE: u64 = 4294967295;
const STEP: u64 = 1 << 32;
const NODE: u64 = 128;

#[link(name = "bench", kind = "static")]
unsafe extern "C" {
    fn bench_query(width: u32, exponent: u16, entries: *const i16, places: usize) -> u64;
    fn bench_fingerprint(entries: *const i16, places: usize, width: usize, exponent: u16) -> u64;
    fn bench_build(
        mode: u32,
        by: u32,
        limits: *const u32,
        limit_places: usize,
        fingerprints: *mut u64,
        fingerprint_places: usize,
        parents: *mut u32,
        parent_places: usize,
        codes: *mut u32,
        code_places: usize,
        index: *mut u32,
        index_places: usize,
        record: *mut u64,
        record_places: usize,
    ) -> u64;
    fn bench_fill(
        qubits: u32,
        gates: u32,
        entries: u32,
        basis: u32,
        count1: usize,
        count2: usize,
        count3: usize,
        count4: usize,
        count5: usize,
        fingerprints: *const u64,
        fingerprint_places: usize,
        parents: *const u32,
        parent_places: usize,
        codes: *const u32,
        code_places: usize,
        index: *mut u32,
        index_places: usize,
    ) -> u64;
    fn bench_find(
        by: u32,
        qubits: u32,
        gates: u32,
        entries: u32,
        basis: u32,
        count1: usize,
        count2: usize,
        count3: usize,
        count4: usize,
        count5: usize,
        fingerprints: *const u64,
        fingerprint_places: usize,
        parents: *const u32,
        parent_places: usize,
        codes: *const u32,
        code_places: usize,
        index: *const u32,
        index_places: usize,
        width: u32,
        exponent: u16,
        matrix: *const i16,
        matrix_places: usize,
    ) -> u64;
    fn bench_synthesize(
        by: u32,
        qubits: u32,
        gates: u32,
        entries: u32,
        basis: u32,
        count1: usize,
        count2: usize,
        count3: usize,
        count4: usize,
        count5: usize,
        fingerprints: *const u64,
        fingerprint_places: usize,
        parents: *const u32,
        parent_places: usize,
        codes: *const u32,
        code_places: usize,
        index: *const u32,
        index_places: usize,
        width: u32,
        exponent: u16,
        matrix: *const i16,
        matrix_places: usize,
        out: *mut u32,
        places: usize,
    ) -> u64;
    fn bench_write(
        qubits: u32,
        gates: u32,
        entries: u32,
        basis: u32,
        count1: usize,
        count2: usize,
        count3: usize,
        count4: usize,
        count5: usize,
        fingerprints: *const u64,
        fingerprint_places: usize,
        parents: *const u32,
        parent_places: usize,
        codes: *const u32,
        code_places: usize,
        width: u32,
        node: usize,
        out: *mut u32,
        places: usize,
    ) -> u64;
}

/// Calls a function with a table's record and arrays, between what goes before and
/// what goes after them.
macro_rules! over {
    ($function:ident, [$($before:expr),*], $table:expr, [$($after:expr),* $(,)?]) => {{
        let [qubits, gates, entries, basis] = $table.limits();
        unsafe {
            $function(
                $($before,)*
                qubits,
                gates,
                entries,
                basis,
                $table.count(1),
                $table.count(2),
                $table.count(3),
                $table.count(4),
                $table.count(5),
                $table.fingerprints.as_ptr(),
                $table.fingerprints.len(),
                $table.parents.as_ptr(),
                $table.parents.len(),
                $table.codes.as_ptr(),
                $table.codes.len(),
                $($after,)*
            )
        }
    }};
}

impl Mode {
    fn number(self) -> u32 {
        match self {
            Mode::ByPrint => 0,
            Mode::Keeping => 1,
        }
    }
}

impl By {
    fn number(self) -> u32 {
        match self {
            By::Scan => 0,
            By::Index => 1,
        }
    }
}

/// The exponent, where the list is not refused.
pub(super) fn list(width: usize, codes: &[u32], out: &mut [i16]) -> Option<u16> {
    murm::library_circuit_matrix(width as u32, codes, out).ok()
}

/// The fingerprint by the entry, which tests its matrix first.
pub(super) fn query(width: usize, exponent: u16, entries: &[i16]) -> u64 {
    unsafe { bench_query(width as u32, exponent, entries.as_ptr(), entries.len()) }
}

/// The fingerprint below the entry. What it requires is met by the callers: all
/// places are lent, and no coefficient is -32768.
pub(super) fn fingerprint(width: usize, exponent: u16, entries: &[i16]) -> u64 {
    unsafe { bench_fingerprint(entries.as_ptr(), entries.len(), width, exponent) }
}

/// A refusal's number. A table's refusals have the position 0.
fn refusal(told: u64) -> u64 {
    assert_eq!(told % STEP, 0, "position");
    told / STEP
}

impl Table {
    /// Q, G, E and B.
    fn limits(&self) -> [u32; 4] {
        let l = &self.limits;
        [l.qubits, l.gates, l.entries, l.basis]
    }

    /// 0, or the number of the refusal.
    pub(super) fn build(&mut self) -> u64 {
        self.build_by(Mode::ByPrint, By::Scan, &mut [])
    }

    /// The same in a mode, with a look-up and a lent index.
    pub(super) fn build_by(&mut self, mode: Mode, by: By, index: &mut [u32]) -> u64 {
        self.build_numbered(mode.number(), by, index)
    }

    /// The same with the mode's number: 0 is by fingerprint, any other keeping.
    pub(super) fn build_numbered(&mut self, mode: u32, by: By, index: &mut [u32]) -> u64 {
        let limits = self.limits();
        unsafe {
            bench_build(
                mode,
                by.number(),
                limits.as_ptr(),
                limits.len(),
                self.fingerprints.as_mut_ptr(),
                self.fingerprints.len(),
                self.parents.as_mut_ptr(),
                self.parents.len(),
                self.codes.as_mut_ptr(),
                self.codes.len(),
                index.as_mut_ptr(),
                index.len(),
                self.record.as_mut_ptr(),
                self.record.len(),
            )
        }
    }

    /// Fills an index from the table: 0, or the number of the refusal.
    pub(super) fn fill(&self, index: &mut [u32]) -> u64 {
        over!(bench_fill, [], self, [index.as_mut_ptr(), index.len()])
    }

    /// How many gates the list has; none. Of the record only the counts are asked
    /// for: no answer depends on the rest.
    pub(super) fn synthesize(
        &self,
        width: u32,
        exponent: u16,
        matrix: &[i16],
        out: &mut [u32],
    ) -> Result<Option<usize>, Refusal> {
        let [q, g, e, b] = self.limits();
        let record = Record {
            q,
            g,
            e,
            b,
            counts: [1, 2, 3, 4, 5].map(|width| self.count(width)),
        };
        let arrays = Arrays {
            fingerprints: &self.fingerprints,
            parents: &self.parents,
            codes: &self.codes,
        };
        let query = Query {
            width,
            exponent,
            coefficients: matrix,
        };
        murm::synthesize(&record, arrays, query, out)
    }

    /// The answer by its cases, with the lent list after it.
    pub(super) fn ask(&self, width: u32, exponent: u16, matrix: &[i16], out: &mut [u32]) -> Reply {
        match self.synthesize(width, exponent, matrix, out) {
            Ok(Some(count)) => Reply::List(out[..count].to_vec()),
            Ok(None) => Reply::None,
            Err(refusal) => Reply::Refused(u64::from(refusal.number())),
        }
    }

    /// The same by a look-up.
    pub(super) fn ask_by(
        &self,
        lookup: Lookup,
        width: u32,
        exponent: u16,
        matrix: &[i16],
        out: &mut [u32],
    ) -> Reply {
        let told = self.synthesize_by(lookup, width, exponent, matrix, out);
        reply(told, out)
    }

    /// The same as a number.
    pub(super) fn synthesize_by(
        &self,
        lookup: Lookup,
        width: u32,
        exponent: u16,
        matrix: &[i16],
        out: &mut [u32],
    ) -> u64 {
        let Lookup { by, index } = lookup;
        over!(
            bench_synthesize,
            [by.number()],
            self,
            [
                index.as_ptr(),
                index.len(),
                width,
                exponent,
                matrix.as_ptr(),
                matrix.len(),
                out.as_mut_ptr(),
                out.len(),
            ]
        )
    }

    /// The node that answers a matrix.
    pub(super) fn find(
        &self,
        lookup: Lookup,
        width: u32,
        exponent: u16,
        matrix: &[i16],
    ) -> Finding {
        let Lookup { by, index } = lookup;
        let told = over!(
            bench_find,
            [by.number()],
            self,
            [
                index.as_ptr(),
                index.len(),
                width,
                exponent,
                matrix.as_ptr(),
                matrix.len(),
            ]
        );
        match told {
            NONE => Finding::None,
            _ if told < NONE => Finding::Node((told / NODE) as usize, (told % NODE) as usize),
            _ => Finding::Refused(refusal(told)),
        }
    }

    /// The list of a node.
    pub(super) fn write(&self, width: u32, node: usize, out: &mut [u32]) -> Reply {
        let told = over!(
            bench_write,
            [],
            self,
            [width, node, out.as_mut_ptr(), out.len(),]
        );
        reply(told, out)
    }
}

/// What a number says of a lent list.
fn reply(told: u64, out: &[u32]) -> Reply {
    match told {
        NONE => Reply::None,
        count if count < NONE => Reply::List(out[..count as usize].to_vec()),
        _ => Reply::Refused(refusal(told)),
    }
}
