//! The static library, as Rust calls it, and the packing of its answers.
#![allow(dead_code)] // each program uses its own part

extern "C" {
    fn lutsamik_read(text: *const u8, text_len: usize, table: *mut u8, table_len: usize) -> u64;
    fn lutsamik_write(table: *const u8, table_len: usize, out: *mut u8, out_len: usize) -> u64;
    fn lutsamik_offer(table: *const u8, table_len: usize, frame: *const u8, frame_len: usize, slip: *mut u8, slip_len: usize) -> u64;
    fn lutsamik_set(table: *mut u8, table_len: usize, slip: *const u8, slip_len: usize) -> u64;
    fn lutsamik_judge(table: *const u8, table_len: usize, answer: *const u8, answer_len: usize) -> u64;
    fn lutsamik_holding(table: *const u8, table_len: usize, answer: *const u8, answer_len: usize, clause: u32, a: u32, b: u32, c: u32, d: u32)
        -> u64;
    fn lutsamik_rewrite(table: *const u8, table_len: usize, rules: *mut u8, rules_len: usize) -> u64;
    fn lutsamik_fit_relevancy(table: *const u8, table_len: usize, answer: *mut u8, answer_len: usize, work: *mut u8, work_len: usize) -> u64;
    fn lutsamik_fit_magic(
        table: *const u8,
        table_len: usize,
        rules: *mut u8,
        rules_len: usize,
        answer: *mut u8,
        answer_len: usize,
        work: *mut u8,
        work_len: usize,
    ) -> u64;
    fn lutsamik_fit_staged(table: *const u8, table_len: usize, answer: *mut u8, answer_len: usize, work: *mut u8, work_len: usize) -> u64;
    fn lutsamik_begin_relevancy(
        session: *mut Session,
        table: *const u8,
        table_len: usize,
        answer: *mut u8,
        answer_len: usize,
        work: *mut u8,
        work_len: usize,
    ) -> u64;
    fn lutsamik_begin_magic(
        session: *mut Session,
        table: *const u8,
        table_len: usize,
        rules: *mut u8,
        rules_len: usize,
        answer: *mut u8,
        answer_len: usize,
        work: *mut u8,
        work_len: usize,
    ) -> u64;
    fn lutsamik_resume_relevancy(
        session: *mut Session,
        further: u32,
        table: *const u8,
        table_len: usize,
        answer: *mut u8,
        answer_len: usize,
        work: *mut u8,
        work_len: usize,
    ) -> u64;
    fn lutsamik_resume_magic(
        session: *mut Session,
        further: u32,
        table: *const u8,
        table_len: usize,
        rules: *mut u8,
        rules_len: usize,
        answer: *mut u8,
        answer_len: usize,
        work: *mut u8,
        work_len: usize,
    ) -> u64;
    fn lutsamik_parts_relevancy(
        table: *const u8,
        table_len: usize,
        count: *mut u64,
        answer: *mut u8,
        answer_len: usize,
        work: *mut u8,
        work_len: usize,
    ) -> u64;
    fn lutsamik_parts_magic(
        table: *const u8,
        table_len: usize,
        count: *mut u64,
        rules: *mut u8,
        rules_len: usize,
        answer: *mut u8,
        answer_len: usize,
        work: *mut u8,
        work_len: usize,
    ) -> u64;
    fn lutsamik_assume_relevancy(
        table: *const u8,
        table_len: usize,
        facts: *const u32,
        facts_len: usize,
        first: *mut u32,
        second: *mut u32,
        answer: *const u8,
        answer_len: usize,
        work: *mut u8,
        work_len: usize,
    ) -> u64;
    fn lutsamik_assume_magic(
        table: *const u8,
        table_len: usize,
        facts: *const u32,
        facts_len: usize,
        first: *mut u32,
        second: *mut u32,
        rules: *mut u8,
        rules_len: usize,
        answer: *const u8,
        answer_len: usize,
        work: *mut u8,
        work_len: usize,
    ) -> u64;
}

/// Where a walk stands: `lutsamik_session` of the header. All its bytes are numbers, and there are none between them.
#[repr(C)]
#[derive(Clone, Copy, Debug, PartialEq, Eq)]
pub struct Session {
    pub count: u32,
    pub length: u16,
    pub verdict: u8,
    pub next: u8,
    pub atoms: [u16; 1024],
    pub nexts: [u8; 1024],
    pub deepest: u32,
}

pub const SESSION: usize = std::mem::size_of::<Session>();

impl Session {
    pub const EMPTY: Session = Session { count: 0, length: 0, verdict: 0, next: 0, atoms: [0; 1024], nexts: [0; 1024], deepest: 0 };
}

pub fn read(text: &[u8], table: &mut [u8]) -> u64 {
    // The pointers and lengths are those of live slices that do not overlap, as the library asks.
    unsafe { lutsamik_read(text.as_ptr(), text.len(), table.as_mut_ptr(), table.len()) }
}

pub fn write(table: &[u8], out: &mut [u8]) -> u64 {
    unsafe { lutsamik_write(table.as_ptr(), table.len(), out.as_mut_ptr(), out.len()) }
}

pub fn offer(table: &[u8], frame: &[u8], slip: &mut [u8]) -> u64 {
    unsafe { lutsamik_offer(table.as_ptr(), table.len(), frame.as_ptr(), frame.len(), slip.as_mut_ptr(), slip.len()) }
}

pub fn set(table: &mut [u8], slip: &[u8]) -> u64 {
    unsafe { lutsamik_set(table.as_mut_ptr(), table.len(), slip.as_ptr(), slip.len()) }
}

pub fn judge(table: &[u8], answer: &[u8]) -> u64 {
    unsafe { lutsamik_judge(table.as_ptr(), table.len(), answer.as_ptr(), answer.len()) }
}

/// Of the instance of this clause with these values of 80, 81, 82, 83.
pub fn holding(table: &[u8], answer: &[u8], clause: u32, values: [u32; 4]) -> u64 {
    let [a, b, c, d] = values;
    unsafe { lutsamik_holding(table.as_ptr(), table.len(), answer.as_ptr(), answer.len(), clause, a, b, c, d) }
}

pub fn fit_relevancy(table: &[u8], answer: &mut [u8], work: &mut [u8]) -> u64 {
    unsafe { lutsamik_fit_relevancy(table.as_ptr(), table.len(), answer.as_mut_ptr(), answer.len(), work.as_mut_ptr(), work.len()) }
}

pub fn rewrite(table: &[u8], rules: &mut [u8]) -> u64 {
    unsafe { lutsamik_rewrite(table.as_ptr(), table.len(), rules.as_mut_ptr(), rules.len()) }
}

pub fn fit_magic(table: &[u8], rules: &mut [u8], answer: &mut [u8], work: &mut [u8]) -> u64 {
    let (rules, rules_len) = (rules.as_mut_ptr(), rules.len());
    let (answer, answer_len) = (answer.as_mut_ptr(), answer.len());
    unsafe { lutsamik_fit_magic(table.as_ptr(), table.len(), rules, rules_len, answer, answer_len, work.as_mut_ptr(), work.len()) }
}

pub fn fit_staged(table: &[u8], answer: &mut [u8], work: &mut [u8]) -> u64 {
    unsafe { lutsamik_fit_staged(table.as_ptr(), table.len(), answer.as_mut_ptr(), answer.len(), work.as_mut_ptr(), work.len()) }
}

pub fn begin_relevancy(session: &mut Session, table: &[u8], answer: &mut [u8], work: &mut [u8]) -> u64 {
    let (answer, answer_len) = (answer.as_mut_ptr(), answer.len());
    unsafe { lutsamik_begin_relevancy(session, table.as_ptr(), table.len(), answer, answer_len, work.as_mut_ptr(), work.len()) }
}

pub fn begin_magic(session: &mut Session, table: &[u8], rules: &mut [u8], answer: &mut [u8], work: &mut [u8]) -> u64 {
    let (rules, rules_len) = (rules.as_mut_ptr(), rules.len());
    let (answer, answer_len) = (answer.as_mut_ptr(), answer.len());
    unsafe { lutsamik_begin_magic(session, table.as_ptr(), table.len(), rules, rules_len, answer, answer_len, work.as_mut_ptr(), work.len()) }
}

pub fn resume_relevancy(session: &mut Session, further: u32, table: &[u8], answer: &mut [u8], work: &mut [u8]) -> u64 {
    let (answer, answer_len) = (answer.as_mut_ptr(), answer.len());
    unsafe { lutsamik_resume_relevancy(session, further, table.as_ptr(), table.len(), answer, answer_len, work.as_mut_ptr(), work.len()) }
}

pub fn resume_magic(session: &mut Session, further: u32, table: &[u8], rules: &mut [u8], answer: &mut [u8], work: &mut [u8]) -> u64 {
    let (rules, rules_len) = (rules.as_mut_ptr(), rules.len());
    let (answer, answer_len) = (answer.as_mut_ptr(), answer.len());
    unsafe {
        lutsamik_resume_magic(session, further, table.as_ptr(), table.len(), rules, rules_len, answer, answer_len, work.as_mut_ptr(), work.len())
    }
}

/// The two counts are left in `counts`.
pub fn assume_relevancy(table: &[u8], facts: &[u32], counts: [&mut u32; 2], answer: &[u8], work: &mut [u8]) -> u64 {
    let [first, second] = counts;
    let (facts, facts_len) = (facts.as_ptr(), facts.len());
    let (answer, answer_len) = (answer.as_ptr(), answer.len());
    unsafe {
        lutsamik_assume_relevancy(table.as_ptr(), table.len(), facts, facts_len, first, second, answer, answer_len, work.as_mut_ptr(), work.len())
    }
}

pub fn assume_magic(table: &[u8], facts: &[u32], counts: [&mut u32; 2], rules: &mut [u8], answer: &[u8], work: &mut [u8]) -> u64 {
    let [first, second] = counts;
    let (table, table_len, facts, facts_len) = (table.as_ptr(), table.len(), facts.as_ptr(), facts.len());
    let (rules, rules_len) = (rules.as_mut_ptr(), rules.len());
    let (answer, answer_len) = (answer.as_ptr(), answer.len());
    let (work, work_len) = (work.as_mut_ptr(), work.len());
    unsafe {
        lutsamik_assume_magic(table, table_len, facts, facts_len, first, second, rules, rules_len, answer, answer_len, work, work_len)
    }
}

pub fn parts_relevancy(table: &[u8], count: &mut u64, answer: &mut [u8], work: &mut [u8]) -> u64 {
    let (answer, answer_len) = (answer.as_mut_ptr(), answer.len());
    unsafe { lutsamik_parts_relevancy(table.as_ptr(), table.len(), count, answer, answer_len, work.as_mut_ptr(), work.len()) }
}

pub fn parts_magic(table: &[u8], count: &mut u64, rules: &mut [u8], answer: &mut [u8], work: &mut [u8]) -> u64 {
    let (rules, rules_len) = (rules.as_mut_ptr(), rules.len());
    let (answer, answer_len) = (answer.as_mut_ptr(), answer.len());
    unsafe { lutsamik_parts_magic(table.as_ptr(), table.len(), count, rules, rules_len, answer, answer_len, work.as_mut_ptr(), work.len()) }
}

/// An answer of reading, writing, offering, setting, rewriting or holding: the refusal number (0: none) in bits 0 to 7, the line, the length, the number
/// of rules or of conditions in bits 32 to 63.
pub fn packed(number: u8, high: u32) -> u64 {
    number as u64 | (high as u64) << 32
}

pub const FITTING: u64 = 1 << 8;

/// An answer of judging: an instance is violated, by clause and the values of 80, 81, 82, 83.
pub fn violated(clause: u8, values: [u8; 4]) -> u64 {
    let [a, b, c, d] = values;
    u64::from_le_bytes([0, 2, 0, clause, a, b, c, d])
}

/// An answer of an engine that does not refuse: verdict, count, and how many entries the longest path had.
pub fn fit(verdict: u8, count: u32, deepest: u32) -> u64 {
    (verdict as u64) << 8 | (deepest as u64) << 16 | (count as u64) << 32
}

/// An answer with open facts, or by parts, which has no count in it.
pub fn said(said: u8) -> u64 {
    (said as u64) << 8
}
