//! The worked tickets K1 to K9 of document 01, tickets that name an alternative again, and those of the program `cases`; with what a program prints for each.
#![allow(dead_code)] // each program uses its own part

pub struct Worked {
    pub name: &'static str,
    pub text: String,
    pub printed: &'static [&'static str],
}

impl Worked {
    pub fn lines(&self) -> String {
        self.printed.iter().map(|line| format!("{line}\n")).collect()
    }
}

/// A ticket that the program `cases` runs, with the lines that it expects.
pub struct Case {
    pub name: String,
    pub text: Vec<u8>,
    pub lines: Vec<u8>,
}

/// Where they are, from the root of the repository; and how many.
const CASES: &str = "crates/cases/data";
const CASE_FILES: usize = 15;

pub fn case_files() -> Vec<Case> {
    let files = std::fs::read_dir(CASES).expect("the cases' data").map(|entry| entry.expect("a file").path());
    let texts = files.filter(|path| path.extension().is_some_and(|kind| kind == "text"));
    let read = |path: &std::path::Path| std::fs::read(path).expect("a file of a case");
    let name = |path: &std::path::Path| path.file_stem().expect("a name").to_string_lossy().into_owned();
    let cases: Vec<Case> = texts.map(|path| Case { name: name(&path), text: read(&path), lines: read(&path.with_extension("lines")) }).collect();
    assert_eq!(CASE_FILES, cases.len(), "number of case files");
    cases
}

/// Beginnings: K1's, with c = 2 and three predicates of arity 1; c = 0 and one predicate of arity 0.
const K1: &str = "0101020300000064\n0201\n0201\n0201\n";
const BARE: &str = "0101000100000064\n0200\n";

pub fn worked() -> Vec<Worked> {
    let predicates = "0201\n0201\n0201\n";
    let three = "0300010000\n030102008001800280\n0301000100\n";
    let fourth = "0301000280\nFF04\n";
    let worked = |name, parts: &[&str], printed| Worked { name, text: parts.concat(), printed };
    vec![
        worked("K1", &[K1, three, fourth], &["810000000002"]),
        worked("K2", &["0101020300000002\n", predicates, three, fourth], &["810000000002"]),
        worked("K3", &["0101020300000001\n", predicates, three, fourth], &["810200000001"]),
        worked("K4", &["0101020300000000\n", predicates, three, fourth], &["810200000000"]),
        worked("K5", &[K1, three, "FF03\n"], &["810100000000", "820000", "820001", "820101", "820200", "820201"]),
        worked("K6", &[K1, three, "03020002800001\nFF04\n"], &["810100000002", "820000", "820101", "820200"]),
        worked("K7", &[BARE, "FF00\n"], &["810100000000", "8200"]),
        worked("K8", &[BARE, "030000\nFF01\n"], &["810000000000"]),
        worked("K9", &[BARE, "0300020000\n03010000\nFF02\n"], &["810000000001"]),
    ]
}

/// Alternatives that are equal to an earlier one, in the clause or in an instance alone; also under limits that only their being passed over
/// keeps to.
pub fn named_again() -> Vec<Worked> {
    let twice = "0300020000\n03010000\nFF02\n";
    let (two, both_denied) = ("0101000200000064\n0200\n0200\n", "03010000\n03010001\nFF03\n");
    let (up_to_two, up_to_one) = ("0101000200000002\n0200\n0200\n", "0101000200000001\n0200\n0200\n");
    let second_left = "030003000001\n03010000\n0302000100\nFF03\n";
    let pair = "0300010000\n0300010100\n0302020080018102800281\n0301000280\nFF04\n";
    let worked = |name, parts: &[&str], printed| Worked { name, text: parts.concat(), printed };
    vec![
        worked("K9 with L = 1", &["0101000100000001\n0200\n", twice], &["810000000001"]),
        worked("K9 with L = 0", &["0101000100000000\n0200\n", twice], &["810200000000"]),
        worked("four times the same", &[BARE, "03000400000000\n03010000\nFF02\n"], &["810000000001"]),
        worked("first and third the same", &[two, "030003000100\n", both_denied], &["810000000002"]),
        worked("second and third the same", &[two, "030003000101\n", both_denied], &["810000000002"]),
        worked("each twice", &[two, "03000400010100\n", both_denied], &["810000000002"]),
        worked("an open one after two the same", &[up_to_two, second_left], &["810100000002", "8201"]),
        worked("the same with L = 1", &[up_to_one, second_left], &["810200000001"]),
        worked("the same in an instance", &[K1, pair], &["810000000001"]),
    ]
}
