//! What a Rust programmer would write to judge an answer quickly: each clause decoded once, its instances
//! counted through, no heap, and the same answers as the library. The benchmark's measure.

const TABLE: usize = 4096;
const ANSWER: usize = 1024;

/// Judges an answer by a table: a refusal, fitting, or the first violated instance, packed.
pub fn judge(table: &[u8], answer: &[u8]) -> u64 {
    if table.len() < TABLE || answer.len() < ANSWER {
        return 11;
    }
    let table: &[u8; TABLE] = table[..TABLE].try_into().unwrap();
    if rebuilt(table).as_ref() != Some(table) {
        return 31;
    }
    let answer: &[u8; ANSWER] = answer[..ANSWER].try_into().unwrap();
    if answer[..pair(table, 8)].iter().any(|mark| *mark > 1) {
        return 32;
    }
    for k in 0..table[2] {
        if let Some([a, b, c, d]) = Clause::decoded(table, 144 + 56 * k as usize).first_violated(table[0], answer) {
            return u64::from_le_bytes([0, 2, 0, k, a, b, c, d]);
        }
    }
    1 << 8
}

fn pair(table: &[u8; TABLE], at: usize) -> usize {
    u16::from_le_bytes([table[at], table[at + 1]]) as usize
}

/// An atom's number is the first plus each value times its weight.
#[derive(Clone, Copy)]
struct Atom {
    first: u16,
    weights: [u16; 4],
}

impl Atom {
    fn decoded(table: &[u8; TABLE], slot: usize) -> Atom {
        let arity = table[16 + 4 * table[slot] as usize] as usize;
        let mut atom = Atom { first: pair(table, slot + 4) as u16, weights: [0; 4] };
        let mut weight: u16 = 1;
        for argument in table[slot + 1..][..arity].iter().rev() {
            match argument {
                0x80.. => atom.weights[(argument & 3) as usize] += weight,
                _ => atom.first += weight * *argument as u16,
            }
            weight = weight.wrapping_mul(table[0] as u16);
        }
        atom
    }

    #[inline]
    fn is_marked(&self, values: &[u8], answer: &[u8; ANSWER]) -> bool {
        let number = values.iter().zip(&self.weights).fold(self.first, |number, (value, weight)| number + weight * *value as u16);
        answer[number as usize & (ANSWER - 1)] == 1
    }
}

/// Conditions in the first four places, alternatives in the last.
struct Clause {
    n: usize,
    m: usize,
    variables: usize,
    instances: usize,
    atoms: [Atom; 8],
}

impl Clause {
    fn decoded(table: &[u8; TABLE], at: usize) -> Clause {
        let (n, m) = (table[at] as usize, table[at + 1] as usize);
        let mut atoms = [Atom { first: 0, weights: [0; 4] }; 8];
        for i in (0..n).chain(4..4 + m) {
            atoms[i] = Atom::decoded(table, at + 8 + 6 * i);
        }
        Clause { n, m, variables: table[at + 2] as usize, instances: pair(table, at + 4), atoms }
    }

    fn first_violated(&self, constants: u8, answer: &[u8; ANSWER]) -> Option<[u8; 4]> {
        let mut values = [0; 4];
        for _ in 0..self.instances {
            let holds = |atom: &Atom| atom.is_marked(&values[..self.variables], answer);
            if self.atoms[..self.n].iter().all(holds) && !self.atoms[4..4 + self.m].iter().any(holds) {
                return Some(values);
            }
            for value in values[..self.variables].iter_mut().rev() {
                *value += 1;
                if *value < constants {
                    break;
                }
                *value = 0;
            }
        }
        None
    }
}

/// The table that these bytes' counts, arities and atoms make, if they are those of a ticket.
fn rebuilt(table: &[u8; TABLE]) -> Option<[u8; TABLE]> {
    let mut built = [0; TABLE];
    built[..3].copy_from_slice(&table[..3]);
    built[4..8].copy_from_slice(&table[4..8]);
    let [constants, predicates, clauses] = [table[0], table[1], table[2]];
    if constants > 32 || !(1..=32).contains(&predicates) || clauses > 64 {
        return None;
    }
    let (mut atoms, mut marks) = (0, 0);
    for j in 0..predicates as usize {
        let at = 16 + 4 * j;
        built[at] = table[at];
        put(&mut built, at + 1, atoms);
        atoms += power(constants, table[at], 3)?;
        if atoms > 1024 {
            return None;
        }
    }
    put(&mut built, 8, atoms);
    for k in 0..clauses as usize {
        marks += clause(table, &mut built, 144 + 56 * k, marks)?;
        if marks > 16384 {
            return None;
        }
    }
    Some(built)
}

/// Builds a clause with this sum before it: what it adds.
fn clause(table: &[u8; TABLE], built: &mut [u8; TABLE], at: usize, marks: u32) -> Option<u32> {
    let (n, m) = (table[at], table[at + 1]);
    if n > 4 || m > 4 {
        return None;
    }
    let mut variables = 0;
    for i in 0..n as usize {
        atom(table, built, at + 8 + 6 * i, &mut variables)?;
    }
    let bound = variables;
    for i in 0..m as usize {
        atom(table, built, at + 32 + 6 * i, &mut variables)?;
    }
    if variables > bound {
        return None;
    }
    let instances = power(table[0], variables, 4)?;
    built[at..at + 3].copy_from_slice(&[n, m, variables]);
    put(built, at + 4, instances);
    put(built, at + 6, marks);
    Some(n as u32 * instances)
}

fn atom(table: &[u8; TABLE], built: &mut [u8; TABLE], slot: usize, variables: &mut u8) -> Option<()> {
    let predicate = table[slot];
    if predicate >= table[1] {
        return None;
    }
    let described = 16 + 4 * predicate as usize;
    built[slot] = predicate;
    for at in slot + 1..slot + 1 + table[described] as usize {
        let argument = table[at];
        match argument {
            0x00..=0x1F if argument < table[0] => {}
            0x80..=0x83 if argument - 0x80 < *variables => {}
            0x80..=0x83 if argument - 0x80 == *variables => *variables += 1,
            _ => return None,
        }
        built[at] = argument;
    }
    built[slot + 4] = built[described + 1];
    built[slot + 5] = built[described + 2];
    Some(())
}

fn power(constants: u8, exponent: u8, most: u8) -> Option<u32> {
    (exponent <= most).then(|| (constants as u32).pow(exponent as u32))
}

fn put(table: &mut [u8; TABLE], at: usize, number: u32) {
    table[at..at + 2].copy_from_slice(&(number as u16).to_le_bytes());
}
