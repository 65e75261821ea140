//! Counts of instructions by program and input; in a file, a line for each.

/// A count of more times the earlier one than this is too much.
const MOST: f64 = 1.05;

#[derive(Default)]
pub struct Counts {
    of: Vec<(String, u64)>,
}

impl Counts {
    pub fn read(file: &str) -> Counts {
        let text = std::fs::read_to_string(file).unwrap_or_else(|error| panic!("{file}: {error}"));
        let count = |line: &str| {
            let (count, name) = line.split_once(' ')?;
            Some((name.to_string(), count.parse().ok()?))
        };
        Counts { of: text.lines().map(|line| count(line).unwrap_or_else(|| panic!("{file}: not a count: {line}"))).collect() }
    }

    pub fn write(&self, file: &str) {
        let lines: String = self.of.iter().map(|(name, count)| format!("{count} {name}\n")).collect();
        std::fs::write(file, lines).unwrap_or_else(|error| panic!("{file}: {error}"));
    }

    pub fn add(&mut self, program: &str, input: &str, count: u64) {
        self.of.push((name(program, input), count));
    }

    pub fn get(&self, program: &str, input: &str) -> Option<u64> {
        self.find(&name(program, input))
    }

    fn find(&self, name: &str) -> Option<u64> {
        self.of.iter().find(|(other, _)| other == name).map(|(_, count)| *count)
    }

    /// Prints what is wrong against the earlier counts: one that is too much, or a call that only one side has. Whether
    /// nothing is.
    pub fn hold_against(&self, earlier: &Counts) -> bool {
        let too_much = self.of.iter().filter_map(|(name, count)| {
            let ratio = ratio(Some(*count), earlier.find(name))?;
            (ratio > MOST).then(|| format!("{ratio:.3} times the earlier count: {name}"))
        });
        let wrong: Vec<String> = too_much.chain(self.without(earlier, "no earlier count")).chain(earlier.without(self, "not counted now")).collect();
        wrong.iter().for_each(|line| println!("{line}"));
        if wrong.is_empty() {
            println!("each count is at most {MOST} times the earlier one");
        }
        wrong.is_empty()
    }

    fn without<'a>(&'a self, other: &'a Counts, what: &'a str) -> impl Iterator<Item = String> + 'a {
        self.of.iter().filter(|(name, _)| other.find(name).is_none()).map(move |(name, _)| format!("{what}: {name}"))
    }
}

pub fn ratio(one: Option<u64>, other: Option<u64>) -> Option<f64> {
    Some(one? as f64 / other? as f64)
}

fn name(program: &str, input: &str) -> String {
    format!("{program}: {input}")
}
