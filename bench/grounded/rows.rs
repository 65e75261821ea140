//! Lists of small numbers, one after another in one array, with the place where each begins.

pub struct Rows {
    starts: Vec<u32>,
    members: Vec<u16>,
}

impl Rows {
    pub fn new() -> Rows {
        Rows { starts: vec![0], members: Vec::new() }
    }

    pub fn push(&mut self, row: &[u16]) {
        self.members.extend_from_slice(row);
        self.starts.push(self.members.len() as u32);
    }

    /// A row without the members that stand in it before.
    pub fn push_distinct(&mut self, row: &[u16]) {
        for (i, member) in row.iter().enumerate() {
            if !row[..i].contains(member) {
                self.members.push(*member);
            }
        }
        self.starts.push(self.members.len() as u32);
    }

    pub fn len(&self) -> usize {
        self.starts.len() - 1
    }

    #[inline]
    pub fn of(&self, row: u16) -> &[u16] {
        &self.members[self.starts[row as usize] as usize..self.starts[row as usize + 1] as usize]
    }

    /// The member of a row, where each row has one.
    #[inline]
    pub fn only(&self, row: u16) -> u16 {
        self.members[row as usize]
    }

    pub fn lengths(&self) -> impl Iterator<Item = usize> + '_ {
        self.starts.windows(2).map(|ends| (ends[1] - ends[0]) as usize)
    }

    /// For each number below `many` the rows that hold it, as often as they do and in order. Of each row the last
    /// `left_out` members do not count.
    pub fn turned(&self, many: usize, left_out: usize) -> Rows {
        let mut starts = self.counts(many, left_out);
        starts.iter_mut().fold(0, |sum, start| {
            *start += sum;
            *start
        });
        let mut members = vec![0; starts[many] as usize];
        for row in (0..self.len() as u16).rev() {
            self.counted(row, left_out).iter().for_each(|member| {
                let start = &mut starts[*member as usize];
                *start -= 1;
                members[*start as usize] = row;
            });
        }
        Rows { starts, members }
    }

    /// How often each number below `many` counts, and 0 after the last.
    fn counts(&self, many: usize, left_out: usize) -> Vec<u32> {
        let mut counts = vec![0; many + 1];
        (0..self.len() as u16).flat_map(|row| self.counted(row, left_out)).for_each(|member| counts[*member as usize] += 1);
        counts
    }

    #[inline]
    fn counted(&self, row: u16, left_out: usize) -> &[u16] {
        let row = self.of(row);
        &row[..row.len().saturating_sub(left_out)]
    }
}
