//! Data files to native columns. Fields in quotes and blanks around cells are not read.

use crate::Totals;
use crate::tables::Joined;
use std::error::Error;

/// One column of cells.
pub enum Cells {
    Ints(Vec<i64>),
    Bools(Vec<bool>),
    Texts(Joined<u8>),
    Lists(Joined<i64>),
    /// The number 1 in each row.
    Ones(usize),
}

/// The columns of a file: the first key, the second one (none: 0) and one of values.
pub struct Loaded {
    pub first: Vec<i64>,
    pub second: Vec<i64>,
    pub cells: Cells,
}

impl Cells {
    fn new(kind: &str) -> Cells {
        match kind {
            "int" => Cells::Ints(Vec::new()),
            "bool" => Cells::Bools(Vec::new()),
            "text" => Cells::Texts(Joined::new()),
            "ids" => Cells::Lists(Joined::new()),
            _ => panic!("no kind {kind:?}"),
        }
    }

    fn push(&mut self, cell: &str, numbers: &mut Vec<i64>) -> Result<(), Box<dyn Error>> {
        match self {
            Cells::Ints(ints) => ints.push(cell.parse()?),
            Cells::Bools(bools) => bools.push(cell.parse()?),
            Cells::Texts(texts) => texts.push(cell.as_bytes()),
            Cells::Lists(lists) => {
                numbers.clear();
                for number in cell.split(' ').filter(|word| !word.is_empty()) {
                    numbers.push(number.parse()?);
                }
                numbers.sort_unstable();
                lists.push(numbers);
            }
            Cells::Ones(count) => *count += 1,
        }
        Ok(())
    }

    fn number(&self, i: usize) -> i64 {
        match self {
            Cells::Ints(ints) => ints[i],
            Cells::Bools(bools) => i64::from(bools[i]),
            Cells::Texts(texts) => texts.get(i).len() as i64,
            Cells::Lists(lists) => lists.get(i).len() as i64,
            Cells::Ones(_) => 1,
        }
    }
}

impl Loaded {
    pub fn totals(&self) -> Totals {
        let mut totals = Totals::default();
        for (i, first) in self.first.iter().enumerate() {
            let second = self.second.get(i).copied().unwrap_or(0);
            let keys = second.wrapping_mul(2).wrapping_add(*first);
            totals.add(keys.wrapping_add(self.cells.number(i)));
        }
        totals
    }
}

/// A CSV file with so many keys and one column of this kind.
pub fn table(bytes: &[u8], keys: usize, kind: &str) -> Result<Loaded, Box<dyn Error>> {
    let (mut first, mut second, mut cells) = (Vec::new(), Vec::new(), Cells::new(kind));
    let mut numbers = Vec::new();
    for line in std::str::from_utf8(bytes)?.lines().skip(1) {
        let mut fields = line.split(',');
        let mut next = || fields.next().ok_or("a field is missing");
        first.push(next()?.parse()?);
        if keys == 2 {
            second.push(next()?.parse()?);
        }
        cells.push(next()?, &mut numbers)?;
    }
    Ok(Loaded { first, second, cells })
}

pub fn edge_list(bytes: &[u8]) -> Result<Loaded, Box<dyn Error>> {
    let (mut first, mut second) = (Vec::new(), Vec::new());
    for line in std::str::from_utf8(bytes)?.lines() {
        if line.is_empty() || line.starts_with('#') {
            continue;
        }
        let mut words = line.split_ascii_whitespace();
        let mut next = || words.next().ok_or("a number is missing");
        first.push(next()?.parse()?);
        second.push(next()?.parse()?);
    }
    let cells = Cells::Ones(first.len());
    Ok(Loaded { first, second, cells })
}
