//! Tables as sorted vectors of native columns, and their operators as loops over them.

use std::rc::Rc;

/// Texts or lists, one after another in one vector.
#[derive(Clone)]
pub struct Joined<T> {
    pub ends: Vec<u32>,
    pub items: Vec<T>,
}

impl<T: Copy> Joined<T> {
    pub fn new() -> Joined<T> {
        Joined { ends: Vec::new(), items: Vec::new() }
    }

    pub fn get(&self, i: usize) -> &[T] {
        let start = if i == 0 { 0 } else { self.ends[i - 1] as usize };
        &self.items[start..self.ends[i] as usize]
    }

    pub fn push(&mut self, items: &[T]) {
        self.items.extend_from_slice(items);
        self.ends.push(self.items.len() as u32);
    }
}

/// The column before the last one, if rows have two.
#[derive(Clone)]
pub enum First {
    Absent,
    Ints(Vec<i64>),
    Texts(Joined<u8>),
}

/// The columns of rows. Each row has the number in `last`.
#[derive(Clone)]
pub struct Rows {
    pub first: First,
    pub last: Vec<i64>,
}

impl Rows {
    pub fn new(shape: &str) -> Rows {
        let first = match shape {
            "int" => First::Absent,
            "ints" => First::Ints(Vec::new()),
            "text" => First::Texts(Joined::new()),
            _ => panic!("no shape {shape:?}"),
        };
        Rows { first, last: Vec::new() }
    }

    /// An empty one with the same columns.
    pub fn like(&self) -> Rows {
        let first = match self.first {
            First::Absent => First::Absent,
            First::Ints(_) => First::Ints(Vec::new()),
            First::Texts(_) => First::Texts(Joined::new()),
        };
        Rows { first, last: Vec::new() }
    }

    pub fn push_numbered(&mut self, number: i64) {
        match &mut self.first {
            First::Absent => {}
            First::Ints(ints) => ints.push(number.wrapping_neg()),
            First::Texts(texts) => texts.push(format!("vertex {number}").as_bytes()),
        }
        self.last.push(number);
    }

    /// One row of `from`, with another number.
    pub fn push(&mut self, from: &Rows, i: usize, number: i64) {
        match (&mut self.first, &from.first) {
            (First::Ints(ints), First::Ints(others)) => ints.push(others[i]),
            (First::Texts(texts), First::Texts(others)) => texts.push(others.get(i)),
            _ => {}
        }
        self.last.push(number);
    }

    pub fn gathered(&self, slots: &[u32]) -> Rows {
        let mut rows = self.like();
        for &slot in slots {
            rows.push(self, slot as usize, self.last[slot as usize]);
        }
        rows
    }

    pub fn raised(&self) -> Rows {
        let last = self.last.iter().map(|n| n.wrapping_add(1)).collect();
        Rows { first: self.first.clone(), last }
    }

    fn differ(&self, i: usize, other: &Rows, j: usize) -> bool {
        self.last[i] != other.last[j]
            || match (&self.first, &other.first) {
                (First::Ints(a), First::Ints(b)) => a[i] != b[j],
                (First::Texts(a), First::Texts(b)) => a.get(i) != b.get(j),
                _ => false,
            }
    }
}

/// Rows by ascending identifier. Tables may share their identifiers.
#[derive(Clone)]
pub struct Table {
    pub ids: Rc<Vec<i64>>,
    pub rows: Rows,
}

/// Where in `ids` each identifier of `left` is, if anywhere, by one walk.
fn partners<'a>(left: &'a [i64], ids: &'a [i64]) -> impl Iterator<Item = Option<usize>> + 'a {
    let mut at = 0;
    left.iter().map(move |id| {
        while at < ids.len() && ids[at] < *id {
            at += 1;
        }
        (at < ids.len() && ids[at] == *id).then_some(at)
    })
}

impl Table {
    /// The table of these rows, which are in any order.
    pub fn of(ids: Vec<i64>, rows: Rows) -> Table {
        let mut order: Vec<(i64, u32)> = ids.iter().copied().zip(0..).collect();
        order.sort_unstable();
        let slots: Vec<u32> = order.iter().map(|&(_, slot)| slot).collect();
        let ids = Rc::new(order.iter().map(|&(id, _)| id).collect());
        Table { ids, rows: rows.gathered(&slots) }
    }

    fn picked(&self, slots: Vec<u32>) -> Table {
        let ids = Rc::new(slots.iter().map(|&slot| self.ids[slot as usize]).collect());
        Table { ids, rows: self.rows.gathered(&slots) }
    }

    pub fn map(&self) -> Table {
        Table { ids: self.ids.clone(), rows: self.rows.raised() }
    }

    /// Each row whose identifier is even with 1 more.
    pub fn half_raised(&self) -> Table {
        let numbers = self.ids.iter().zip(&self.rows.last);
        let last = numbers.map(|(id, n)| n.wrapping_add((id & 1) ^ 1)).collect();
        let rows = Rows { first: self.rows.first.clone(), last };
        Table { ids: self.ids.clone(), rows }
    }

    pub fn filter(&self) -> Table {
        let numbers = self.rows.last.iter().zip(0..);
        self.picked(numbers.filter(|(n, _)| *n & 1 == 0).map(|(_, slot)| slot).collect())
    }

    /// The rows that are in both, numbers added, where both have the same identifiers.
    pub fn join_shared(&self, other: &Table) -> Table {
        if !Rc::ptr_eq(&self.ids, &other.ids) {
            return self.join(other);
        }
        let numbers = self.rows.last.iter().zip(&other.rows.last);
        let last = numbers.map(|(a, b)| a.wrapping_add(*b)).collect();
        let rows = Rows { first: self.rows.first.clone(), last };
        Table { ids: self.ids.clone(), rows }
    }

    pub fn join(&self, other: &Table) -> Table {
        let mut ids = Vec::new();
        let mut rows = self.rows.like();
        for (slot, partner) in partners(&self.ids, &other.ids).enumerate() {
            if let Some(at) = partner {
                ids.push(self.ids[slot]);
                let number = self.rows.last[slot].wrapping_add(other.rows.last[at]);
                rows.push(&self.rows, slot, number);
            }
        }
        Table { ids: Rc::new(ids), rows }
    }

    pub fn left_join(&self, other: &Table) -> Table {
        let mut rows = self.rows.like();
        for (slot, partner) in partners(&self.ids, &other.ids).enumerate() {
            let more = partner.map_or(0, |at| other.rows.last[at]);
            rows.push(&self.rows, slot, self.rows.last[slot].wrapping_add(more));
        }
        Table { ids: self.ids.clone(), rows }
    }

    /// The rows of `other` with 1 more in place of those here.
    pub fn step(&self, other: &Table) -> Table {
        let mut rows = self.rows.like();
        for (slot, partner) in partners(&self.ids, &other.ids).enumerate() {
            match partner {
                Some(at) => rows.push(&other.rows, at, other.rows.last[at].wrapping_add(1)),
                None => rows.push(&self.rows, slot, self.rows.last[slot]),
            }
        }
        Table { ids: self.ids.clone(), rows }
    }

    pub fn minus(&self, other: &Table) -> Table {
        let beside = partners(&self.ids, &other.ids).zip(0..);
        self.picked(beside.filter(|(at, _)| at.is_none()).map(|(_, slot)| slot).collect())
    }

    /// The rows of `other` that are here with other values.
    pub fn diff(&self, other: &Table) -> Table {
        let beside = partners(&other.ids, &self.ids).zip(0..);
        let changed = |at: Option<usize>, slot: u32| {
            at.is_some_and(|at| self.rows.differ(at, &other.rows, slot as usize))
        };
        let slots = beside.filter(|&(at, slot)| changed(at, slot)).map(|(_, slot)| slot);
        other.picked(slots.collect())
    }
}
