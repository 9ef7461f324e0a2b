//! Edges as sorted vectors of native columns, and their operators as loops over them.

use crate::tables::{First, Rows};
use std::cmp::Ordering;

/// Edges sorted by source, then by destination, then by row.
#[derive(Clone)]
pub struct Edges {
    pub src: Vec<i64>,
    pub dst: Vec<i64>,
    pub rows: Rows,
}

impl Edges {
    fn row_cmp(&self, i: usize, j: usize) -> Ordering {
        let first = match &self.rows.first {
            First::Absent => Ordering::Equal,
            First::Ints(ints) => ints[i].cmp(&ints[j]),
            First::Texts(texts) => texts.get(i).cmp(texts.get(j)),
        };
        first.then(self.rows.last[i].cmp(&self.rows.last[j]))
    }

    fn gathered(&self, order: &[u32]) -> Edges {
        Edges {
            src: order.iter().map(|&i| self.src[i as usize]).collect(),
            dst: order.iter().map(|&i| self.dst[i as usize]).collect(),
            rows: self.rows.gathered(order),
        }
    }

    /// The edges of these columns, which are in any order.
    pub fn sorted(self) -> Edges {
        let ends = self.src.iter().zip(&self.dst).zip(0..);
        let mut order: Vec<(i64, i64, u32)> = ends.map(|((&src, &dst), i)| (src, dst, i)).collect();
        let less = |a: &(i64, i64, u32), b: &(i64, i64, u32)| {
            let ends = (a.0, a.1).cmp(&(b.0, b.1));
            ends.then_with(|| self.row_cmp(a.2 as usize, b.2 as usize))
        };
        if order.is_sorted_by(|a, b| less(a, b).is_le()) {
            return self;
        }
        order.sort_unstable_by(less);
        let order: Vec<u32> = order.iter().map(|e| e.2).collect();
        self.gathered(&order)
    }

    pub fn map(&self) -> Edges {
        let rows = self.rows.raised();
        Edges { src: self.src.clone(), dst: self.dst.clone(), rows }.sorted()
    }

    pub fn filter(&self) -> Edges {
        let numbers = self.rows.last.iter().zip(0..);
        let order: Vec<u32> = numbers.filter(|(n, _)| *n & 1 == 0).map(|(_, i)| i).collect();
        self.gathered(&order)
    }

    pub fn reverse(&self) -> Edges {
        let ends = self.src.iter().zip(&self.dst).zip(0..);
        let mut order: Vec<(i64, i64, u32)> = ends.map(|((&src, &dst), i)| (dst, src, i)).collect();
        order.sort_unstable();
        let order: Vec<u32> = order.iter().map(|e| e.2).collect();
        let Edges { src, dst, rows } = self.gathered(&order);
        Edges { src: dst, dst: src, rows }
    }

    /// The distinct ends in ascending order; for each whether it is a source, and a destination.
    pub fn ends(&self) -> Vec<(i64, bool, bool)> {
        let mut sources = self.src.clone();
        let mut targets = self.dst.clone();
        targets.sort_unstable();
        sources.dedup();
        targets.dedup();
        let mut ends = Vec::with_capacity(sources.len().max(targets.len()));
        let (mut i, mut j) = (0, 0);
        while i < sources.len() || j < targets.len() {
            let id = match (sources.get(i), targets.get(j)) {
                (Some(src), Some(dst)) => *src.min(dst),
                (Some(id), None) | (None, Some(id)) => *id,
                (None, None) => break,
            };
            let is_source = sources.get(i) == Some(&id);
            let is_target = targets.get(j) == Some(&id);
            i += usize::from(is_source);
            j += usize::from(is_target);
            ends.push((id, is_source, is_target));
        }
        ends
    }
}
