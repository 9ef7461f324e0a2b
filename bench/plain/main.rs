//! The tasks of `gx_bench` by hand in plain Rust: std alone, one thread, native columns.
//!
//! It takes the same words, OPERATION SHAPE INPUT ROUNDS, does the same work on the same input, keeps
//! each result to the end, and prints the same line. Nothing is interpreted and no row is an object:
//! a column is a vector of numbers, or texts in one buffer.

mod edges;
mod loads;
mod tables;

use edges::Edges;
use std::error::Error;
use std::hint::black_box;
use std::{env, fs};
use tables::{Rows, Table};

const SCATTER: i64 = 0x9e37_79b9_7f4a_7c1;

/// The number of items of a result, and a sum over them.
#[derive(Default)]
pub struct Totals {
    items: u64,
    sum: i64,
}

impl Totals {
    pub fn add(&mut self, number: i64) {
        self.items += 1;
        self.sum = self.sum.wrapping_add(number);
    }

    fn add_table(&mut self, ids: &[i64], rows: &Rows) {
        for (id, number) in ids.iter().zip(&rows.last) {
            self.add(id.wrapping_add(*number));
        }
    }
}

/// The last of so many results, all of which live until then; else what was given.
fn last_of<T>(rounds: u32, given: T, result: impl Fn(&T) -> T) -> T {
    let mut results = Vec::new();
    for _ in 0..rounds {
        results.push(black_box(result(black_box(&given))));
    }
    results.pop().unwrap_or(given)
}

fn vertices(shape: &str, count: u32, stride: i64) -> (Vec<i64>, Rows) {
    let mut ids: Vec<i64> = (0..i64::from(count)).map(|i| i * stride).collect();
    ids.sort_unstable_by_key(|id| id.wrapping_mul(SCATTER));
    let mut rows = Rows::new(shape);
    for id in &ids {
        rows.push_numbered(*id);
    }
    (ids, rows)
}

fn table(shape: &str, count: u32, stride: i64) -> Table {
    let (ids, rows) = vertices(shape, count, stride);
    Table::of(ids, rows)
}

fn table_totals(operation: &str, shape: &str, count: u32, rounds: u32) -> Option<Totals> {
    let mut totals = Totals::default();
    match operation {
        "copy" | "of" => {
            let (ids, rows) = vertices(shape, count, 1);
            let mut results = Vec::new();
            for _ in 0..rounds {
                let (ids, rows) = black_box((ids.clone(), rows.clone()));
                if operation == "of" {
                    results.push(black_box(Table::of(ids, rows)));
                }
            }
            match results.last() {
                Some(last) => totals.add_table(&last.ids, &last.rows),
                None => totals.add_table(&ids, &rows),
            }
            return Some(totals);
        }
        "rows" => {
            let all = table(shape, count, 1);
            for _ in 0..rounds {
                let all = black_box(&all);
                totals.add_table(&all.ids, &all.rows);
            }
            return Some(totals);
        }
        _ => {}
    }
    let all = table(shape, count, 1);
    let other = match operation {
        "map" | "filter" => table(shape, 0, 1),
        "join_shared" => all.map(),
        "diff" => all.half_raised(),
        "join" | "left_join" | "minus" => table(shape, count, 2),
        "step_few" => table(shape, count.div_ceil(10_000), 10_000),
        "step_all" => table(shape, count, 1),
        _ => return None,
    };
    let last = last_of(rounds, all, |all| match operation {
        "map" => all.map(),
        "filter" => all.filter(),
        "join_shared" => all.join_shared(&other),
        "join" => all.join(&other),
        "left_join" => all.left_join(&other),
        "minus" => all.minus(&other),
        "diff" => all.diff(&other),
        _ => all.step(&other),
    });
    totals.add_table(&last.ids, &last.rows);
    Some(totals)
}

fn given_edges(shape: &str, count: u32) -> Edges {
    let vertices = (count / 4).max(1);
    let (mut src, mut dst, mut rows) = (Vec::new(), Vec::new(), Rows::new(shape));
    for i in 0..count {
        src.push(i64::from(i.wrapping_mul(7919) % vertices));
        dst.push(i64::from(i.wrapping_mul(6007).wrapping_add(i / vertices) % vertices));
        rows.push_numbered(i64::from(i));
    }
    Edges { src, dst, rows }
}

fn edge_totals(operation: &str, shape: &str, count: u32, rounds: u32) -> Option<Totals> {
    let mut totals = Totals::default();
    let given = given_edges(shape, count);
    let last = match operation {
        "copy_edges" => {
            for _ in 0..rounds {
                black_box(given.clone());
            }
            given
        }
        "from_edges" => last_of(rounds, given, |given| given.clone().sorted()),
        "map_edges" => last_of(rounds, given.sorted(), Edges::map),
        "filter_edges" => last_of(rounds, given.sorted(), Edges::filter),
        "reverse" => last_of(rounds, given.sorted(), Edges::reverse),
        "ends" => {
            let all = given.sorted();
            for (id, _, _) in last_of(rounds, Vec::new(), |_| all.ends()) {
                totals.add(id);
            }
            return Some(totals);
        }
        _ => return None,
    };
    for ((src, dst), number) in last.src.iter().zip(&last.dst).zip(&last.rows.last) {
        totals.add(src.wrapping_mul(2).wrapping_add(*dst).wrapping_add(*number));
    }
    Some(totals)
}

fn load_totals(
    operation: &str,
    kind: &str,
    path: &str,
    rounds: u32,
) -> Result<Totals, Box<dyn Error>> {
    let bytes = fs::read(path)?;
    let mut results = Vec::new();
    for _ in 0..rounds {
        let bytes = black_box(&bytes);
        results.push(match operation {
            "vertices" => loads::table(bytes, 1, kind)?,
            "edges" => loads::table(bytes, 2, kind)?,
            _ => loads::edge_list(bytes)?,
        });
    }
    Ok(results.last().map_or(Totals::default(), |loaded| loaded.totals()))
}

fn main() -> Result<(), Box<dyn Error>> {
    let words: Vec<String> = env::args().skip(1).collect();
    for task in words.chunks(4) {
        let [operation, shape, input, rounds] = task else {
            return Err("a task has four words".into());
        };
        let times = rounds.parse()?;
        let totals = match operation.as_str() {
            "vertices" | "edges" | "edge_list" => load_totals(operation, shape, input, times)?,
            _ => {
                let count = input.parse()?;
                table_totals(operation, shape, count, times)
                    .or_else(|| edge_totals(operation, shape, count, times))
                    .ok_or_else(|| format!("no operation {operation:?}"))?
            }
        };
        let Totals { items, sum } = totals;
        println!("{operation} {shape} {input} {rounds}: {items} items, sum {sum}");
    }
    Ok(())
}
