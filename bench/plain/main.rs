//! The workloads of crates/bench_store over a store in plain Rust, written apart from it, after docs/RULES.md and docs/REFUSALS.md.
mod card;
mod keepers;
mod store;

use card::{Card, Refusal};
use keepers::{Keeper, Linked, Roll};
use std::hint::black_box;
use std::time::Instant;
use store::Store;

// As in crates/bench_store; the databases' programs have those that they need.
const ROUNDS: usize = 40;
const LEAST: u64 = 5_000_000;
const BATCHES: usize = 600;
const BATCH: usize = 128;
const LOOKS: usize = 64;
const PLACES: usize = 2048;

#[derive(Clone, Copy, Default)]
struct Round {
    nanos: u64,
    operations: u64,
    sum: u64,
}

fn best(mut round: impl FnMut() -> Round) -> Round {
    let each = |round: &Round| round.nanos as f64 / round.operations as f64;
    (0..ROUNDS)
        .map(|_| round())
        .min_by(|a, b| each(a).total_cmp(&each(b)))
        .unwrap_or_default()
}

fn tell(who: &str, what: &str, entries: u16, versions: u32, best: Round) {
    let Round {
        nanos,
        operations,
        sum,
    } = best;
    println!("{who} {what} {entries} {versions} {operations} {sum} {nanos}");
}

fn letter(advance: i16) -> Card {
    Card {
        advance: Some(advance),
        ..Card::default()
    }
}

#[derive(Clone, Copy)]
struct Wish {
    seat: u16,
    entry: u16,
    card: Card,
}

fn save<K: Keeper>(store: &mut Store<K>, wish: Wish) -> Result<u32, Refusal> {
    let Wish { seat, entry, card } = wish;
    store.edit(seat)?;
    store.read(seat, entry)?;
    store.write(seat, entry, card)?;
    store.lock(seat)?;
    store.stamp(seat)?;
    store.put(seat)?;
    store.settle(seat)
}

fn save_some<K: Keeper>(store: &mut Store<K>, entry: u16, first: u32, versions: u32) {
    for number in first..first + versions {
        let wish = Wish {
            seat: 15,
            entry,
            card: letter((number % 1001) as i16),
        };
        save(store, wish).expect("a save is granted");
    }
}

/// A store of so many letters, with a version of each.
fn filled<K: Keeper>(letters: u16) -> Store<K> {
    let mut store = Store::new(usize::from(letters), 0, 0, PLACES).expect("the sizes suit");
    for entry in 0..letters {
        save_some(&mut store, entry, 1, 1);
    }
    store
}

#[derive(Clone, Copy)]
struct Look {
    seat: u16,
    entry: u16,
}

fn read_all<K: Keeper>(store: &mut Store<K>, looks: &[Look], passes: u64) -> u64 {
    let mut sum = 0u64;
    for _ in 0..passes {
        for look in looks {
            if let Ok(card) = store.read(look.seat, look.entry) {
                sum = sum.wrapping_add(u64::from(card.advance.unwrap_or(0).unsigned_abs()));
            }
        }
    }
    sum
}

fn best_reads<K: Keeper>(store: &mut Store<K>, seat: u16, entry: u16) -> Round {
    let looks = vec![Look { seat, entry }; LOOKS];
    let mut round = |passes: u64| {
        let looks = black_box(looks.as_slice());
        let start = Instant::now();
        let sum = black_box(read_all(store, looks, passes));
        Round {
            nanos: start.elapsed().as_nanos() as u64,
            operations: passes * looks.len() as u64,
            sum,
        }
    };
    let mut passes = 1;
    while round(passes).nanos < LEAST {
        passes *= 2;
    }
    best(|| round(passes))
}

fn reading<K: Keeper>(entries: u16, versions: u32) {
    let mut store = filled::<K>(entries);
    let entry = entries / 2;
    store.proof(0).expect("a proof is granted");
    save_some(&mut store, entry, 2, versions - 1);
    store.proof(1).expect("a proof is granted");
    let old = best_reads(&mut store, 0, entry);
    tell(K::NAME, "read-old", entries, versions, old);
    let new = best_reads(&mut store, 1, entry);
    tell(K::NAME, "read-new", entries, versions, new);
}

fn save_all<K: Keeper>(store: &mut Store<K>, wishes: &[Wish]) -> u64 {
    let mut sum = 0u64;
    for wish in wishes {
        if let Ok(time) = save(store, *wish) {
            sum = sum.wrapping_add(u64::from(time));
        }
    }
    sum
}

fn save_and_collect_all<K: Keeper>(store: &mut Store<K>, wishes: &[Wish]) -> u64 {
    let mut sum = 0u64;
    for wish in wishes {
        if let Ok(time) = save(store, *wish) {
            sum = sum.wrapping_add(u64::from(time));
        }
        let _ = store.collect(wish.entry);
    }
    sum
}

fn round_of_saves<K: Keeper>(entries: u16, collecting: bool) -> Round {
    let mut store = filled::<K>(entries);
    let wish = Wish {
        seat: 4,
        entry: entries / 2,
        card: letter(620),
    };
    let wishes = vec![wish; BATCH];
    let mut all = Round::default();
    for _ in 0..BATCHES {
        let wishes = black_box(wishes.as_slice());
        let start = Instant::now();
        let sum = black_box(if collecting {
            save_and_collect_all(&mut store, wishes)
        } else {
            save_all(&mut store, wishes)
        });
        all.nanos += start.elapsed().as_nanos() as u64;
        all.operations += wishes.len() as u64;
        all.sum += sum;
        for wish in wishes {
            let _ = store.collect(wish.entry);
        }
    }
    all
}

fn saving<K: Keeper>(entries: u16) {
    let alone = best(|| round_of_saves::<K>(entries, false));
    tell(K::NAME, "save", entries, 1, alone);
    let collected = best(|| round_of_saves::<K>(entries, true));
    tell(K::NAME, "save-collect", entries, 1, collected);
}

fn collect_all<K: Keeper>(store: &mut Store<K>, entries: &[u16], times: u32) -> Round {
    let mut round = Round::default();
    for _ in 0..times {
        for entry in entries {
            if let Ok(time) = store.collect(*entry) {
                round.sum = round.sum.wrapping_add(u64::from(time));
                round.operations += 1;
            }
        }
    }
    round
}

fn fill<K: Keeper>(store: &mut Store<K>, entries: &[u16], versions: u32) {
    for number in 0..versions {
        for entry in entries {
            save_some(store, *entry, number, 1);
        }
    }
}

fn round_of_collects<K: Keeper>(entries: &[u16], versions: u32) -> Round {
    let mut store = filled::<K>(entries.len() as u16);
    let mut all = Round::default();
    for _ in 0..BATCHES {
        if all.nanos >= LEAST {
            break;
        }
        fill(&mut store, entries, versions - 1);
        let entries = black_box(entries);
        let start = Instant::now();
        let batch = black_box(collect_all(&mut store, entries, versions - 1));
        all.nanos += start.elapsed().as_nanos() as u64;
        all.operations += batch.operations;
        all.sum += batch.sum;
    }
    all
}

fn collecting<K: Keeper>(entries: u16, versions: u32) {
    let numbers: Vec<u16> = (0..entries).collect();
    let best = best(|| round_of_collects::<K>(&numbers, versions));
    tell(K::NAME, "collect", entries, versions, best);
}

fn all<K: Keeper>() {
    for entries in [1, 1024] {
        for versions in [1, 10, 1000] {
            reading::<K>(entries, versions);
        }
        saving::<K>(entries);
    }
    collecting::<K>(16, 10);
    collecting::<K>(1, 1000);
}

fn main() {
    all::<Linked>();
    all::<Roll>();
}
