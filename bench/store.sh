#!/bin/sh
# Prints how long a store takes to load one million rows of one text of 8 bytes, and to read each once and write each
# once in a shuffled order; before that, how long to append as many and to list them. Its little program is proved and
# built in a temporary folder, which takes about two minutes. Each write stands behind a test that its key is there,
# which the proof needs: the look-up is in the time.
set -eu
top=$(cd "$(dirname "$0")/.." && pwd)
work=$(mktemp -d)
trap 'rm -rf "$work"' EXIT
mkdir -p "$work/crates/store_bench/src" "$work/crates/store_bench/proofs/main"
cp -r "$top/crates/deneva_base" "$top/crates/row_store" "$work/crates"
rm -rf "$work/crates/deneva_base/out" "$work/crates/row_store/out"
cat >"$work/crates.txt" <<'LINES'
deneva_base:
row_store: deneva_base
store_bench: row_store deneva_base
LINES
cat >"$work/crates/store_bench/src/main.rt" <<'RATTLE'
//! Times a store of one million rows.
#![tactic(auto)]

use deneva_base::{
    ByteList, Cell, CellList, Key, NoMemory, Number, PushNoMemory, Row, RowList, TxnId,
};
use row_store::Store;
use std::alloc::Global;
use std::io;
use std::time::Instant;

const ROWS: u32 = 1_000_000;

/// The least power of 2 that is not below the number of rows.
const PLACES: u32 = 1_048_576;

#[derive(Debug, Drop)]
enum Failed {
    Memory,
    Outside,
}

impl From<NoMemory> for Failed {
    fn from(_error: NoMemory) -> Failed {
        Failed::Memory
    }
}

impl<T: Drop> From<PushNoMemory<T>> for Failed {
    fn from(_error: PushNoMemory<T>) -> Failed {
        Failed::Memory
    }
}

impl From<io::Error> for Failed {
    fn from(_error: io::Error) -> Failed {
        Failed::Outside
    }
}

fn key_of(a: u32) -> Key {
    Key {
        table: 0,
        a,
        b: 0,
        c: 0,
    }
}

fn row_of(alloc: Global, text: &[u8; 8]) -> Result<Row, Failed> {
    let mut cells = CellList::with_capacity(alloc, 1)?;
    cells.push(Cell::Text(ByteList::from_bytes(alloc, text)?))?;
    Ok(Row::of(alloc, cells)?)
}

/// The place after this one in a shuffled order of all places.
fn after(place: u32) -> u32 {
    ((place as u64 * 1_664_525 + 1_013_904_223) % PLACES as u64) as u32
}

fn append(alloc: Global, store: &mut Store) -> Result<(), Failed> {
    let number = Number { n: 1, id: TxnId(1) };
    for a in 0..ROWS {
        let row = row_of(alloc, b"01234567")?;
        store.reserve(1)?;
        store.append(key_of(a), number, row);
    }
    Ok(())
}

/// How many bytes are read.
fn read(store: &Store) -> u64 {
    let mut bytes = 0u64;
    let mut place = 1;
    for _ in 0..PLACES {
        place = after(place);
        if place < ROWS {
            if let Some(row) = store.get(key_of(place)) {
                if let Some(Cell::Text(text)) = row.as_slice().first() {
                    bytes = bytes.saturating_add(text.len() as u64);
                }
            }
        }
    }
    bytes
}

fn write(alloc: Global, store: &mut Store) -> Result<(), Failed> {
    let mut place = 1;
    for _ in 0..PLACES {
        place = after(place);
        if place < ROWS {
            let row = row_of(alloc, b"89abcdef")?;
            let key = key_of(place);
            if store.get(key).is_some() {
                store.put(key, row);
            }
        }
    }
    Ok(())
}

fn main(rt: HostRuntime) -> Result<(), Failed> {
    let alloc = rt.alloc();
    let mut first = Store::begin(alloc, RowList::new(alloc))?;
    let start = Instant::now(&rt)?;
    append(alloc, &mut first)?;
    let appended = start.elapsed(&rt)?.as_millis();
    let rows = first.rows_in_order()?;
    let listed = start.elapsed(&rt)?.as_millis();
    drop(first);
    let start = Instant::now(&rt)?;
    let mut store = Store::begin(alloc, rows)?;
    let loaded = start.elapsed(&rt)?.as_millis();
    let bytes = read(&store);
    let read = start.elapsed(&rt)?.as_millis();
    write(alloc, &mut store)?;
    let written = start.elapsed(&rt)?.as_millis();
    println!(rt; "{bytes} bytes read")?;
    println!(rt; "{appended} {listed} {loaded} {read} {written}")?;
    Ok(())
}
RATTLE
cat >"$work/crates/store_bench/proofs/main/Answers.antt" <<'ANTT'
use Rattle.std.proofs.Common.{refl}
use Rattle.row_store.proofs.Callers.{distinct_from_rising}
use Rattle.store_bench.proofs.main.Goals as goal

pub begin-requires : goal.begin-requires
begin-requires c = record { distinct = distinct_from_rising c.new.result (rw c.new.ensures refl) }

pub begin-requires-2 : goal.begin-requires-2
begin-requires-2 c = record { distinct = distinct_from_rising c.in_ok-rows.rows c.in_ok-rows.ensures.order }
ANTT
touch "$work/crates/store_bench/proofs/Lib.antt"
cp "$top/HANDLES" "$work"
(cd "$work/crates/store_bench" && rt run) >"$work/log" 2>&1 || {
    cat "$work/log"
    exit 1
}
for turn in 1 2 3; do
    "$work/crates/store_bench/out/store_bench" >"$work/times"
    grep -qx "8000000 bytes read" "$work/times"
    tail -1 "$work/times" | awk '{
        printf "appended in %d ms, listed in %d ms; ", $1, $2 - $1
        printf "loaded in %d ms, read in %d ms, written in %d ms: %d ms for these three\n", $3, $4 - $3, $5 - $4, $5
    }'
done
