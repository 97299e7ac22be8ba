#!/usr/bin/env bash
# Reads a text of 100,000 events with vs_event and with an ordinary Rust program, in one go, and prints the best time of each
# and their ratio. It needs `rt` and `rustc`, and takes some minutes the first time.
set -e
top=$(cd "$(dirname "${BASH_SOURCE[0]}")/.." && pwd)
work=$(mktemp -d)
trap 'rm -rf "$work"' EXIT

# eight clients, each of whose calls is posted, granted, carried out, ended and taken
awk 'BEGIN { for (i = 0; i < 20000; i++) { c = 1 + i % 8; printf "post %d %d\nbegin %d\nact %d\nend %d\ntake %d\n", c, 1 + i % 4, c, c, c, c } }' \
    >"$work/events"

# ---- the ordinary program
cat >"$work/plain.rs" <<'RUST'
use std::time::Instant;

#[allow(dead_code)]
enum Event {
    Post(u8, u8),
    Begin(u8),
    Act(u8),
    End(u8),
    Take(u8),
}

fn event(line: &str) -> Option<Event> {
    let mut words = line.split(' ');
    let name = words.next()?;
    let client = words.next()?.parse().ok()?;
    Some(match name {
        "post" => Event::Post(client, words.next()?.parse().ok()?),
        "begin" => Event::Begin(client),
        "act" => Event::Act(client),
        "end" => Event::End(client),
        "take" => Event::Take(client),
        _ => return None,
    })
}

fn main() {
    let text = std::fs::read_to_string(std::env::args().nth(1).unwrap()).unwrap();
    for _ in 0..25 {
        let start = Instant::now();
        let events: Option<Vec<Event>> = text.lines().map(event).collect();
        let micros = start.elapsed().as_micros();
        println!("{} {micros}", events.unwrap().len());
    }
}
RUST
rustc --edition 2021 -C opt-level=3 -o "$work/plain" "$work/plain.rs"

# ---- the proved one, as a program of a scratch repository
mkdir -p "$work/repository/crates/bench/src"
for crate in vs_base vs_space vs_text vs_event; do
    mkdir -p "$work/repository/crates/$crate"
    for part in src specs proofs; do
        [ -d "$top/crates/$crate/$part" ] && cp -r "$top/crates/$crate/$part" "$work/repository/crates/$crate/"
    done
    grep "^$crate:" "$top/crates.txt" >>"$work/repository/crates.txt"
done
echo "bench: vs_base vs_event" >>"$work/repository/crates.txt"
cat >"$work/repository/crates/bench/src/main.rt" <<'RATTLE'
//! Times the reading of events.
#![tactic(auto)]

use std::io;
use std::time::Instant;
use vs_event::read_events;

fn measure(rt: &HostRuntime, text: &[u8]) -> io::Result<()> {
    let start = Instant::now(rt)?;
    let read = read_events(rt.alloc(), text);
    let micros = u64::try_from(start.elapsed(rt)?.as_micros()).unwrap_or(0);
    match read {
        Ok(trace) => {
            let n = trace.len();
            println!(rt; "{n} {micros}")
        }
        Err(_) => println!(rt; "not read"),
    }
}

fn main(rt: HostRuntime) -> io::Result<()> {
    let text = std::fs::read(&rt, "events")?;
    for _ in 0..25 {
        measure(&rt, text.as_slice())?;
    }
    Ok(())
}
RATTLE
cd "$work/repository/crates/bench"
cp "$work/events" events
rt run >"$work/first" 2>&1 || { tail -20 "$work/first" >&2; exit 1; }

best() { awk 'NF == 2 && $1 == 100000 && (least == "" || $2 < least) { least = $2 } END { print least }' "$1"; }
"$work/plain" "$work/events" >"$work/plain.out"
out/bench >"$work/ours.out"
plain=$(best "$work/plain.out")
ours=$(best "$work/ours.out")
awk -v a="$ours" -v b="$plain" 'BEGIN { printf "read_events %d us, ordinary program %d us, ratio %.2f\n", a, b, a / b }'
