#!/usr/bin/env bash
# Reads the script of a client with 200,000 calls with vs_script and with an ordinary Rust program, in one go, and prints the
# best time of each, their ratio, and the memory that a call takes. It needs `rt`, `rustc` and `python3`, and takes some minutes
# the first time.
set -e
top=$(cd "$(dirname "${BASH_SOURCE[0]}")/.." && pwd)
work=$(mktemp -d)
trap 'rm -rf "$work"' EXIT

# calls of one to three operations, as a shop's carts may make them
awk 'BEGIN {
    print "client"
    for (i = 0; i < 50000; i++) {
        b = 1 + i % 3000; k = "cart:" i % 977; v = "items=" i
        printf "rw %d put %s %s\nro %d get %s\nrw %d insert %s %s ; swap %s %s paid\nro %d count ; scan %s 20 ; get %s\n", b, k, v, b, k, b, k, v, k, v, b, k, k
    }
}' >"$work/script"
echo client >"$work/empty"

# ---- the ordinary program
cat >"$work/plain.rs" <<'RUST'
use std::time::Instant;

#[allow(dead_code)]
enum Op {
    Get(String),
    Put(String, String),
    Insert(String, String),
    Delete(String),
    Swap(String, String, String),
    Count,
    Scan(String, u8),
}

#[allow(dead_code)]
struct Call {
    write: bool,
    bucket: u32,
    ops: Vec<Op>,
}

fn name(word: Option<&str>) -> Option<String> {
    word.filter(|w| *w != ";" && w.len() <= 64).map(str::to_string)
}

fn call(line: &str) -> Option<Call> {
    let mut words = line.split_ascii_whitespace();
    let write = match words.next()? {
        "ro" => false,
        "rw" => true,
        _ => return None,
    };
    let bucket = words.next()?.parse().ok().filter(|b| (1..=3000).contains(b))?;
    let mut ops = Vec::new();
    loop {
        let op = match words.next()? {
            "get" => Op::Get(name(words.next())?),
            "put" if write => Op::Put(name(words.next())?, name(words.next())?),
            "insert" if write => Op::Insert(name(words.next())?, name(words.next())?),
            "delete" if write => Op::Delete(name(words.next())?),
            "swap" if write => Op::Swap(name(words.next())?, name(words.next())?, name(words.next())?),
            "count" => Op::Count,
            "scan" => {
                let key = name(words.next())?;
                Op::Scan(key, words.next()?.parse().ok().filter(|n| (1..=100).contains(n))?)
            }
            _ => return None,
        };
        ops.push(op);
        match words.next() {
            None => break,
            Some(";") if ops.len() < 16 => {}
            Some(_) => return None,
        }
    }
    Some(Call { write, bucket, ops })
}

fn script(text: &str) -> Option<Vec<Call>> {
    if !text.bytes().all(|b| b == b'\n' || b == b'\t' || (b' '..=b'~').contains(&b)) {
        return None;
    }
    text.lines().skip(1).filter(|l| !l.is_empty() && !l.starts_with('#')).map(call).collect()
}

fn main() {
    let text = std::fs::read_to_string(std::env::args().nth(1).unwrap()).unwrap();
    for _ in 0..15 {
        let start = Instant::now();
        let calls = script(&text);
        let micros = start.elapsed().as_micros();
        println!("{} {micros}", calls.unwrap().len());
    }
}
RUST
rustc --edition 2021 -C opt-level=3 -o "$work/plain" "$work/plain.rs"

# ---- the proved one, as a program of a scratch repository
mkdir -p "$work/repository/crates/bench/src"
for crate in vs_base vs_rows vs_text vs_config vs_script; do
    mkdir -p "$work/repository/crates/$crate"
    for part in src specs proofs; do
        [ -d "$top/crates/$crate/$part" ] && cp -r "$top/crates/$crate/$part" "$work/repository/crates/$crate/"
    done
    grep "^$crate:" "$top/crates.txt" >>"$work/repository/crates.txt"
done
echo "bench: vs_base vs_config vs_script" >>"$work/repository/crates.txt"
cat >"$work/repository/crates/bench/src/main.rt" <<'RATTLE'
//! Times the reading of a script.
#![tactic(auto)]

use std::io;
use std::time::Instant;
use vs_config::{Config, read_config};
use vs_script::{Script, read_script};

fn measure(rt: &HostRuntime, text: &[u8], config: &Config) -> io::Result<()> {
    let start = Instant::now(rt)?;
    let read = read_script(rt.alloc(), text, config);
    let micros = u64::try_from(start.elapsed(rt)?.as_micros()).unwrap_or(0);
    match read {
        Ok(Script::Client(calls)) => {
            let n = calls.len();
            println!(rt; "{n} {micros}")
        }
        _ => println!(rt; "not read"),
    }
}

fn main(rt: HostRuntime) -> io::Result<()> {
    let text = std::fs::read(&rt, "script")?;
    let config = read_config(
        rt.alloc(),
        b"[[set]]\nuuid = \"00000000-0000-4000-8000-000000000001\"\n",
    );
    if let Ok(config) = config {
        for _ in 0..15 {
            measure(&rt, text.as_slice(), &config)?;
        }
    }
    Ok(())
}
RATTLE
cd "$work/repository/crates/bench"
cp "$work/script" script
rt run >"$work/first" 2>&1 || { tail -20 "$work/first" >&2; exit 1; }

best() { awk 'NF == 2 && $1 == 200000 && (least == "" || $2 < least) { least = $2 } END { print least }' "$1"; }
"$work/plain" "$work/script" >"$work/plain.out"
out/bench >"$work/ours.out"
plain=$(best "$work/plain.out")
ours=$(best "$work/ours.out")
awk -v a="$ours" -v b="$plain" 'BEGIN { printf "read_script %d us, ordinary program %d us, ratio %.2f\n", a, b, a / b }'

# ---- the memory of a call: the most that is resident, less the text and what a script without calls takes
resident() { python3 -c 'import resource, subprocess, sys; subprocess.run(sys.argv[1:], stdout=subprocess.DEVNULL); print(resource.getrusage(resource.RUSAGE_CHILDREN).ru_maxrss)' "$@"; }
full=$(resident out/bench)
cp "$work/empty" script
empty=$(resident out/bench)
awk -v a="$full" -v b="$empty" -v size="$(stat -c %s "$work/script")" 'BEGIN { printf "%.0f bytes a call\n", ((a - b) * 1024 - size) / 200000 }'
