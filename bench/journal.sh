#!/usr/bin/env bash
# The journal beside ordinary programs, in one go: appends of bodies of 39 bytes to a real file, beside a C program that makes the
# same four system calls (write, fdatasync, write, fdatasync), and the opening of a journal of 256 MiB of writes of one row each,
# beside an ordinary Rust program that reads it in pieces, checks it and carries it out: once with a new row in each write, once with
# 100 keys a bucket that are written over and over; and the opening of a short journal of version 1, which is migrated, and once more.
# It prints the times and their ratios, and the most memory that either took. Of the memory beside the state it tells by how much a
# long journal takes more than a short one that stands for the same rows. It needs `rt`, `rustc`, `gcc` and `python3`, about 1 GB on
# the disk of $TMPDIR (else /tmp) and 3 GB of memory, and takes some minutes the first time.
set -e
top=$(cd "$(dirname "${BASH_SOURCE[0]}")/.." && pwd)
work=$(mktemp -d)
trap 'rm -rf "$work"' EXIT

# ---- the C program: `raw append N FILE` appends N bodies, `raw make FILE KEYS WRITES` writes a long journal with so many keys a
# bucket, `raw old FILE KEYS WRITES` one of version 1
cat >"$work/raw.c" <<'C'
#include <fcntl.h>
#include <stdint.h>
#include <stdio.h>
#include <stdlib.h>
#include <string.h>
#include <time.h>
#include <unistd.h>

static uint8_t head[38] = { 'V', 'S', 'J', 'R', 'N', 'L', '0', '2', 0, 0, 0, 0, 0, 0, 0x40, 0, 0x80, 0, 0, 0, 0, 0, 0, 1,
    0xb8, 0x0b, 0, 0, 1, 0, 0, 0, 0xb8, 0x0b, 0, 0, 0, 0 };

static uint8_t *put(uint8_t *p, uint64_t n, int bytes) {
    for (int i = 0; i < bytes; i++) *p++ = n >> (8 * i);
    return p;
}

/* the length, a write of one row with a key and a value of 8 bytes each, and the closed gate behind it; its size */
static size_t entry(uint8_t *to, uint32_t n, uint32_t keys, int version) {
    char text[32];
    uint8_t *p = put(to, version == 2 ? 39 : 30, 4);
    if (version == 2) p = put(p, n + 1, 8);
    *p++ = 3; *p++ = 1 + n % 8;
    p = put(put(p, 1 + n % 200000, 4), 1 + n % 3000, 4);
    *p++ = 1; *p++ = 2;
    snprintf(text, sizeof text, "k%07u", n / 3000 % keys);
    *p++ = 8; memcpy(p, text, 8); p += 8;
    snprintf(text, sizeof text, "v%07u", n % 1000);
    p = put(p, 8, version); memcpy(p, text, 8); p += 8;
    *p++ = 0;
    return p - to;
}

int main(int argc, char **argv) {
    uint8_t e[64], open_gate = 0xa5;
    if (strcmp(argv[1], "append")) {
        int version = strcmp(argv[1], "old") ? 2 : 1;
        FILE *f = fopen(argv[2], "wb");
        head[7] = '0' + version;
        fwrite(head, 1, 35 + version, f);
        for (uint32_t n = 0; n < strtoul(argv[4], 0, 10); n++) {
            size_t size = entry(e, n, atoi(argv[3]), version);
            fputc(0xa5, f);
            fwrite(e, 1, size - 1, f);
        }
        fputc(0, f);
        return fclose(f);
    }
    int count = atoi(argv[2]), fd = open(argv[3], O_RDWR | O_CREAT | O_TRUNC, 0644);
    if (pwrite(fd, head, 38, 0) != 38 || fdatasync(fd)) return 1;
    struct timespec a, b;
    clock_gettime(CLOCK_MONOTONIC, &a);
    off_t gate = 37;
    for (int n = 0; n < count; n++) {
        ssize_t size = entry(e, n, 100, 2);
        if (pwrite(fd, e, size, gate + 1) != size || fdatasync(fd)) return 1;
        if (pwrite(fd, &open_gate, 1, gate) != 1 || fdatasync(fd)) return 1;
        gate += size;
    }
    clock_gettime(CLOCK_MONOTONIC, &b);
    printf("append %ld\n", (b.tv_sec - a.tv_sec) * 1000000L + (b.tv_nsec - a.tv_nsec) / 1000);
    return 0;
}
C
gcc -O2 -o "$work/raw" "$work/raw.c"

# ---- the ordinary Rust program
cat >"$work/plain.rs" <<'RUST'
use std::collections::BTreeMap;
use std::fs::File;
use std::io::{BufReader, Read};
use std::time::Instant;

fn number(b: &[u8], at: usize) -> Option<usize> {
    Some(u32::from_le_bytes(b.get(at..at + 4)?.try_into().ok()?) as usize)
}

fn text<'a>(b: &'a [u8], len: usize, most: usize, at: &mut usize) -> Option<&'a [u8]> {
    let word = b.get(*at..*at + len)?;
    *at += len;
    ((1..=most).contains(&len) && word.iter().all(|c| (0x21..=0x7e).contains(c)) && word != b";").then_some(word)
}

fn apply(body: &[u8], count: u64, maps: &mut [BTreeMap<Vec<u8>, Vec<u8>>]) -> Option<()> {
    if u64::from_le_bytes(body.get(..8)?.try_into().ok()?) != count + 1 {
        return None;
    }
    let body = &body[8..];
    let (client, call, bucket) = (*body.get(1)?, number(body, 2)?, number(body, 6)?);
    if body[0] != 3 || !(1..=64).contains(&client) || !(1..=200_000).contains(&call) || !(1..=3000).contains(&bucket) {
        return None;
    }
    let mut at = 11;
    for _ in 0..body[10] {
        if *body.get(at)? != 2 {
            return None;
        }
        let len = *body.get(at + 1)? as usize;
        at += 2;
        let key = text(body, len, 64, &mut at)?;
        let len = u16::from_le_bytes(body.get(at..at + 2)?.try_into().ok()?) as usize;
        at += 2;
        let value = text(body, len, 256, &mut at)?;
        maps[bucket].insert(key.to_vec(), value.to_vec());
    }
    (at == body.len()).then_some(())
}

fn open(file: &str, maps: &mut [BTreeMap<Vec<u8>, Vec<u8>>]) -> Option<u64> {
    let mut file = BufReader::with_capacity(1 << 16, File::open(file).ok()?);
    let (mut head, mut start, mut body) = ([0; 37], [0; 5], vec![0; 1 << 20]);
    file.read_exact(&mut head).ok()?;
    let mut count = 0;
    loop {
        file.read_exact(&mut start[..1]).ok()?;
        if start[0] != 0xa5 {
            return Some(count);
        }
        file.read_exact(&mut start[1..]).ok()?;
        let len = number(&start, 1)?;
        file.read_exact(body.get_mut(..len)?).ok()?;
        apply(&body[..len], count, maps)?;
        count += 1;
    }
}

fn main() {
    let start = Instant::now();
    let mut maps = vec![BTreeMap::new(); 3001];
    let count = open(&std::env::args().nth(1).unwrap(), &mut maps).unwrap();
    assert!(count > 0);
    println!("open {}", start.elapsed().as_micros());
}
RUST
rustc --edition 2021 -C opt-level=3 -o "$work/plain" "$work/plain.rs"

# ---- the proved one, as a program of a scratch repository
mkdir -p "$work/repository/crates/bench/src"
for crate in vs_base vs_table vs_rows vs_space vs_disk vs_frame vs_record vs_store; do
    mkdir -p "$work/repository/crates/$crate"
    for part in src specs proofs; do
        [ -d "$top/crates/$crate/$part" ] && cp -r "$top/crates/$crate/$part" "$work/repository/crates/$crate/"
    done
    grep "^$crate:" "$top/crates.txt" >>"$work/repository/crates.txt"
done
echo "bench: vs_base vs_rows vs_disk vs_frame vs_record vs_store uuid" >>"$work/repository/crates.txt"
cat >"$work/repository/crates/bench/src/main.rt" <<'RATTLE'
//! Times appends to a journal, and its opening.
#![tactic(auto)]

ghost use Rattle.std.specs.Prelude.{IfSome};
ghost use Rattle.vs_record.specs.Body.{HasCounts};
ghost use Rattle.vs_record.specs.Change.{change as plain};

use std::env;
use std::io;
use std::time::Instant;
use uuid::Uuid;
use vs_base::{BucketId, CallId, ClientNo};
use vs_disk::{Disk, FileDisk};
use vs_frame::Head;
use vs_record::Change;
use vs_rows::{Key, Op, Ops, Val};
use vs_store::Store;

fn head() -> Head {
    Head {
        uuid: Uuid::from_u128(0x4000_8000_0000_0000_0001),
        bucket_count: 3000,
        boot_first: 1,
        boot_count: 3000,
    }
}

fn change(rt: &HostRuntime) -> Option<Change>
    ensures { IfSome result (λ c. HasCounts (plain c)) }
{
    let key = Key::new(rt.alloc(), b"k0000001").ok()?;
    let value = Val::new(rt.alloc(), b"v0000001").ok()?;
    let ops = Ops::one(rt.alloc(), Op::Put(key, value)).ok()?;
    let client = ClientNo::new(1)?;
    let id = CallId { client, call: 1 };
    Some(Change::Write(id, BucketId::new(1)?, ops))
}

// With the word `append` it appends 2,000 changes to a new journal, else it opens the journal `long`.
fn main(rt: HostRuntime) -> io::Result<()> {
    let head = head();
    if !head.is_lawful() {
        return println!(rt; "no head");
    }
    let appends = match env::args(&rt) {
        Ok(mut words) => {
            words.next();
            words.next().is_some()
        }
        Err(_) => false,
    };
    let name = if appends { "short" } else { "long" };
    let mut disk = FileDisk::new(rt, String::from_str(rt.alloc(), name)?);
    if disk.open().is_err() {
        return println!(rt; "no disk");
    }
    let start = Instant::now(&rt)?;
    let Ok((mut store, _)) = Store::open(rt.alloc(), disk, &head, 1 << 30) else {
        return println!(rt; "not opened");
    };
    if !appends {
        let micros = u64::try_from(start.elapsed(&rt)?.as_micros()).unwrap_or(0);
        let length = store.journal_len();
        return println!(rt; "open {micros} {length}");
    }
    let start = Instant::now(&rt)?;
    for _ in 0..2000 {
        let Some(change) = change(&rt) else {
            return println!(rt; "no change");
        };
        if store.must_reopen() || store.append(rt.alloc(), &change).is_err() {
            return println!(rt; "no append");
        }
    }
    let micros = u64::try_from(start.elapsed(&rt)?.as_micros()).unwrap_or(0);
    println!(rt; "append {micros}")
}
RATTLE
cd "$work/repository/crates/bench"
"$work/raw" make long 100 1000
rt run >"$work/first" 2>&1 || { tail -20 "$work/first" >&2; exit 1; }

# Runs a command, and adds the most memory that it took, in KiB, to a file of this name.
peak() {
    python3 -c 'import resource, subprocess, sys
subprocess.run(sys.argv[2:], check=True)
print(sys.argv[1], resource.getrusage(resource.RUSAGE_CHILDREN).ru_maxrss)' "$@" 2>/dev/null
}
run() { # run NAME FILE COMMAND..: its figure and its memory under this name, into that file
    local name=$1 file=$2
    shift 2
    peak "$name" "$@" | sed "s/^open/$name/; t; s/^$name /$name.memory /" >>"$work/$file"
}

# ---- each program in turn
long=$(((256 << 20) / 44))
for r in 1 2 3; do
    "$work/raw" append 2000 "$work/raw.journal" >>"$work/plain.out"
    rm -f short
    out/bench append >>"$work/ours.out"
done
for rows in new old; do
    [ $rows = new ] && keys=10000000 || keys=100
    "$work/raw" make long $keys $long
    for r in 1 2 3; do
        run $rows ours.out out/bench
        run $rows plain.out "$work/plain" long
    done
done
# as many rows as the old ones of the long journal, once each
"$work/raw" make long 100 300000
run once ours.out out/bench
"$work/raw" old long 100 1000
syncs=$(strace -f -e trace=fsync,fdatasync -o "$work/trace" out/bench >/dev/null 2>&1 && grep -c sync "$work/trace" || echo "?")
again=$(strace -f -e trace=fsync,fdatasync -o "$work/trace" out/bench >/dev/null 2>&1 && grep -c sync "$work/trace" || echo "?")

best() { awk -v w="$1" '$1 == w && (least == "" || $2 < least) { least = $2 } END { print least }' "$work/$2"; }
said() { # said TEXT NAME UNIT
    awk -v t="$1" -v a="$(best "$2" ours.out)" -v b="$(best "$2" plain.out)" -v u="$3" 'BEGIN {
        printf "%s: %d %s, an ordinary program %d %s, ratio %.2f\n", t, a, u, b, u, a / b }'
}
said "2,000 appends" append us
said "opening 256 MiB, new rows" new us
said "opening 256 MiB, old rows" old us
said "its memory, new rows" new.memory KiB
said "its memory, old rows" old.memory KiB
awk -v a="$(best old.memory ours.out)" -v b="$(best once.memory ours.out)" 'BEGIN {
    printf "more than for a journal of the same rows, once each: %d KiB\n", a - b }'
echo "syncs of an opening that migrates: $syncs, and of the next: $again"
