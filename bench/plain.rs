//! An ordinary Rust program, beside which the proved one is measured. It does what a cluster of four sets does in which no bucket moves.
//!
//!     plain play CONFIG EVENTS CLIENT...    plays the events, and puts the report out
//!     plain run CONFIG CLIENT...            a thread for each client, all on one lock that is held for an event; a journal for each set, in
//!                                           the current folder, with two syncs a write; puts the report out, and logs the events
//!     plain append COUNT                    so many appends to one journal, and nothing else

use std::collections::BTreeMap;
use std::fmt::Write;
use std::fs::File;
use std::io::Write as _;
use std::os::unix::fs::FileExt;
use std::sync::Mutex;

#[derive(Clone)]
enum Op {
    Get(String),
    Put(String, String),
    Insert(String, String),
    Count,
    Scan(String, usize),
}

enum Answer {
    Value(String),
    None,
    Done,
    Exists,
    Number(usize),
    Pairs(Vec<(String, String)>),
}

struct Call {
    write: bool,
    bucket: usize,
    ops: Vec<Op>,
}

struct Entry {
    place: usize,
    client: usize,
    call: usize,
    ops: Vec<Op>,
    answers: Vec<Answer>,
}

#[derive(Default)]
struct Bucket {
    set: usize,
    reads_held: u32,
    writes_held: u32,
    rows: BTreeMap<String, String>,
    writes: Vec<Entry>,
    reads: Vec<Entry>,
}

#[derive(PartialEq, Clone, Copy)]
enum Stage {
    Idle,
    Posted,
    Running,
    Acted,
    Ended,
}

struct Client {
    script: Vec<Call>,
    stage: Stage,
    set: usize,
    answers: Vec<(usize, Vec<String>)>,
    present: (usize, Vec<String>),
}

enum Event {
    Post(usize, usize),
    Begin(usize),
    Act(usize),
    End(usize),
    Take(usize),
}

fn number(word: Option<&str>, most: usize) -> usize {
    let word = word.expect("a number");
    assert!(!word.starts_with('0'));
    let n = word.parse().expect("a number");
    assert!(n <= most);
    n
}

fn event(line: &str) -> Event {
    let mut words = line.split(' ');
    let kind = words.next().expect("a kind");
    let client = number(words.next(), 64);
    let event = match kind {
        "post" => Event::Post(client, number(words.next(), 32)),
        "begin" => Event::Begin(client),
        "act" => Event::Act(client),
        "end" => Event::End(client),
        "take" => Event::Take(client),
        _ => panic!("{line}"),
    };
    assert!(words.next().is_none());
    event
}

fn call(line: &str) -> Call {
    let mut words = line.split_ascii_whitespace();
    let write = words.next() == Some("rw");
    let bucket = number(words.next(), 30_000);
    let mut ops = Vec::new();
    loop {
        let mut name = || words.next().expect("a word").to_string();
        let kind = name();
        ops.push(match kind.as_str() {
            "get" => Op::Get(name()),
            "put" => Op::Put(name(), name()),
            "insert" => Op::Insert(name(), name()),
            "count" => Op::Count,
            "scan" => Op::Scan(name(), number(words.next(), 100)),
            _ => panic!("{line}"),
        });
        match words.next() {
            None => break,
            Some(";") => {}
            Some(_) => panic!("{line}"),
        }
    }
    Call { write, bucket, ops }
}

fn run(rows: &mut BTreeMap<String, String>, op: &Op) -> Answer {
    match op {
        Op::Get(k) => rows.get(k).map_or(Answer::None, |v| Answer::Value(v.clone())),
        Op::Put(k, v) => {
            rows.insert(k.clone(), v.clone());
            Answer::Done
        }
        Op::Insert(k, v) => {
            if rows.contains_key(k) {
                return Answer::Exists;
            }
            rows.insert(k.clone(), v.clone());
            Answer::Done
        }
        Op::Count => Answer::Number(rows.len()),
        Op::Scan(k, n) => Answer::Pairs(
            rows.range(k.clone()..).take(*n).map(|(k, v)| (k.clone(), v.clone())).collect(),
        ),
    }
}

fn op_text(op: &Op) -> String {
    match op {
        Op::Get(k) => format!("get {k}"),
        Op::Put(k, v) => format!("put {k} {v}"),
        Op::Insert(k, v) => format!("insert {k} {v}"),
        Op::Count => "count".to_string(),
        Op::Scan(k, n) => format!("scan {k} {n}"),
    }
}

fn answer_text(answer: &Answer) -> String {
    match answer {
        Answer::Value(v) => format!("value {v}"),
        Answer::None => "none".to_string(),
        Answer::Done => "done".to_string(),
        Answer::Exists => "exists".to_string(),
        Answer::Number(n) => format!("number {n}"),
        Answer::Pairs(pairs) => {
            let mut text = format!("pairs {}", pairs.len());
            for (k, v) in pairs {
                write!(text, " {k} {v}").unwrap();
            }
            text
        }
    }
}

fn step(buckets: &mut [Bucket], clients: &mut [Client], event: &Event) {
    let (Event::Post(c, _) | Event::Begin(c) | Event::Act(c) | Event::End(c) | Event::Take(c)) = event;
    let client = &mut clients[*c];
    let call = &client.script[client.answers.len()];
    let bucket = &mut buckets[call.bucket];
    match event {
        Event::Post(_, set) => {
            assert!(client.stage == Stage::Idle);
            client.set = *set;
            client.stage = Stage::Posted;
        }
        Event::Begin(_) => {
            assert!(client.stage == Stage::Posted && client.set == bucket.set);
            if call.write { bucket.writes_held += 1 } else { bucket.reads_held += 1 }
            client.stage = Stage::Running;
        }
        Event::Act(_) => {
            assert!(client.stage == Stage::Running);
            let answers: Vec<Answer> = call.ops.iter().map(|op| run(&mut bucket.rows, op)).collect();
            let place = bucket.writes.len() + usize::from(call.write);
            client.present = (place, answers.iter().map(answer_text).collect());
            let entry = Entry { place, client: *c, call: client.answers.len() + 1, ops: call.ops.clone(), answers };
            if call.write { bucket.writes.push(entry) } else { bucket.reads.push(entry) }
            client.stage = Stage::Acted;
        }
        Event::End(_) => {
            assert!(client.stage == Stage::Acted);
            if call.write { bucket.writes_held -= 1 } else { bucket.reads_held -= 1 }
            client.stage = Stage::Ended;
        }
        Event::Take(_) => {
            assert!(client.stage == Stage::Ended);
            client.answers.push(std::mem::take(&mut client.present));
            client.stage = Stage::Idle;
        }
    }
}

fn entries(out: &mut String, kind: &str, entries: &[Entry]) {
    for e in entries {
        let ops: Vec<String> = e.ops.iter().map(op_text).collect();
        let answers: Vec<String> = e.answers.iter().map(answer_text).collect();
        writeln!(out, "{kind} {} {} {} {} => {}", e.place, e.client, e.call, ops.join(" ; "), answers.join(" ; ")).unwrap();
    }
}

/// A journal in a file: gates, and between them the length of an entry and its body.
struct Journal {
    file: File,
    gate: u64,
    entries: u64,
}

impl Journal {
    fn new(name: &str) -> Journal {
        let file = File::create(name).expect("a journal");
        let mut head = b"VSJRNL02".to_vec();
        head.extend_from_slice(&[0; 30]);
        file.write_all_at(&head, 0).expect("a head");
        file.sync_data().expect("a sync");
        Journal { file, gate: 37, entries: 0 }
    }

    /// Writes the entry and a closed gate behind it, syncs, opens its own gate, and syncs.
    fn append(&mut self, change: &[u8]) {
        self.entries += 1;
        let mut entry = (change.len() as u32 + 8).to_le_bytes().to_vec();
        entry.extend_from_slice(&self.entries.to_le_bytes());
        entry.extend_from_slice(change);
        entry.push(0);
        self.file.write_all_at(&entry, self.gate + 1).expect("an entry");
        self.file.sync_data().expect("a sync");
        self.file.write_all_at(&[0xa5], self.gate).expect("a gate");
        self.file.sync_data().expect("a sync");
        self.gate += entry.len() as u64;
    }
}

fn put_key(change: &mut Vec<u8>, key: &str) {
    change.push(key.len() as u8);
    change.extend_from_slice(key.as_bytes());
}

fn put_value(change: &mut Vec<u8>, value: &str) {
    change.extend_from_slice(&(value.len() as u16).to_le_bytes());
    change.extend_from_slice(value.as_bytes());
}

/// The change of a write, as a journal has it.
fn change_of(client: usize, number: usize, call: &Call) -> Vec<u8> {
    let mut change = vec![3, client as u8];
    change.extend_from_slice(&(number as u32).to_le_bytes());
    change.extend_from_slice(&(call.bucket as u32).to_le_bytes());
    change.push(call.ops.len() as u8);
    for op in &call.ops {
        match op {
            Op::Get(k) => {
                change.push(1);
                put_key(&mut change, k);
            }
            Op::Put(k, v) | Op::Insert(k, v) => {
                change.push(if matches!(op, Op::Put(..)) { 2 } else { 3 });
                put_key(&mut change, k);
                put_value(&mut change, v);
            }
            Op::Count => change.push(6),
            Op::Scan(k, n) => {
                change.push(7);
                put_key(&mut change, k);
                change.push(*n as u8);
            }
        }
    }
    change
}

struct Cluster {
    buckets: Vec<Bucket>,
    clients: Vec<Client>,
}

impl Cluster {
    fn new(config: &str, scripts: &[String]) -> Cluster {
        let count: usize =
            config.lines().next().and_then(|l| l.strip_prefix("bucket_count = ")).expect("a count").parse().unwrap();
        let client = |script| Client { script, stage: Stage::Idle, set: 0, answers: Vec::new(), present: (0, Vec::new()) };
        let mut clients = vec![client(Vec::new())];
        clients.extend(scripts.iter().map(|text| client(text.lines().skip(1).map(call).collect())));
        let mut buckets: Vec<Bucket> = (0..=count).map(|_| Bucket::default()).collect();
        for b in 1..=count {
            buckets[b].set = (b - 1) / (count / 4) + 1;
        }
        Cluster { buckets, clients }
    }

    fn report(&self) -> String {
        let count = self.buckets.len() - 1;
        let mut out = format!("cluster 4 {count}\n");
        for set in 1..=4 {
            let active = self.buckets.iter().filter(|b| b.set == set).count();
            writeln!(out, "set {set} up {active} 0 0 0 0 0").unwrap();
        }
        for b in 1..=count {
            writeln!(out, "bucket {b} {} active", self.buckets[b].set).unwrap();
        }
        for (b, bucket) in self.buckets.iter().enumerate() {
            if bucket.writes.is_empty() && bucket.reads.is_empty() {
                continue;
            }
            writeln!(out, "history {b} 0 {} {}", bucket.writes.len(), bucket.reads.len()).unwrap();
            entries(&mut out, "write", &bucket.writes);
            entries(&mut out, "read", &bucket.reads);
        }
        for (c, client) in self.clients.iter().enumerate() {
            for (i, (place, answers)) in client.answers.iter().enumerate() {
                writeln!(out, "call {c} {} reply {place} {}", i + 1, answers.join(" ; ")).unwrap();
            }
        }
        out.push_str("end\n");
        out
    }
}

/// What the lock keeps in a run.
struct Running {
    cluster: Cluster,
    journals: Vec<Journal>,
    events: Vec<Event>,
}

impl Running {
    /// The next event of a client, unless all its calls are answered.
    fn next(&self, c: usize) -> Option<Event> {
        let client = &self.cluster.clients[c];
        let call = client.script.get(client.answers.len())?;
        Some(match client.stage {
            Stage::Idle => Event::Post(c, self.cluster.buckets[call.bucket].set),
            Stage::Posted => Event::Begin(c),
            Stage::Running => Event::Act(c),
            Stage::Acted => Event::End(c),
            Stage::Ended => Event::Take(c),
        })
    }

    fn carry_out(&mut self, event: Event) {
        if let Event::Act(c) = event {
            let client = &self.cluster.clients[c];
            let number = client.answers.len() + 1;
            let call = &client.script[number - 1];
            if call.write {
                self.journals[client.set - 1].append(&change_of(c, number, call));
            }
        }
        step(&mut self.cluster.buckets, &mut self.cluster.clients, &event);
        self.events.push(event);
    }
}

fn event_line(event: &Event) -> String {
    match event {
        Event::Post(c, s) => format!("post {c} {s}\n"),
        Event::Begin(c) => format!("begin {c}\n"),
        Event::Act(c) => format!("act {c}\n"),
        Event::End(c) => format!("end {c}\n"),
        Event::Take(c) => format!("take {c}\n"),
    }
}

fn run_side_by_side(cluster: Cluster) -> Running {
    let count = cluster.clients.len();
    let journals = (1..=4).map(|set| Journal::new(&format!("set-{set:02}.journal"))).collect();
    let shared = Mutex::new(Running { cluster, journals, events: Vec::new() });
    std::thread::scope(|threads| {
        for c in 1..count {
            let shared = &shared;
            threads.spawn(move || {
                loop {
                    let mut running = shared.lock().expect("the lock");
                    let Some(event) = running.next(c) else { break };
                    running.carry_out(event);
                }
            });
        }
    });
    shared.into_inner().expect("the lock")
}

fn main() {
    let words: Vec<String> = std::env::args().skip(1).collect();
    let text = |name: &String| std::fs::read_to_string(name).expect("a file");
    let texts = |names: &[String]| names.iter().map(text).collect::<Vec<_>>();
    match words[0].as_str() {
        "play" => {
            let events: Vec<Event> = text(&words[2]).lines().map(event).collect();
            let mut cluster = Cluster::new(&text(&words[1]), &texts(&words[3..]));
            for event in &events {
                step(&mut cluster.buckets, &mut cluster.clients, event);
            }
            std::io::stdout().write_all(cluster.report().as_bytes()).unwrap();
        }
        "run" => {
            let ran = run_side_by_side(Cluster::new(&text(&words[1]), &texts(&words[2..])));
            std::io::stdout().write_all(ran.cluster.report().as_bytes()).unwrap();
            let events: String = ran.events.iter().map(event_line).collect();
            std::io::stderr().write_all(events.as_bytes()).unwrap();
        }
        "append" => {
            let mut journal = Journal::new("set-01.journal");
            let call = call("rw 279 put k31 v673");
            for n in 1..=words[1].parse().expect("a count") {
                journal.append(&change_of(1, n, &call));
            }
        }
        word => panic!("{word}"),
    }
}
