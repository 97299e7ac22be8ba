#!/usr/bin/env bash
# Runs the scripts of eight clients with the proved program and with an ordinary Rust program (plain.rs), which has a thread for each
# client and one lock for all, as the proved one has, and an equal journal. Both read the same files, put out a report of all answers,
# which may differ by the order of the calls, and log their events; the proved program then finds the ordinary one's report legal. It
# prints the calls a second of both, the processor time and the memory that they take, and the ratios, each the median of rounds in which
# all of it is run in turn:
#
# - with journals in memory (in /dev/shm, where a sync costs nothing), 20,000 calls;
# - with journals on the disk of $TMPDIR (else /tmp), 1,000 calls, beside as many bare appends of two writes and two syncs each as
#   these calls make: no program that holds its lock over an append can be faster. What another program has the disk do meanwhile
#   shows more than all else.
#
# Then the same 20,000 calls while a balance moves 450 buckets, and a wide run of 64 clients with ten calls each, 16 operators with two
# moves each and 32 sets with 30,000 buckets in all, both by the proved program alone and with journals in memory.
#
# With VSHARD in the environment that program is run; else crates/vshard/out/vshard, which is built where it isn't there. It needs
# `rustc` and `python3`, and a minute or two once all is built.
set -e
top=$(cd "$(dirname "${BASH_SOURCE[0]}")/.." && pwd)
work=$(mktemp -d)
trap 'rm -rf "$work"' EXIT

# ---- the ordinary program
rustc --edition 2021 -C opt-level=3 -o "$work/plain" "$top/bench/plain.rs"

# ---- the proved one, built where it isn't; without words it names its commands, and does nothing
if [ -n "${VSHARD:-}" ]; then
    program=$(realpath "$VSHARD")
else
    "$top/vshard" >"$work/usage" 2>&1 || [ $? -eq 2 ]
    program=$top/crates/vshard/out/vshard
fi

cat >"$work/measure.py" <<'PYTHON'
import os, random, resource, statistics, subprocess, sys, tempfile, time

program, work = sys.argv[1:]
plain = os.path.join(work, "plain")
memory = "/dev/shm" if os.path.isdir("/dev/shm") else work
ROUNDS = 9
# A program that is started from here begins with the memory of this one.
OWN = resource.getrusage(resource.RUSAGE_SELF).ru_maxrss / 1024


def write(name, lines):
    path = os.path.join(work, name)
    with open(path, "w") as out:
        out.write("".join(line + "\n" for line in lines))
    return path


def config(name, buckets, weights):
    lines = [f"bucket_count = {buckets}"]
    for place, weight in enumerate(weights, 1):
        lines += ["[[set]]", f'uuid = "00000000-0000-4000-8000-0000000000{place:02}"', f"weight = {weight}"]
    return write(name, lines)


def call(buckets):
    bucket, key, value = random.randint(1, buckets), f"k{random.randint(0, 99)}", f"v{random.randint(0, 999)}"
    kinds = [f"ro {bucket} get {key}", f"rw {bucket} put {key} {value}", f"rw {bucket} insert {key} {value} ; count",
             f"ro {bucket} count ; scan {key} 5"]
    return random.choice(kinds)


def clients(name, count, calls, buckets):
    """The scripts of so many clients with so many calls each, and how many of all these calls write."""
    scripts = [[call(buckets) for _ in range(calls)] for _ in range(count)]
    paths = [write(f"{name}{place}", ["client"] + script) for place, script in enumerate(scripts, 1)]
    return paths, sum(line.startswith("rw") for script in scripts for line in script)


def run(words, at, out="report", log="events"):
    """Runs a program in a folder: its seconds, the seconds of processors that it took, and its most memory in MiB."""
    with open(os.path.join(at, out), "wb") as report, open(os.path.join(at, log), "wb") as events:
        begun = time.perf_counter()
        child = subprocess.Popen(words, stdout=report, stderr=events, cwd=at)
        _, status, used = os.wait4(child.pid, 0)
        took = time.perf_counter() - begun
    assert status == 0, words
    return took, used.ru_utime + used.ru_stime, used.ru_maxrss / 1024


def fresh(place):
    return tempfile.TemporaryDirectory(dir=place)


def answered(at):
    with open(os.path.join(at, "report")) as report:
        return sum(line.startswith("call ") and line.split()[3] == "reply" for line in report)


def proved_and_ordinary(place, configuration, scripts, calls, appends):
    """Rounds of both programs and, where it waits for a disk, of bare appends."""
    rounds = []
    for _ in range(ROUNDS):
        with fresh(place) as at:
            proved = run([program, "run", configuration] + scripts, at)
            assert answered(at) == calls
        with fresh(place) as at:
            ordinary = run([plain, "run", configuration] + scripts, at)
            assert answered(at) == calls
            assert subprocess.run([program, "audit", os.path.join(at, "report")], capture_output=True).stdout == b"legal\n"
        bare = None
        if place != memory:
            with fresh(place) as at:
                bare = run([plain, "append", str(appends)], at)
        rounds.append((proved, ordinary, bare))
    return rounds


def middle(rounds, of):
    return statistics.median(of(*one) for one in rounds)


def tell(title, rounds, calls, appends):
    def one(name, place):
        took = [r[place] for r in rounds]
        seconds, processors, most = (statistics.median(t[k] for t in took) for k in range(3))
        return f"{name} {calls / seconds:,.0f} calls/s, {processors:.2f} s of processors in {seconds:.2f} s, {most:.1f} MiB"

    print(f"{title}: {one('proved', 0)}; {one('ordinary', 1)}; calls a second {middle(rounds, lambda p, o, b: o[0] / p[0]):.2f} times "
          f"the ordinary ones, memory {middle(rounds, lambda p, o, b: p[2] / o[2]):.2f} (what is below {OWN:.1f} MiB doesn't show)")
    if rounds[0][2]:
        bare = middle(rounds, lambda p, o, b: appends / b[0])
        print(f"    {appends} appends: bare {bare:,.0f} a second; proved {middle(rounds, lambda p, o, b: b[0] / p[0]):.2f} times that, "
              f"ordinary {middle(rounds, lambda p, o, b: b[0] / o[0]):.2f}")


def alone(title, before, configuration, scripts, calls):
    """The proved program on journals in memory that an empty run made."""
    took = []
    for _ in range(ROUNDS):
        with fresh(memory) as at:
            run([program, "run", before], at)
            took.append(run([program, "run", configuration] + scripts, at))
            assert answered(at) == calls
            with open(os.path.join(at, "report")) as report:
                commands = [line.split(" ", 3)[3].strip() for line in report if line.startswith("command ")]
            with open(os.path.join(at, "events")) as log:
                events = sum(1 for _ in log)
    seconds, processors, most = (statistics.median(t[k] for t in took) for k in range(3))
    outcomes = ", ".join(f"{commands.count(c)} {c}" for c in sorted(set(commands)))
    print(f"{title}: {seconds * 1e3:.0f} ms, {processors:.2f} s of processors, {most:.1f} MiB, {events} events ({outcomes})")


random.seed(7)
even = config("even", 3_000, [1, 1, 1, 1])
scripts, writes = clients("client", 8, 2_500, 3_000)
tell("journals in memory, 20,000 calls", proved_and_ordinary(memory, even, scripts, 20_000, writes), 20_000, writes)
short, short_writes = clients("short", 8, 125, 3_000)
tell("journals on the disk, 1,000 calls", proved_and_ordinary(work, even, short, 1_000, short_writes), 1_000, short_writes)
uneven = config("uneven", 3_000, [2, 1, 1, 1])
alone("20,000 calls and a balance", even, uneven, scripts + [write("balance", ["operator", "balance"])], 20_000)
wide = config("wide", 30_000, [1] * 32)
many, _ = clients("many", 64, 10, 30_000)
# The first 16 sets begin with 937 buckets each, the others with 938. Operator o moves two from set o to the next one.
movers = [write(f"mover{o}", ["operator"] + [f"send {937 * (o - 1) + b} {o} {o + 1}" for b in [1, 2]]) for o in range(1, 17)]
alone("64 clients, 16 operators, 32 sets, 30,000 buckets", wide, wide, many + movers, 640)
PYTHON
python3 "$work/measure.py" "$program" "$work"
