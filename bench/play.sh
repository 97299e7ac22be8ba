#!/usr/bin/env bash
# Plays lists of events with the proved program and with an ordinary Rust program, in one go. Both read the same files (a configuration
# of four sets, eight clients, and the events of their calls) and put out the same report. It prints the best time of each, their ratio
# and the memory that each takes; how the time grows from 100,000 to 400,000 events, and from 3,000 to 30,000 buckets; and, where there
# is `valgrind`, how the number of instructions does, which is the same in each run. It needs `rt`, `rustc` and `python3`, and takes
# some minutes the first time.
set -e
top=$(cd "$(dirname "${BASH_SOURCE[0]}")/.." && pwd)
work=$(mktemp -d)
trap 'rm -rf "$work"' EXIT

# ---- the ordinary program
rustc --edition 2021 -C opt-level=3 -o "$work/plain" "$top/bench/plain.rs"

# ---- the proved program, built where it isn't
cat >"$work/measure.py" <<'PYTHON'
import filecmp, os, random, re, resource, shutil, subprocess, sys, tempfile, time

top, work = sys.argv[1:]
journals = "/dev/shm" if os.path.isdir("/dev/shm") else work
program = os.path.join(top, "crates/vshard/out/vshard")


def inputs(name, calls, buckets):
    """Eight clients with so many calls in all, and the five events of each."""
    random.seed(7)
    folder = os.path.join(work, name)
    os.makedirs(folder)
    with open(os.path.join(folder, "config"), "w") as out:
        out.write(f"bucket_count = {buckets}\n")
        for x in range(1, 5):
            out.write(f'[[set]]\nuuid = "00000000-0000-4000-8000-00000000000{x}"\n')
    scripts, sets = [], []
    for _ in range(8):
        lines, at = [], []
        for _ in range(calls // 8):
            b, k, v = random.randint(1, buckets), f"k{random.randint(0, 99)}", f"v{random.randint(0, 999)}"
            calls_of = [f"ro {b} get {k}", f"rw {b} put {k} {v}", f"rw {b} insert {k} {v} ; count", f"ro {b} count ; scan {k} 5"]
            lines.append(random.choices(calls_of, [3, 3, 3, 1])[0])
            at.append((b - 1) // (buckets // 4) + 1)
        scripts.append(lines)
        sets.append(at)
    with open(os.path.join(folder, "events"), "w") as out:
        for i in range(calls // 8):
            for kind in ["post", "begin", "act", "end", "take"]:
                for c in range(8):
                    out.write(f"post {c + 1} {sets[c][i]}\n" if kind == "post" else f"{kind} {c + 1}\n")
    names = [os.path.join(folder, "config"), os.path.join(folder, "events")]
    for c in range(8):
        names.append(os.path.join(folder, f"client{c + 1}"))
        with open(names[-1], "w") as out:
            out.write("client\n" + "".join(line + "\n" for line in scripts[c]))
    return names


def measure(command, names, out):
    """The least time of five runs in milliseconds, each over new journals in memory, and the most memory in MiB."""
    best, most = None, 0
    for _ in range(5):
        with open(out, "wb") as file, tempfile.TemporaryDirectory(dir=journals) as at:
            begun = time.perf_counter()
            child = subprocess.Popen([command, "play"] + names, stdout=file, cwd=at)
            _, status, used = os.wait4(child.pid, 0)
            took = (time.perf_counter() - begun) * 1e3
        assert status == 0, command
        best = took if best is None else min(best, took)
        most = max(most, used.ru_maxrss / 1024)
    return best, most


def instructions(names):
    """How many instructions the proved program takes."""
    command = ["valgrind", "--tool=callgrind", "--callgrind-out-file=/dev/null", program, "play"]
    with tempfile.TemporaryDirectory(dir=journals) as at:
        said = subprocess.run(command + names, stdout=subprocess.DEVNULL, stderr=subprocess.PIPE, check=True, cwd=at).stderr.decode()
    return int(re.search(r"Collected : (\d+)", said).group(1))


def both(title, calls, buckets):
    """The time of the proved program, and its inputs."""
    names = inputs(title.replace(" ", "_"), calls, buckets)
    proved = measure(program, names, os.path.join(work, "proved.out"))
    plain = measure(os.path.join(work, "plain"), names, os.path.join(work, "plain.out"))
    assert filecmp.cmp(os.path.join(work, "proved.out"), os.path.join(work, "plain.out"), shallow=False), "the reports differ"
    print(f"{title}: proved {proved[0]:.1f} ms {proved[1]:.1f} MiB, ordinary {plain[0]:.1f} ms {plain[1]:.1f} MiB, "
          f"time {proved[0] / plain[0]:.2f}, memory {proved[1] / plain[1]:.2f}")
    return proved[0], names


small, small_names = both("100,000 events, 3,000 buckets", 20_000, 3_000)
large, large_names = both("400,000 events, 3,000 buckets", 80_000, 3_000)
wide, wide_names = both("400,000 events, 30,000 buckets", 80_000, 30_000)
print(f"four times the events: {large / small:.2f} times the time; ten times the buckets: {wide / large:.2f} times")
if shutil.which("valgrind"):
    small, large, wide = instructions(small_names), instructions(large_names), instructions(wide_names)
    print(f"by instructions: {large / small:.2f} times; {wide / large:.2f} times")
PYTHON
(cd "$work" && "$top/vshard" play "$top/examples/first/config.toml" "$top/examples/first/events.txt" "$top/examples/first/client.txt" >/dev/null)
python3 "$work/measure.py" "$top" "$work"
