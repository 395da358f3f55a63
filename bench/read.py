"""Times the reading of one scenario file: bench_read, serde_json of Rust, and Python's json, in turn."""

import json
import os
import statistics
import subprocess
import sys
import tempfile
import time

# A file may have this many bytes.
MOST = 4_194_304
REGISTRY = "/usr/share/cargo/registry"

RUST = """
use std::time::Instant;

fn main() {
    let mut words = std::env::args().skip(1);
    let bytes = std::fs::read(words.next().unwrap()).unwrap();
    let turns: u32 = words.next().unwrap().parse().unwrap();
    let start = Instant::now();
    let mut sum = 0;
    for _ in 0..turns {
        let value: serde_json::Value = serde_json::from_slice(&bytes).unwrap();
        sum += value["clients"].as_array().unwrap().len();
    }
    println!("rust {} {} {} {}", turns, bytes.len(), sum, start.elapsed().as_nanos());
}
"""


def action(k, j):
    """An action of about 390 bytes and 64 nodes over four objects."""
    reads = [k * 64 + (j * 7 + n * 11) % 64 for n in range(4)]
    reads = sorted(set(reads))
    names = " ".join(map(str, reads))
    sets = " ".join(
        f"set @{o}.{n % 4} ((@{o}.{n % 4} + {n + j}) max (@{reads[0]}.0 - {j * 1000003}));"
        for n in range(4)
        for o in reads[:2]
    )
    return f"reads {names} writes {names} at {j} {k} {{ {sets} }}"


def scenario():
    """A scenario with 32 clients of 256 steps, 4,096 objects of four numbers, and the greatest schedule; as near to the most bytes as fits."""
    objects = [[o, o * 1000003, -o, 9223372036854775807 - o] for o in range(4096)]
    clients = [
        {
            "interest": [k * 64 + n for n in range(64)],
            "steps": [{"act": action(k, j)} for j in range(256)],
        }
        for k in range(32)
    ]
    schedule = [f"{'cst'[n % 3]}{n % 32}" for n in range(16384)]
    whole = {"attrs": 4, "objects": objects, "bound": 32, "clients": clients, "schedule": schedule}
    while len(json.dumps(whole)) > MOST:
        for client in clients:
            client["steps"].pop()
    text = json.dumps(whole)
    return text + " " * (MOST - len(text))


def rust(folder):
    """Builds the program of Rust, or gives None where there is no serde_json."""
    if not os.path.isdir(REGISTRY):
        return None
    os.makedirs(f"{folder}/rust/src")
    os.makedirs(f"{folder}/rust/.cargo")
    with open(f"{folder}/rust/src/main.rs", "w") as it:
        it.write(RUST)
    with open(f"{folder}/rust/Cargo.toml", "w") as it:
        it.write('[package]\nname = "reader"\nversion = "0.1.0"\nedition = "2021"\n[dependencies]\nserde_json = "1"\n[profile.release]\nopt-level = 3\nlto = true\n')
    with open(f"{folder}/rust/.cargo/config.toml", "w") as it:
        it.write(f'[source.crates-io]\nreplace-with = "debian"\n[source.debian]\ndirectory = "{REGISTRY}"\n')
    built = subprocess.run(["cargo", "build", "--release", "--offline", "-q"], cwd=f"{folder}/rust")
    return f"{folder}/rust/target/release/reader" if built.returncode == 0 else None


def rate(program, path, turns):
    """Bytes in a second, in millions."""
    printed = subprocess.run([program, path, str(turns)], check=True, capture_output=True, text=True).stdout
    _, turns, count, _, nanos = printed.split()
    return int(turns) * int(count) * 1000 / int(nanos)


def python_rate(path, turns):
    with open(path, "rb") as it:
        data = it.read()
    start = time.perf_counter_ns()
    for _ in range(turns):
        json.loads(data)
    return turns * len(data) * 1000 / (time.perf_counter_ns() - start)


def main(program, rounds):
    with tempfile.TemporaryDirectory() as folder:
        path = f"{folder}/scenario.json"
        text = scenario()
        with open(path, "w") as it:
            it.write(text)
        beside = rust(folder)
        ways = {"Here: the whole scenario": lambda: rate(program, path, 3), "Python: json alone": lambda: python_rate(path, 3)}
        if beside:
            ways["Rust: serde_json's Value alone"] = lambda: rate(beside, path, 3)
        rates = {name: [] for name in ways}
        for _ in range(rounds):
            for name, way in ways.items():
                rates[name].append(way())
        print(f"{len(text)} bytes")
        print("| Reader | MB/s: best | median |")
        print("|---|---|---|")
        for name, found in rates.items():
            print(f"| {name} | {max(found):.1f} | {statistics.median(found):.1f} |")


if __name__ == "__main__":
    main(sys.argv[1], int(sys.argv[2]))
