#!/usr/bin/env bash
# How many jobs `sumdoril exec` takes, and how many whole lives it performs, a second over a journal in a folder; and beside it the
# disk's own floor: the same writes and syncs, made without the program.
#
#     bench/exec.sh [--opening] FOLDER [PROGRAM]
#
# FOLDER lies on the disk that is measured; what is made there is removed at the end. PROGRAM is crates/sumdoril/out/sumdoril where
# none is named. With --opening the time of `status` over a journal of 100000 finished jobs is taken too; such a journal takes many
# minutes to make.
set -eu
finished=0
if [ "${1-}" = --opening ]; then
    finished=100000
    shift
fi
[ $# -ge 1 ] || { echo "usage: bench/exec.sh [--opening] FOLDER [PROGRAM]" >&2; exit 2; }
program=$(realpath -m "${2-$(dirname "$0")/../crates/sumdoril/out/sumdoril}")
if [ ! -x "$program" ]; then
    echo "skipped: there is no program $program (README.md says how to build it)"
    exit 0
fi
room=$(mktemp -d "$1/sumdoril-bench-XXXXXX")
trap 'rm -rf "$room"' EXIT
printf '[[classes]]\nname = "A"\n' > "$room/queue.toml"
echo "file system: $(stat -f -c %T "$room")"
python3 - "$program" "$room" "$finished" <<'PYTHON'
import json
import os
import subprocess
import sys
import time

program, room, finished = sys.argv[1], sys.argv[2], int(sys.argv[3])
JOBS, LIVES = 2000, 500
JOURNAL = f"{room}/queue.journal"


class Exec:
    """The program, which reads requests from one pipe and writes replies to another."""

    def __init__(self):
        pipe = subprocess.PIPE
        self.process = subprocess.Popen([program, "exec"], cwd=room, stdin=pipe, stdout=pipe)

    def send(self, path, body=""):
        head = f"POST {path} HTTP/1.1\r\nContent-Length: {len(body)}\r\n\r\n"
        self.process.stdin.write((head + body).encode())

    def reply(self):
        self.process.stdin.flush()
        status = self.process.stdout.readline().split()
        if status[1:2] not in ([b"200"], [b"201"]):
            sys.exit(f"the program replied {b' '.join(status).decode()}")
        length = 0
        while (line := self.process.stdout.readline()) != b"\r\n":
            name, _, value = line.partition(b":")
            length = int(value) if name == b"Content-Length" else length
        return json.loads(self.process.stdout.read(length))

    def ask(self, path, body=""):
        self.send(path, body)
        return self.reply()

    def end(self):
        self.process.stdin.close()
        if status := self.process.wait():
            sys.exit(f"the program ended with status {status}")


def envelope(number):
    return json.dumps({"job_class": "A", "job_id": f"job-{number}"}, separators=(",", ":"))


def poll(limit):
    return json.dumps({"limit": limit, "queues": ["*"]})


def enqueue(run, number):
    run.ask("/jobs", envelope(number))


def live(run, pid, number):
    enqueue(run, number)
    job = run.ask(f"/processes/{pid}/poll", poll(1))["jobs"][0]["id"]
    run.ask(f"/processes/{pid}/jobs/{job}/done")


def commit_bare(file, at, record):
    """What an append does: a record after the gate, a sync, the gate, a sync."""
    os.pwrite(file, record, at + 1)
    os.fdatasync(file)
    os.pwrite(file, b"R", at)
    os.fdatasync(file)
    return at + len(record)


def timed(count, step):
    times = []
    for number in range(count):
        begun = time.perf_counter()
        step(number)
        times.append(time.perf_counter() - begun)
    return times


def timed_bare(count, commits, length):
    """The same for so many commits a step, of records of this length."""
    file = os.open(f"{room}/bare", os.O_RDWR | os.O_CREAT | os.O_TRUNC)
    at = 0

    def step(_):
        nonlocal at
        for _ in range(commits):
            at = commit_bare(file, at, bytes(length))

    times = timed(count, step)
    os.close(file)
    return times


def show(name, times, bare):
    def row(name, times):
        times = sorted(times)
        p50, p99 = (1000 * times[len(times) * part // 100] for part in (50, 99))
        print(f"{name:<28}{len(times) / sum(times):>10.1f} a second, p50 {p50:.2f} ms, p99 {p99:.2f} ms", flush=True)

    row(name, times)
    row("  its writes and syncs alone", bare)
    print(f"  {sum(times) / sum(bare):.2f} times as long")


def measure(name, count, commits, step):
    before = os.path.getsize(JOURNAL)
    times = timed(count, step)
    length = (os.path.getsize(JOURNAL) - before) // (count * commits)
    show(name, times, timed_bare(count, commits, length))


def perform_many(run, pid, count):
    """Jobs enqueued, polled and done by hundreds."""
    for number in range(0, count, 100):
        run.ask("/jobs/bulk", "[" + ",".join(envelope(number + it) for it in range(100)) + "]")
        jobs = run.ask(f"/processes/{pid}/poll", poll(100))["jobs"]
        for job in jobs:
            run.send(f"/processes/{pid}/jobs/{job['id']}/done")
        for _ in jobs:
            run.reply()


def register(run):
    return run.ask("/processes", '{"kind":"worker","name":"bench"}')["pid"]


run = Exec()
pid = register(run)
measure(f"{JOBS} enqueues", JOBS, 1, lambda number: enqueue(run, number))
measure(f"{LIVES} lives", LIVES, 3, lambda number: live(run, pid, JOBS + number))
run.end()

if finished:
    os.remove(JOURNAL)
    run = Exec()
    perform_many(run, register(run), finished)
    run.end()
    begun = time.perf_counter()
    text = subprocess.run([program, "status"], cwd=room, stdout=subprocess.PIPE, check=True).stdout
    took = time.perf_counter() - begun
    if f"finished {finished}\n".encode() not in text:
        sys.exit("not all jobs are finished")
    print(f"status over {finished} finished jobs, a journal of {os.path.getsize(JOURNAL)} bytes: {took:.2f} s")
PYTHON
