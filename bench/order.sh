#!/usr/bin/env bash
# How long the calls of an `Order` take, in ns of processor time a call, at 10000 and at 500000 entries that come rising, falling and
# mixed: the inserts, a whole walk by `first_after`, and the removes of every second entry.
#
#     bench/order.sh
#
# The program is written to a temporary folder, and proved and built there over copies of the crates, which takes minutes where they
# weren't proved before. The folder is removed at the end.
set -eu
crates=$(cd "$(dirname "$0")/../crates" && pwd)
room=$(mktemp -d)
trap 'rm -rf "$room"' EXIT
bench=$room/crates/order_bench
mkdir -p "$bench/src" "$bench/proofs/fill"
cp -a "$crates/job_states" "$crates/order_index" "$room/crates"
cd "$room"
echo 'Handles allowed: none.' > HANDLES
printf '%s\n' 'job_states: thiserror' 'order_index: job_states' 'order_bench: order_index' > crates.txt

cat > "$bench/src/main.rt" <<'RATTLE'
//! Measures the calls of an order.
#![tactic(auto)]

ghost use Rattle.std.specs.Prelude.{◌≡◌, ◌≤◌, []};

use order_index::{Entry, Order, what_is_in};
use std::io;
use std::time::{CpuClock, Duration};

#[derive(Clone, Copy)]
enum Way {
    Rising,
    Falling,
    Mixed,
}

fn main(rt: HostRuntime) -> io::Result<()> {
    measure_all(&rt, 10_000)?;
    measure_all(&rt, 500_000)
}

fn measure_all(rt: &HostRuntime, entries: u64) -> io::Result<()> {
    measure(rt, "rising", Way::Rising, entries)?;
    measure(rt, "falling", Way::Falling, entries)?;
    measure(rt, "mixed", Way::Mixed, entries)
}

fn measure(rt: &HostRuntime, name: &str, way: Way, entries: u64) -> io::Result<()> {
    let mut order = Order::new(rt.alloc());
    let insert = time_inserts(rt, &mut order, way, entries)?;
    let step = time_walk(rt, &order)?;
    let remove = time_removes(rt, &mut order, way, entries)?;
    println!(rt;
        "{entries} {name}: insert {insert} ns, step of a walk {step} ns, remove {remove} ns"
    )
}

fn time_inserts(rt: &HostRuntime, order: &mut Order, way: Way, entries: u64) -> io::Result<u128>
    requires { order.old.entries ≡ [] }
{
    let Ok(()) = order.reserve(entries) else {
        return Err(io::ErrorKind::OutOfMemory.into());
    };
    let begun = rt.thread_cpu_time()?;
    fill(order, way, entries);
    time_since(rt, begun, entries)
}

fn time_walk(rt: &HostRuntime, order: &Order) -> io::Result<u128> {
    let begun = rt.thread_cpu_time()?;
    let steps = walk(order);
    time_since(rt, begun, steps)
}

fn time_removes(rt: &HostRuntime, order: &mut Order, way: Way, entries: u64) -> io::Result<u128> {
    let begun = rt.thread_cpu_time()?;
    let removed = remove_every_second(order, way, entries);
    time_since(rt, begun, removed)
}

fn time_since(rt: &HostRuntime, begun: Duration, calls: u64) -> io::Result<u128> {
    let took = rt.thread_cpu_time()?.saturating_sub(begun);
    Ok(took.as_nanos() / u128::from(calls.max(1)))
}

fn fill(order: &mut Order, way: Way, entries: u64)
    requires none { order.old.entries ≡ [] }
    requires room { entries ≤ order.old.spare }
{
    what_is_in();
    for id in 0..entries {
        order.insert(entry(way, id));
    }
}

fn walk(order: &Order) -> u64 {
    let mut next = order.first();
    let mut steps: u64 = 0;
    for _ in 0..order.len() {
        let Some(entry) = next else {
            break;
        };
        next = order.first_after(&entry);
        steps = steps.wrapping_add(1);
    }
    steps
}

fn remove_every_second(order: &mut Order, way: Way, entries: u64) -> u64 {
    let mut removed: u64 = 0;
    for half in 0..entries / 2 {
        if order.remove(&entry(way, 2 * half)) {
            removed = removed.wrapping_add(1);
        }
    }
    removed
}

fn entry(way: Way, id: u64) -> Entry
    ensures { result.id ≡ id }
{
    let group = match way {
        Way::Rising => id,
        Way::Falling => u64::MAX - id,
        Way::Mixed => mix(id),
    };
    Entry {
        group,
        priority: 0,
        id,
    }
}

// Numbers that come one after another, spread over all numbers.
fn mix(id: u64) -> u64 {
    let spread = id.wrapping_mul(6_364_136_223_846_793_005);
    (spread ^ (spread >> 32)).wrapping_mul(6_364_136_223_846_793_005)
}
RATTLE

cat > "$bench/proofs/fill/Invariants.antt" <<'PROOF'
use Rattle.std.proofs.Common.{◌+◌, ◌<◌, ◌≤◌, Contains}
use Rattle.order_index.specs.declared.entry.Entry.{Entry}
use Rattle.order_bench.proofs.fill.Given as goal

abbrev pub invariant-loop-id : goal.invariant-loop-id
invariant-loop-id l = record {
  below : (x : Entry) → Contains l.order.entries x → x.id < l.id;
  room : l.fn.entries ≤ l.order.spare + l.id;
}
PROOF

cat > "$bench/proofs/fill/Answers.antt" <<'PROOF'
use Rattle.std.proofs.Common.{◌≡◌, ◌+◌, ◌<◌, List, Contains, ap, subst, inl, inr, arith}
use Rattle.order_index.specs.declared.entry.Entry.{Entry}
use Rattle.order_bench.proofs.fill.Goals as goal

pub loop-id-preserved : goal.loop-id-preserved
loop-id-preserved c =
    let new = c.entry.result in
    let old = c.loop-id.order.entries in
    record {
      below = λ x there. elim ((c.what_is_in.ensures.inserted new x old).0 (subst (λ (xs : List Entry). Contains xs x) c.insert.ensures.entries there)) [
        | inl same ↦ let id = ap (λ (e : Entry). e.id) same in omega (arith, c.entry.ensures)
        | inr before ↦ let less = c.loop-id.invariant.below x before in omega arith
      ];
      room = omega (arith, c.loop-id.invariant.room, c.insert.ensures.spare);
    }
PROOF

cd "$bench"
rt run > "$room/log" 2>&1 || { cat "$room/log" >&2; exit 1; }
out/order_bench
