#!/usr/bin/env bash
# Counts the instructions that the calls of the books take, by valgrind's callgrind, at 10 and at 4000
# open orders or blocks.
#
#     bench/books.sh [SCRATCH]
#
# In the scratch folder, which is outside of the repository, it builds a program that fills a book and
# then makes a step 1000 times: a call, or calls that undo each other. The count of a step is by how much
# that run is longer than one that makes 1000 empty steps. A call that asks for an order that rests, or
# for a number that is free, has a `get` before it in the program, which is taken off again.
set -eu
top=$(cd "$(dirname "$(readlink -f "$0")")/.." && pwd)
scratch=${1:-$(mktemp -d)}
crate=$scratch/crates/count_books

mkdir -p "$crate/src" "$crate/specs" "$crate/proofs"
(cd "$top" && tar cf - --exclude=out crates crates.txt HANDLES) | tar xf - -C "$scratch"
echo 'count_books: contract_book block_book order_kinds' >>"$scratch/crates.txt"

cat >"$crate/src/main.rt" <<'PROGRAM'
#![tactic(auto)]

mod blocks;
mod orders;

use std::env;
use std::test::Fail;

fn number_of(word: Option<String>) -> Option<u32> {
    word?.as_str().parse().ok()
}

fn main(rt: HostRuntime) -> Result<(), Fail> {
    let alloc = rt.alloc();
    let mut words = env::args(&rt)?.skip(1);
    let Some(word) = words.next() else {
        return Ok(());
    };
    let open = number_of(words.next()).unwrap_or(1).clamp(1, 4000);
    let times = number_of(words.next()).unwrap_or(0);
    let sum = match word.as_str().split_once(':') {
        Some(("orders", step)) => orders::count(alloc, step, open, times)?,
        Some(("blocks", step)) => blocks::count(alloc, step, open, times)?,
        _ => 0,
    };
    println!(rt; "{sum}")?;
    Ok(())
}
PROGRAM

cat >"$crate/src/orders.rt" <<'PROGRAM'
//! Calls of a book of orders.

ghost use Rattle.std.specs.Prelude.{◌≡◌, ◌<◌, ◌≤◌, ◌≤ℤ◌, pos, negsuc};
ghost use Rattle.contract_book.specs.Book.{parts_of};
ghost use Rattle.contract_book.specs.Resting.{IsSound};

use contract_book::{ContractBook, Ice, Resting};
use order_kinds::{Price, Side};
use std::alloc::Global;
use std::test::Fail;

#[derive(Clone, Copy)]
enum Call {
    Nothing,
    Get,
    GetNone,
    First,
    After,
    Reduce,
    Fill,
    Renew,
    Emptied,
    NewPeak,
    Middle,
    Copy,
}

fn call_of(word: &str) -> Call {
    match word {
        "get" => Call::Get,
        "get_none" => Call::GetNone,
        "first" => Call::First,
        "after" => Call::After,
        "reduce" => Call::Reduce,
        "fill" => Call::Fill,
        "renew" => Call::Renew,
        "emptied" => Call::Emptied,
        "new_peak" => Call::NewPeak,
        "middle" => Call::Middle,
        "copy" => Call::Copy,
        _ => Call::Nothing,
    }
}

// An order of so many lots: sells and buys by turns.
fn order(number: u32, left: u32, moment: u32) -> Resting
    requires { 1 ≤ left }
    ensures left { result.left ≡ left }
    ensures price { result.price.0 ≡ pos 4000 }
    ensures sound { IsSound result }
{
    Resting {
        number,
        caller: 0,
        zone: 0,
        side: side_of(number),
        price: Price(4000),
        left,
        shown: left,
        moment: u64::from(moment),
        ice: None,
    }
}

// The order as an iceberg that shows one of its lots.
fn iced(order: Resting) -> Resting
    requires some { 0 < order.left }
    requires few { order.left < 100 }
    requires low { negsuc 9999 ≤ℤ order.price.0 }
    requires high { order.price.0 ≤ℤ pos 10000 }
    ensures { IsSound result }
{
    Resting {
        shown: order.left.min(1),
        ice: Some(Ice {
            price: order.price,
            total: order.left,
            peak: 1,
            delta: 0,
            filled: 0,
        }),
        ..order
    }
}

// A book of one part, in which so many orders rest.
#[derive(Drop)]
struct Open {
    book: ContractBook,
    resting: u32,
    ghost one: { parts_of book ≡ 1 },
}

fn told(order: Option<Resting>) -> u32 {
    order.map_or(0, |order| order.number)
}

impl Open {
    fn new(alloc: Global, open: u32) -> Result<Open, Fail> {
        let book = ContractBook::new(alloc, 1)?;
        let mut all = Open {
            book,
            resting: open,
        };
        for number in 0..open {
            all.rest(order(number, 1000000, number));
        }
        Ok(all)
    }

    fn rest(&mut self, order: Resting)
        requires { IsSound order }
    {
        if self.book.get(order.number).is_none() {
            let _ = self.book.rest(0, order);
        }
    }

    fn after(&self, number: u32) -> u32 {
        if self.book.get(number).is_some() {
            told(self.book.after(number))
        } else {
            0
        }
    }

    fn fill(&mut self, number: u32, moment: u32) {
        if let Some(order) = self.book.get(number) {
            if 1 <= order.shown {
                self.book.fill(number, 1, u64::from(moment));
            }
        }
    }

    fn reduce(&mut self, number: u32) {
        if let Some(order) = self.book.get(number) {
            if order.ice.is_none() && 1 < order.left {
                self.book.reduce(number, 1);
            }
        }
    }

    // Withdraws an order of the book, and rests it at the end of its line.
    fn renew(&mut self, number: u32, moment: u32) {
        let _ = self.book.withdraw(number);
        self.rest(order(number, 1000000, moment));
    }

    // Rests an order at the end of its line, and fills all of it.
    fn empty(&mut self, moment: u32) {
        let number = self.resting;
        self.rest(order(number, 1, moment));
        self.fill(number, moment);
    }

    // Rests an iceberg at the end of its line, fills its first peak, and withdraws what is left.
    fn show_next_peak(&mut self, moment: u32) {
        let number = self.resting;
        self.rest(iced(order(number, 2, moment)));
        self.fill(number, moment);
        let _ = self.book.withdraw(number);
    }

    // Rests an order in the middle of its line, and withdraws it.
    fn visit_middle(&mut self) {
        let number = self.resting;
        self.rest(order(number, 1, number / 2));
        let _ = self.book.withdraw(number);
    }

    // Makes a step, and says something of what it answers.
    fn make(&mut self, call: Call, number: u32, moment: u32) -> Result<u32, Fail> {
        match call {
            Call::Nothing => {}
            Call::Get => return Ok(told(self.book.get(number))),
            Call::GetNone => return Ok(told(self.book.get(self.resting))),
            Call::First => return Ok(told(self.book.first(0, side_of(number)))),
            Call::After => return Ok(self.after(number)),
            Call::Reduce => self.reduce(number),
            Call::Fill => self.fill(number, moment),
            Call::Renew => self.renew(number, moment),
            Call::Emptied => self.empty(moment),
            Call::NewPeak => self.show_next_peak(moment),
            Call::Middle => self.visit_middle(),
            Call::Copy => return Ok(self.book.copy()?.len()),
        }
        Ok(number)
    }
}

fn side_of(number: u32) -> Side {
    if number % 2 == 0 {
        Side::Sell
    } else {
        Side::Buy
    }
}

// Fills a book and makes so many steps, at orders one after the other.
pub fn count(alloc: Global, word: &str, open: u32, times: u32) -> Result<u32, Fail> {
    let call = call_of(word);
    let mut all = Open::new(alloc, open)?;
    let mut sum = 0u32;
    let all_orders = open.max(1);
    for step in 0..times {
        let number = step % all_orders;
        let moment = open.saturating_add(step);
        sum = sum.wrapping_add(all.make(call, number, moment)?);
    }
    Ok(sum)
}
PROGRAM

cat >"$crate/src/blocks.rt" <<'PROGRAM'
//! Calls of a book of blocks.

use block_book::{BlockBook, RestingBlock};
use order_kinds::{Price, Side};
use std::alloc::Global;
use std::test::Fail;

#[derive(Clone, Copy)]
enum Call {
    Nothing,
    Get,
    GetNone,
    First,
    FirstAny,
    After,
    AfterAny,
    Renew,
    Middle,
    Copy,
}

fn call_of(word: &str) -> Call {
    match word {
        "get" => Call::Get,
        "get_none" => Call::GetNone,
        "first" => Call::First,
        "first_any" => Call::FirstAny,
        "after" => Call::After,
        "after_any" => Call::AfterAny,
        "renew" => Call::Renew,
        "middle" => Call::Middle,
        "copy" => Call::Copy,
        _ => Call::Nothing,
    }
}

// A sell of one of two periods and of one of two quantities.
fn block(number: u32, moment: u32) -> RestingBlock {
    RestingBlock {
        number,
        caller: 0,
        zone: 0,
        side: Side::Sell,
        price: Price(4000),
        quantity: 10 + number / 2 % 2,
        last: 14 + number % 2,
        moment: u64::from(moment),
    }
}

// A book in which so many blocks rest.
#[derive(Drop)]
struct Open {
    book: BlockBook,
    resting: u32,
}

fn told(block: Option<RestingBlock>) -> u32 {
    block.map_or(0, |block| block.number)
}

impl Open {
    fn new(alloc: Global, open: u32) -> Result<Open, Fail> {
        let book = BlockBook::new(alloc)?;
        let mut all = Open {
            book,
            resting: open,
        };
        for number in 0..open {
            all.rest(block(number, number));
        }
        Ok(all)
    }

    fn rest(&mut self, block: RestingBlock) {
        if self.book.get(block.number).is_none() {
            let _ = self.book.rest(block);
        }
    }

    fn after(&self, number: u32) -> u32 {
        if self.book.get(number).is_some() {
            told(self.book.after(number))
        } else {
            0
        }
    }

    fn after_any(&self, number: u32) -> u32 {
        if self.book.get(number).is_some() {
            told(self.book.after_any(number))
        } else {
            0
        }
    }

    // Withdraws a block of the book, and rests it at the ends of its lines.
    fn renew(&mut self, number: u32, moment: u32) {
        let _ = self.book.withdraw(number);
        self.rest(block(number, moment));
    }

    // Rests a block in the middle of its lines, and withdraws it.
    fn visit_middle(&mut self) {
        let number = self.resting;
        self.rest(block(number, number / 2));
        let _ = self.book.withdraw(number);
    }

    // Makes a step, and says something of what it answers.
    fn make(&mut self, call: Call, number: u32, moment: u32) -> Result<u32, Fail> {
        match call {
            Call::Nothing => {}
            Call::Get => return Ok(told(self.book.get(number))),
            Call::GetNone => return Ok(told(self.book.get(self.resting))),
            Call::First => return Ok(told(self.book.first(14 + number % 2, 10, Side::Sell))),
            Call::FirstAny => return Ok(told(self.book.first_any(14 + number % 2, Side::Sell))),
            Call::After => return Ok(self.after(number)),
            Call::AfterAny => return Ok(self.after_any(number)),
            Call::Renew => self.renew(number, moment),
            Call::Middle => self.visit_middle(),
            Call::Copy => return Ok(self.book.copy()?.len()),
        }
        Ok(number)
    }
}

// Fills a book and makes so many steps, at blocks one after the other.
pub fn count(alloc: Global, word: &str, open: u32, times: u32) -> Result<u32, Fail> {
    let call = call_of(word);
    let mut all = Open::new(alloc, open)?;
    let mut sum = 0u32;
    let all_blocks = open.max(1);
    for step in 0..times {
        let number = step % all_blocks;
        let moment = open.saturating_add(step);
        sum = sum.wrapping_add(all.make(call, number, moment)?);
    }
    Ok(sum)
}
PROGRAM

(cd "$crate" && rt run) >"$scratch/build.log" 2>&1 || { cat "$scratch/build.log"; exit 1; }

declare -A counted

# The instructions of a run that makes a step 1000 times with so many open.
instructions() {
    valgrind --tool=callgrind --callgrind-out-file="$scratch/callgrind.out" "$crate/out/count_books" "$1" "$2" 1000 2>&1 >/dev/null |
        sed -n 's/.*Collected : //p'
}

# Counts a step with so many open, if it is not counted yet: by how much its run is longer than one of empty steps.
count() {
    local run=$1,$2 empty=${1%%:*}:nothing,$2
    for each in "$run" "$empty"; do
        [ -n "${counted[$each]:-}" ] || counted[$each]=$(instructions "${each%,*}" "$2")
    done
    counted[step:$run]=$(((counted[$run] - counted[$empty]) / 1000))
}

# A row of the table: what is counted, the step, and the steps that are taken off.
row() {
    local line book=${2%%:*} open count_of
    line=$(printf '%-48s' "$1")
    for open in 10 4000; do
        count "$2" "$open"
        count_of=${counted[step:$2,$open]}
        for less in "${@:3}"; do
            count "$book:$less" "$open"
            count_of=$((count_of - counted[step:$book:$less,$open]))
        done
        line+=$(printf '%12d' "$count_of")
    done
    echo "$line"
}

printf '%-48s%12s%12s\n' 'instructions of a call' 'at 10' 'at 4000'
row 'orders: get' orders:get
row 'orders: get, no order has the number' orders:get_none
row 'orders: first' orders:first
row 'orders: after' orders:after get
row 'orders: reduce' orders:reduce get
row 'orders: fill that empties nothing' orders:fill get
row 'orders: withdraw, and rest at the end' orders:renew get_none
row 'orders: rest at the end, and fill of all of it' orders:emptied get_none get
row 'orders: rest at the end, fill of a peak, withdraw' orders:new_peak get_none get
row 'orders: rest in the middle, and withdraw' orders:middle get_none
row 'orders: copy' orders:copy
row 'blocks: get' blocks:get
row 'blocks: get, no block has the number' blocks:get_none
row 'blocks: first' blocks:first
row 'blocks: first_any' blocks:first_any
row 'blocks: after' blocks:after get
row 'blocks: after_any' blocks:after_any get
row 'blocks: withdraw, and rest at the end' blocks:renew get_none
row 'blocks: rest in the middle, and withdraw' blocks:middle get_none
row 'blocks: copy' blocks:copy
