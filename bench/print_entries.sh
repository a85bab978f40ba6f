#!/usr/bin/env bash
# Counts the instructions that printing an entry of the journal takes, by valgrind's callgrind.
#
#     bench/print_entries.sh [SCRATCH]
#
# In the scratch folder, which is outside of the repository, it builds a program that prints n
# entries, in turn one with two events, one with a trade over two arcs, an offer, a block, a view,
# two refusals and a withdrawal. It runs it for n = 50000 and n = 100000, and reports the
# instructions of one entry: those of each run by its n, and those of the second half alone, in
# which the program's start has no part.
set -eu
top=$(cd "$(dirname "$(readlink -f "$0")")/.." && pwd)
scratch=${1:-$(mktemp -d)}
crate=$scratch/crates/print_entries

mkdir -p "$crate/src" "$crate/specs" "$crate/proofs"
(cd "$top" && tar cf - --exclude=out crates crates.txt HANDLES) | tar xf - -C "$scratch"
echo 'print_entries: journal_print market_model zone_graph order_kinds' >>"$scratch/crates.txt"

# The setup, the entries, and what shows that they are its own.
{
    cat <<'ENTRIES'
#![tactic(auto)]

ghost use Rattle.std.specs.Prelude.{IsTrue, All};
ghost use Rattle.zone_graph.specs.Name.{IsName};
ghost use Rattle.market_model.specs.Naming.{HasZone, HasArcs, IsNamed, IsEventIn, IsRefusalIn, IsReplyIn, IsEntryIn};

use journal_print::print_entry;
use market_model::{
    Caller, Callers, Command, Entry, Event, Events, Leg, Refusal, Reply, Role, Rows, Setup, ViewRow,
};
use order_kinds::{
    BlockOrder, Contract, Kind, Lots, Order, OrderName, Part, Phase, Price, Quarter, Side,
};
use std::alloc::Global;
use std::test::Fail;
use zone_graph::{Arc, Names, NoMemory, Pairs, Route, Word, Zones, is_name};

// Whether all zones have names.
fn has_zone_names(setup: &Setup) -> bool
    ensures { IsTrue result → All IsName setup.now.zones }
{
    setup
        .zones
        .as_slice()
        .iter()
        .all(|zone| is_name(zone.bytes()))
}

// Whether all callers have names.
fn has_caller_names(setup: &Setup) -> bool
    ensures { IsTrue result → All (λ caller. IsName caller.name) setup.now.callers }
{
    setup
        .callers
        .as_slice()
        .iter()
        .all(|caller| is_name(caller.name.bytes()))
}

// Whether all borders join zones of the setup.
fn has_border_ends(setup: &Setup) -> bool
    ensures { IsTrue result
        → All (λ ends. HasZone setup.now ends.0 × HasZone setup.now ends.1) setup.now.borders }
{
    let zones = setup.zones.len();
    setup.borders.as_slice().iter().all(|ends| (ends.0 as usize) < zones
        && (ends.1 as usize) < zones)
}

// Whether zones and callers have names, and borders join zones of the setup.
fn is_named(setup: &Setup) -> bool
    ensures { IsTrue result → IsNamed setup.now }
{
    has_zone_names(setup) && has_caller_names(setup) && has_border_ends(setup)
}

// Whether a route uses borders of the setup alone.
fn has_arcs(setup: &Setup, route: &Route) -> bool
    ensures { IsTrue result → HasArcs setup.now route.now }
{
    let borders = setup.borders.len();
    route
        .as_slice()
        .iter()
        .all(|arc| (arc.border as usize) < borders)
}

// Whether an event names borders of the setup alone.
fn is_event_in(setup: &Setup, event: &Event) -> bool
    ensures { IsTrue result → IsEventIn setup.now event.now }
{
    let borders = setup.borders.len();
    match event {
        Event::Leg { leg, .. } => has_arcs(setup, &leg.route),
        Event::BlockLeg { leg, .. } => has_arcs(setup, &leg.route),
        Event::Granted { arc, .. } => (arc.border as usize) < borders,
        Event::Offered { arc, .. } => (arc.border as usize) < borders,
        Event::Halted { border, .. } => (*border as usize) < borders,
        Event::Resumed { border, .. } => (*border as usize) < borders,
        Event::Entered { .. } => true,
        Event::EnteredBlock { .. } => true,
        Event::Gated { .. } => true,
        Event::Withdrawn { .. } => true,
        Event::Reduced { .. } => true,
    }
}

// Whether events name borders of the setup alone.
fn are_events_in(setup: &Setup, events: &Events) -> bool
    ensures { IsTrue result → All (IsEventIn setup.now) events.now }
{
    events
        .as_slice()
        .iter()
        .all(|event| is_event_in(setup, event))
}

// Whether all zones are the setup's.
fn has_zones(setup: &Setup, zones: &Zones) -> bool
    ensures { IsTrue result → All (HasZone setup.now) zones.now }
{
    let count = setup.zones.len();
    zones.as_slice().iter().all(|zone| (*zone as usize) < count)
}

// Whether a reply names zones and borders of the setup alone.
fn is_reply_in(setup: &Setup, reply: &Reply) -> bool
    ensures { IsTrue result → IsReplyIn setup.now reply.now }
{
    match reply {
        Reply::Done(events) => are_events_in(setup, events),
        Reply::Seen(_) => true,
        Reply::Refused(Refusal::Unfilled { zones, .. }) => has_zones(setup, zones),
        Reply::Refused(Refusal::BasketUnfilled { zones, .. }) => has_zones(setup, zones),
        Reply::Refused(_) => true,
    }
}

// Whether an entry is of the setup's.
fn is_entry_in(setup: &Setup, entry: &Entry) -> bool
    ensures { IsTrue result → IsEntryIn setup.now entry.now }
{
    (entry.caller as usize) < setup.callers.len() && is_reply_in(setup, &entry.reply)
}

fn caller(alloc: Global, name: &[u8], role: Role) -> Result<Caller, NoMemory> {
    Ok(Caller {
        name: Word::new(alloc, name)?,
        role,
        room: 16,
    })
}

// Two zones and a border, three traders and an operator.
fn two_zones(alloc: Global) -> Result<Setup, NoMemory> {
    let mut zones = Names::new(alloc);
    zones.push(Word::new(alloc, b"DE")?)?;
    zones.push(Word::new(alloc, b"FR")?)?;
    let mut borders = Pairs::new(alloc);
    borders.push((0, 1))?;
    let mut callers = Callers::new(alloc);
    callers.push(caller(alloc, b"ann", Role::Trader)?)?;
    callers.push(caller(alloc, b"bob", Role::Trader)?)?;
    callers.push(caller(alloc, b"cat", Role::Trader)?)?;
    callers.push(caller(alloc, b"tso", Role::Operator)?)?;
    Ok(Setup {
        hours: 24,
        zones,
        borders,
        callers,
    })
}


const H10_1: OrderName = OrderName {
    hour: 10,
    number: 1,
};

const H10_2: OrderName = OrderName {
    hour: 10,
    number: 2,
};

const H12_1: OrderName = OrderName {
    hour: 12,
    number: 1,
};

const H12_2: OrderName = OrderName {
    hour: 12,
    number: 2,
};

const ARC: Arc = Arc {
    border: 0,
    forward: true,
};

const BACK: Arc = Arc {
    border: 0,
    forward: false,
};

fn quarter(hour: u32, number: u32) -> Quarter {
    Quarter { hour, number }
}

fn entered(name: OrderName, part: Part) -> Event {
    Event::Entered {
        name,
        caller: 0,
        order: Order {
            contract: Contract {
                hour: name.hour,
                part,
            },
            zone: 0,
            side: Side::Sell,
            price: Price(4000),
            quantity: Lots(40),
            kind: Kind::Limit,
        },
    }
}

fn trade(
    alloc: Global,
    taker: OrderName,
    maker: OrderName,
    lots: u32,
    cents: i32,
    arcs: &[Arc],
) -> Result<Leg, NoMemory> {
    Ok(Leg {
        taker,
        maker,
        lots,
        price: Price(cents),
        route: Route::from(Vec::from_slice(alloc, arcs)?),
    })
}

fn leg(hour: u32, leg: Leg) -> Event {
    let contract = Contract {
        hour,
        part: Part::Hour,
    };
    Event::Leg { contract, leg }
}

fn done<const N: usize>(alloc: Global, events: [Event; N]) -> Result<Reply, NoMemory> {
    Ok(Reply::Done(Events::from(Vec::from_array(alloc, events)?)))
}
ENTRIES
    cat <<'PROGRAM'
use std::env;

fn entries(alloc: Global) -> Result<Vec<Entry>, NoMemory> {
    let home = trade(alloc, H12_2, H12_1, 40, 5000, &[])?;
    let away = trade(alloc, H12_2, H12_1, 5, -1, &[BACK, ARC])?;
    let blocks = trade(alloc, H10_2, H10_1, 50, 4000, &[ARC])?;
    let offered = Event::Offered { arc: BACK, first: quarter(12, 3), last: quarter(12, 4), lots: 49 };
    let rows = [ViewRow { price: Price(4000), lots: 40 }, ViewRow { price: Price(4500), lots: 20 }];
    let zones = Zones::from(Vec::from_array(alloc, [0, 1])?);
    let replies = [
        done(alloc, [entered(H12_2, Part::Hour), leg(12, home)])?,
        done(alloc, [leg(12, away)])?,
        done(alloc, [offered])?,
        done(alloc, [Event::BlockLeg { first: 10, last: 13, leg: blocks }])?,
        Reply::Seen(Rows::from(Vec::from_array(alloc, rows)?)),
        Reply::Refused(Refusal::Unfilled { zones, bound: 30 }),
        Reply::Refused(Refusal::UnknownHour),
        done(alloc, [Event::Withdrawn { name: H12_1, lots: 100 }])?,
    ];
    let mut entries = Vec::new(alloc);
    for reply in replies {
        let command = Command::Blocks { first: 1, last: 2 };
        entries.push(Entry { caller: 0, nth: 1, command, reply })?;
    }
    Ok(entries)
}

// How many bytes the lines of n entries have.
fn printed(alloc: Global, setup: &Setup, entries: &[Entry], n: u64) -> Result<u64, NoMemory> {
    let mut bytes = 0u64;
    if entries.is_empty() || !is_named(setup) {
        return Ok(bytes);
    }
    for place in 0..n {
        let entry = &entries[(place % entries.len() as u64) as usize];
        if is_entry_in(setup, entry) {
            bytes = bytes.wrapping_add(print_entry(alloc, setup, place, entry)?.bytes().len() as u64);
        }
    }
    Ok(bytes)
}

fn main(rt: HostRuntime) -> Result<(), Fail> {
    let alloc = rt.alloc();
    let n = env::args(&rt)?.skip(1).next().and_then(|word| word.as_str().parse::<u64>().ok());
    let bytes = printed(alloc, &two_zones(alloc)?, entries(alloc)?.as_slice(), n.unwrap_or(0))?;
    println!(rt; "{bytes}")?;
    Ok(())
}
PROGRAM
} >"$crate/src/main.rt"

(cd "$crate" && rt run -- 0) >"$scratch/build.log" 2>&1 || { cat "$scratch/build.log"; exit 1; }

# The instructions of a run that prints n entries.
instructions() {
    valgrind --tool=callgrind --callgrind-out-file="$scratch/callgrind.$1" "$crate/out/print_entries" "$1" 2>&1 >/dev/null |
        sed -n 's/.*Collected : //p'
}

half=$(instructions 50000)
whole=$(instructions 100000)
echo "n = 50000: $((half / 50000)) instructions an entry"
echo "n = 100000: $((whole / 100000)) instructions an entry"
echo "the second 50000: $(((whole - half) / 50000)) instructions an entry"
