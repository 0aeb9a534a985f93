#!/usr/bin/env bash
# Times the search for the least free centre by itself: maps of 63 fibres and 1,024 units are filled in three ways, and
# `lowest` is called for routes of 1, 6 and 63 fibres. The time is taken within the program, around many calls in a row.
# The program is built outside the checkout, beside copies of the crates that it stands on, and takes its maps from
# `spectrum_rows`; a build proves these, which takes some minutes, and is kept for as long as they stay the same.
set -eu
calls=${1:-100000}
top=$(cd "$(dirname "$0")/.." && pwd)
. "$top/bench/built.sh"

write_program() {
    cat >"$1" <<'PROGRAM'
//! Prints for each way to fill the maps and each length of a route: the way, the length, the width, how many calls gave the
//! same answer, the nanoseconds of all calls, and the centre.
#![tactic(auto)]

mod sheet;

use flex_grid::band::Band;
use flex_grid::units::Units;
use sheet::{Change, Sheet};
use std::time::Instant;
use std::{env, io};

/// The fibres of the maps.
const FIBRES: u8 = 63;

/// The lowest unit of the band, and the highest.
const LOWEST: i16 = -512;
const HIGHEST: i16 = 511;

/// How the maps are filled.
#[derive(Clone, Copy)]
enum Filling {
    /// Nothing is lit.
    Empty,
    /// All units but the highest sixteen are lit.
    Full,
    /// Of each nine units, one is lit.
    Broken,
}

impl Filling {
    fn name(self) -> &'static str {
        match self {
            Filling::Empty => "empty",
            Filling::Full => "full",
            Filling::Broken => "broken",
        }
    }

    fn lights(self, unit: i16) -> bool {
        match self {
            Filling::Empty => false,
            Filling::Full => unit < 496,
            Filling::Broken => unit < 496 && unit.rem_euclid(9) == 0,
        }
    }
}

fn fill(sheet: &mut Sheet, filling: Filling) {
    for fibre in 0..FIBRES {
        for unit in LOWEST..=HIGHEST {
            if filling.lights(unit) {
                if let Some(units) = Units::make(unit, unit) {
                    let _ = sheet.change(Change::Light, fibre, units);
                }
            }
        }
    }
}

fn route(rt: &HostRuntime, fibres: u8) -> io::Result<Vec<u8>> {
    Ok((0..fibres).collect::<Vec<u8>>(rt.alloc())?)
}

fn time(rt: &HostRuntime, sheet: &Sheet, filling: Filling, fibres: u8, m: u16, calls: u64) -> io::Result<()> {
    let route = route(rt, fibres)?;
    let found = sheet.lowest(route.as_slice(), m, LOWEST);
    let start = Instant::now(rt)?;
    let mut same: u64 = 0;
    for _ in 0..calls {
        if sheet.lowest(route.as_slice(), m, LOWEST) == found {
            same = same.wrapping_add(1);
        }
    }
    let taken = start.elapsed(rt)?.as_nanos();
    print!(rt; "{} {fibres} {m} {same} {taken} ", filling.name())?;
    match found {
        Some(n) => println!(rt; "{n}"),
        None => println!(rt; "none"),
    }
}

fn time_all(rt: &HostRuntime, band: Band, filling: Filling, calls: u64) -> io::Result<()> {
    let mut sheet = Sheet::new(rt.alloc(), band, FIBRES)?;
    fill(&mut sheet, filling);
    for fibres in [1, 6, 63] {
        time(rt, &sheet, filling, fibres, 4, calls)?;
        time(rt, &sheet, filling, fibres, 32, calls)?;
    }
    Ok(())
}

fn main(rt: HostRuntime) -> io::Result<()> {
    let word = env::args(&rt)?.nth(1);
    let calls = word.and_then(|word| word.as_str().parse::<u64>().ok()).unwrap_or(1);
    let Some(band) = Band::make(LOWEST, HIGHEST) else {
        return Ok(());
    };
    for filling in [Filling::Empty, Filling::Full, Filling::Broken] {
        time_all(&rt, band, filling, calls)?;
    }
    Ok(())
}
PROGRAM
}

program=$(built spectrum_rows row.rt)
"$program" "$calls" | awk '{
    printf "%-6s %2d fibres, width %2d: centre %s, %.0f ns a call\n", $1, $2, $3, $6, $5 / $4
}'
