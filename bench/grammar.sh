#!/usr/bin/env bash
# Times the reading of command lines by itself: a small program reads a file of mixed lines into memory, cuts it at the
# line ends, and gives each line to `read_command`. The time is taken within the program, without the reading of the file.
# The program is built outside the checkout, beside copies of the crates that it stands on; a build proves
# these, which takes some minutes, and is kept for as long as they stay the same.
set -eu
lines=${1:-1000000}
top=$(cd "$(dirname "$0")/.." && pwd)
. "$top/bench/built.sh"

write_program() {
    cat >"$1" <<'PROGRAM'
//! Reads each line of the files that are named as a command. Prints how many lines are commands, how many are not, and
//! the microseconds that it took.
#![tactic(auto)]

use command_text::read_command;
use std::time::Instant;
use std::{env, fs, io};

/// The most bytes of a command line.
const LONGEST_LINE: usize = 4096;

fn count_commands(bytes: &[u8]) -> (u64, u64) {
    let mut commands: u64 = 0;
    let mut others: u64 = 0;
    for line in bytes.split(|byte| *byte == b'\n') {
        if line.len() <= LONGEST_LINE && read_command(line).is_ok() {
            commands = commands.wrapping_add(1);
        } else {
            others = others.wrapping_add(1);
        }
    }
    (commands, others)
}

fn main(rt: HostRuntime) -> io::Result<()> {
    let words = env::args(&rt)?.skip(1).collect::<Vec<String>>(rt.alloc())?;
    for word in words.iter() {
        let bytes = fs::read(&rt, word)?;
        let start = Instant::now(&rt)?;
        let (commands, others) = count_commands(bytes.as_slice());
        let taken = start.elapsed(&rt)?.as_micros();
        println!(rt; "{commands} {others} {taken}")?;
    }
    Ok(())
}
PROGRAM
}

uses=command_text
program=$(built read_lines)
work=$(mktemp -d)
trap 'rm -rf "$work"' EXIT
"$top/bench/mixed_lines.sh" "$lines" >"$work/commands"
"$program" "$work/commands" "$work/commands" "$work/commands" |
    awk -v s="$(stat -c %s "$work/commands")" '{
        printf "%d commands, %d other lines, %.1f MB: %.3f s, %.0f lines/s, %.1f MB/s\n",
            $1, $2, s / 1e6, $3 / 1e6, ($1 + $2) / ($3 / 1e6), s / $3
    }'
