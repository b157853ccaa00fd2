#!/usr/bin/env python3
"""Times Gaussian numbers of small and large variances.

A million numbers are drawn from the ChaCha20 words of a seed, by a program that is made, proved and built in a temporary
folder outside the repository.  Prints for each variance the nanoseconds and the words of one number, and the mean of the
squares, which is near the variance.  Usage: bench/draws.py
"""
import pathlib
import sys
import tempfile

from made import best_of, build

VARIANCES = [1, 16, 10_000]
DRAWS = 1_000_000
MOST_OFF = 0.01

PROGRAM = r'''
//! Draws Gaussian numbers of a variance, again and again.
//! Words: the variance, and how many times. It prints how often there was a number, the words taken and the sum of squares.
#![tactic(auto)]

use std::{env, io};
use tda_frac::Frac;
use tda_noise::{Draw, gaussian};
use tda_words::{SeedWords, Words};

#[derive(Clone, Copy)]
struct Sums {
    drawn: u32,
    squares: u128,
    words: u64,
}

fn add(sums: Sums, number: i64) -> Sums {
    let size = u128::from(number.unsigned_abs());
    Sums {
        drawn: sums.drawn.wrapping_add(1),
        squares: sums.squares.wrapping_add(size * size),
        words: sums.words,
    }
}

fn draw_all(variance: u64, times: u32) -> Option<Sums> {
    let mut sums = Sums {
        drawn: 0,
        squares: 0,
        words: 0,
    };
    let variance = Frac::new(variance, 1)?;
    if variance.num() < 1 || variance.num() > 1 << 20 || variance.den() > 1 << 24 {
        return None;
    }
    let mut words = SeedWords::new(&[7; 32], 0, 1 << 32);
    for _ in 0..times {
        match gaussian(&mut words, variance) {
            Draw::Value(number) => sums = add(sums, number),
            Draw::OutOfWords => return None,
            Draw::TooLarge(_) => return None,
        }
    }
    sums.words = words.taken();
    Some(sums)
}

fn main(rt: HostRuntime) -> io::Result<()> {
    let mut numbers = [0u32; 3];
    for (i, word) in env::args(&rt)?.enumerate() {
        if i < 3 {
            numbers[i] = word.parse::<u32>().unwrap_or(0);
        }
    }
    match draw_all(u64::from(numbers[1]), numbers[2]) {
        Some(sums) => println!(rt; "{} {} {}", sums.drawn, sums.words, sums.squares),
        None => println!(rt; "no numbers"),
    }
}
'''


def measured(program, variance, times):
    """The seconds of the best of some runs, the words taken and the sum of squares."""
    seconds, said = best_of(program, variance, times)
    parts = said.split()
    if parts[:1] != [str(times)]:
        sys.exit(f"variance {variance}: {said}")
    return seconds, int(parts[1]), int(parts[2])


def main():
    with tempfile.TemporaryDirectory() as name:
        program = build(pathlib.Path(name), "bench_draws", ["tda_noise", "tda_words", "tda_frac"], PROGRAM)
        print(f"{'variance':>8} {'nanoseconds':>12} {'words':>6} {'mean square':>12}")
        good = True
        for variance in VARIANCES:
            none, _, _ = measured(program, variance, 0)
            seconds, words, squares = measured(program, variance, DRAWS)
            mean = squares / DRAWS
            good = good and abs(mean / variance - 1) <= MOST_OFF
            each = (seconds - none) / DRAWS
            print(f"{variance:>8} {each * 1e9:>12.0f} {words / DRAWS:>6.1f} {mean:>12.2f}")
        sys.exit(0 if good else 1)


if __name__ == "__main__":
    main()
