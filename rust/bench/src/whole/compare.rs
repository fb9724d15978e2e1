//! The comparison: measures every program over every input, prints the tables
//! and writes the picture.

use std::fs::{self, File};
use std::io;
use std::path::Path;

use bench::programs::Program;

use crate::inputs::{self, MEGABYTES};
use crate::memory::{self, Used};
use crate::picture::{self, Chart};
use crate::tables;
use crate::times::{self, Timed};
use crate::ways::WAYS;

/// One thing for each of the inputs.
type OfEach<T> = [T; MEGABYTES.len()];

/// Measures everything and writes the picture of the first program. Memory
/// comes first, while this process, which waits for those that it starts, has
/// little of it.
pub fn everything(file: &Path) -> io::Result<()> {
    // A file that can't be written is reported at once, not after some minutes.
    File::options().append(true).create(true).open(file)?;
    let programs = inputs::programs();
    println!("Peak memory beyond input and output, in MB:\n");
    println!("{}", tables::MEMORY_HEADING);
    let used = programs.each_ref().map(all_memory);
    let told = used.as_flattened().as_flattened();
    if told.iter().all(Option::is_none) {
        println!("\nMemory is left out: /proc/self/status does not tell it.");
    }
    println!("\nMB a second, and how many times as fast `run` is:\n");
    println!("{}", tables::TIMES_HEADING);
    let timed = programs.each_ref().map(all_times);
    let charts = [time_chart(&timed[0]), memory_chart(&used[0])];
    let title = format!("{} over one tree of 1 to 200 MB", programs[0].name);
    fs::write(file, picture::drawn(&title, &charts))?;
    println!("\nThe picture is in {}.", file.display());
    Ok(())
}

/// Measures and prints the rows of a program.
fn all_memory(program: &Program) -> OfEach<[Option<Used>; 3]> {
    MEGABYTES.map(|megabytes| {
        let taken = memory::taken(inputs::length(inputs::tips(megabytes)));
        let measure = |way| memory::measure(WAYS[way], program, megabytes);
        let used = [0, 1, 2].map(|way| taken[way].then(|| measure(way)).flatten());
        println!("{}", tables::memory_row(program.name, megabytes, &used));
        used
    })
}

/// Measures and prints the rows of a program.
fn all_times(program: &Program) -> OfEach<Timed> {
    MEGABYTES.map(|megabytes| {
        let tips = inputs::tips(megabytes);
        let taken = memory::taken(inputs::length(tips));
        let timed = times::measure(program, tips, times::rounds(megabytes), taken);
        println!("{}", tables::times_row(program.name, megabytes, &timed));
        timed
    })
}

pub fn time_chart(timed: &OfEach<Timed>) -> Chart {
    let seconds = |input: usize, way: usize| timed[input].seconds[way];
    Chart {
        title: "Time of one run",
        label: "time",
        tick: picture::seconds,
        lines: [0, 1, 2].map(|way| points(|input| seconds(input, way))),
    }
}

pub fn memory_chart(used: &OfEach<[Option<Used>; 3]>) -> Chart {
    let beyond = |input: usize, way: usize| used[input][way].map(|used| used.beyond() as f64);
    Chart {
        title: "Peak memory beyond input and output",
        label: "memory",
        tick: picture::bytes,
        lines: [0, 1, 2].map(|way| points(|input| beyond(input, way))),
    }
}

/// The points of a line: MB of each input, and its value where there is one.
fn points(value: impl Fn(usize) -> Option<f64>) -> Vec<(f64, f64)> {
    let inputs = MEGABYTES.iter().enumerate();
    let with_value = |(input, &megabytes)| Some((megabytes as f64, value(input)?));
    inputs.filter_map(with_value).collect()
}
