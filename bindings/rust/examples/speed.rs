//! How many blocks a second are judged, told, shown and written.
//!
//! usage: speed FILE NAME READING COUNT < BLOCKS
//!
//! BLOCKS are lines of hexadecimal digits, whole octets, that the rule has. Prints a line for each call, with the best of five.
use nambroit::{Block, Description, Form, Reading, Stream};
use std::error::Error;
use std::io::{stdin, BufRead};
use std::time::Instant;

const RUNS: usize = 5;

fn octets_of(digits: &str) -> Result<Vec<u8>, Box<dyn Error>> {
    let pairs = digits.as_bytes().chunks(2).map(std::str::from_utf8);
    pairs
        .map(|pair| Ok(u8::from_str_radix(pair?, 16)?))
        .collect()
}

fn time_of<T>(what: &str, given: &[T], count: usize, mut call: impl FnMut(&T)) {
    let mut best = 0.0_f64;
    for _ in 0..RUNS {
        let start = Instant::now();
        given.iter().cycle().take(count).for_each(&mut call);
        best = best.max(count as f64 / start.elapsed().as_secs_f64());
    }
    println!("{what} {best:.0}");
}

fn main() -> Result<(), Box<dyn Error>> {
    let words: Vec<String> = std::env::args().collect();
    let [_, file, name, reading, count] = words.as_slice() else {
        return Err("usage: speed FILE NAME READING COUNT".into());
    };
    let reading = if reading == "sent" {
        Reading::Sent
    } else {
        Reading::Received
    };
    let mut rule = Description::compile(std::fs::read(file)?, name, reading)?;
    let count = count.parse()?;
    let mut blocks = Vec::new();
    let mut trees = Vec::new();
    for line in stdin().lock().lines() {
        let octets = octets_of(&line?)?;
        trees.push(rule.show(Block::whole(&octets), Form::Text)?.to_string());
        blocks.push(octets);
    }
    time_of("judge", &blocks, count, |octets| {
        rule.judge(Block::whole(octets)).unwrap()
    });
    let other = Description::compile(std::fs::read(file)?, name, reading)?;
    let mut stream = Stream::new(other)?;
    time_of("pieces", &blocks, count, |octets| {
        let (first, rest) = octets.split_at(octets.len() / 2);
        stream.push(Block::whole(first)).unwrap();
        stream.push(Block::whole(rest)).unwrap();
        stream.end().unwrap();
    });
    time_of("tell", &blocks, count, |octets| {
        rule.events(Block::whole(octets)).unwrap();
    });
    time_of("show", &blocks, count, |octets| {
        rule.show(Block::whole(octets), Form::Text).unwrap();
    });
    time_of("json", &blocks, count, |octets| {
        rule.show(Block::whole(octets), Form::Json).unwrap();
    });
    time_of("write", &trees, count, |tree| {
        rule.write(tree, Form::Text).unwrap();
    });
    Ok(())
}
