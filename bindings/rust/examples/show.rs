//! Shows the blocks that are given as hexadecimal digits.
//!
//! usage: cargo run --example show -- FILE NAME BLOCK..
use nambroit::{Block, Description, Form, Reading};
use std::error::Error;

fn octets_of(digits: &str) -> Result<Vec<u8>, Box<dyn Error>> {
    let pairs = digits.as_bytes().chunks(2).map(std::str::from_utf8);
    pairs
        .map(|pair| Ok(u8::from_str_radix(pair?, 16)?))
        .collect()
}

fn main() -> Result<(), Box<dyn Error>> {
    let words: Vec<String> = std::env::args().collect();
    let [_, file, name, blocks @ ..] = words.as_slice() else {
        return Err("usage: show FILE NAME BLOCK..".into());
    };
    let mut rule = Description::compile(std::fs::read(file)?, name, Reading::Received)?;
    for digits in blocks {
        let octets = octets_of(digits)?;
        match rule.show(Block::whole(&octets), Form::Text) {
            Ok(tree) => println!("{tree}"),
            Err(fault) => println!("{fault}"),
        }
    }
    Ok(())
}
