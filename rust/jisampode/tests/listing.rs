//! Job texts and their listings, and the same jobs by the builder.

use std::fmt::Write;

use jisampode::{
    list_job, list_job_into, listed_refusal, Bounds, Child, Job, JobBuilder, Lengths, Memory,
    Model, OwnedMemory, Part, Refusal,
};

const EXAMPLES: [(&str, &str); 2] = [
    (
        include_str!("../../../examples/case.job"),
        include_str!("../../../examples/case.listing"),
    ),
    (
        include_str!("../../../examples/bracket.job"),
        include_str!("../../../examples/bracket.listing"),
    ),
];

#[test]
fn the_examples() {
    for (text, listing) in EXAMPLES {
        assert_eq!(list_job(text.as_bytes()), listing.as_bytes());
        assert_eq!(listed_refusal(listing.as_bytes()), None);
    }
}

#[test]
fn into_lent_bytes() {
    let (text, listing) = EXAMPLES[0];
    let mut bytes = vec![b'x'; 1000];
    let length = list_job_into(text.as_bytes(), &mut bytes).unwrap();
    assert_eq!(&bytes[..length], listing.as_bytes());
    assert!(bytes[length..].iter().all(|&byte| byte == 0));

    let mut just = vec![b'x'; listing.len()];
    assert_eq!(list_job_into(text.as_bytes(), &mut just), Ok(listing.len()));
    let mut few = vec![b'x'; listing.len() - 1];
    let refused = list_job_into(text.as_bytes(), &mut few);
    assert_eq!(refused, Err(Refusal::Short));
    assert!(few.iter().all(|&byte| byte == b'x'));
    assert_eq!(list_job_into(b"", &mut []), Err(Refusal::Short));
}

#[test]
fn refused_texts() {
    let refused = |text: &str| listed_refusal(&list_job(text.as_bytes()));
    let (text, _) = EXAMPLES[0];
    assert_eq!(refused(""), Some((Refusal::Text, Some(1))));
    assert_eq!(
        refused(&text[..text.len() - 1]),
        Some((Refusal::Text, Some(5)))
    );
    let blocks = text.replace("blocks 2 2", "blocks 3 2");
    assert_eq!(refused(&blocks), Some((Refusal::Blocks, None)));
    let grid = text.replace("(cell 3ff0000000000000)", "(cell 3f00000000000000)");
    assert_eq!(refused(&grid), Some((Refusal::Grid, None)));
    assert_eq!(list_job(grid.as_bytes()), b"(refused 5)\n");
    assert_eq!(listed_refusal(b"(refused 0)\n"), None);
    let (unknown, line) = listed_refusal(b"(refused 99)\n").unwrap();
    assert_eq!((unknown.number(), line), (99, None));
    assert_eq!(listed_refusal(b"(refused 12 x)\n"), None);
}

#[test]
fn the_examples_by_the_builder() {
    for (text, listing) in EXAMPLES {
        let builder = built(text);
        // What the engine lends a job's text.
        let mut memory = OwnedMemory::new(Lengths {
            kinds: 512,
            numbers: 512,
            places: 512,
            store: 4096,
            corners: 125,
        });
        let mut job = builder.open(memory.lend()).unwrap();
        while !job.is_finished() {
            job.step(97).unwrap();
        }
        assert_eq!(written(&job), listing);
    }
}

/// The job that a text spells.
fn built(text: &str) -> JobBuilder {
    let lines: Vec<Vec<&str>> = text
        .lines()
        .map(|line| line.split(['(', ')', ' ']).filter(|word| !word.is_empty()))
        .map(Iterator::collect)
        .collect();
    let [bounds, cell, blocks, band] = &lines[..4] else {
        panic!("four lines come first");
    };
    let mut model = Model::new();
    for line in &lines[4..] {
        model.push(part(line)).unwrap();
    }
    JobBuilder::new()
        .bounds(Bounds::new(vector(&bounds[2..5]), vector(&bounds[6..9])))
        .cell(float(cell[1]))
        .blocks(decimal(blocks[1]), decimal(blocks[2]))
        .band(float(band[1]), float(band[2]))
        .model(model)
}

fn part(words: &[&str]) -> Part {
    match *words {
        ["const", h] => Part::Constant(float(h)),
        ["sphere", x, y, z, w] => Part::Sphere {
            centre: vector(&[x, y, z]),
            radius: float(w),
        },
        ["plane", x, y, z, w] => Part::Plane {
            normal: vector(&[x, y, z]),
            offset: float(w),
        },
        ["min", a, b] => Part::Min(decimal(a), decimal(b)),
        ["max", a, b] => Part::Max(decimal(a), decimal(b)),
        ["add", a, b] => Part::Add(decimal(a), decimal(b)),
        ["sub", a, b] => Part::Sub(decimal(a), decimal(b)),
        ["neg", a] => Part::Neg(decimal(a)),
        _ => panic!("no part: {words:?}"),
    }
}

fn float(word: &str) -> f64 {
    f64::from_bits(u64::from_str_radix(word, 16).unwrap())
}

fn vector(words: &[&str]) -> [f64; 3] {
    [0, 1, 2].map(|axis| float(words[axis]))
}

fn decimal(word: &str) -> u32 {
    word.parse().unwrap()
}

/// The listing of a finished job, from its field.
fn written(job: &Job<Memory<'_>>) -> String {
    let c = job.counts();
    let mut listing = format!(
        "(done {} {} {} {} {})\n",
        c.nodes, c.active, c.leaves, c.sampled, c.evaluations
    );
    for (node, child, found) in job.field().active() {
        let (word, values) = match found {
            Child::Leaf(values) => ("leaf", values.to_vec()),
            Child::Constant(number) => ("constant", vec![number]),
            _ => panic!("an active child of a finished job"),
        };
        write!(listing, "({word} {node} {child}").unwrap();
        for value in values {
            write!(listing, " {:016x}", value.to_bits()).unwrap();
        }
        listing.push_str(")\n");
    }
    listing
}
