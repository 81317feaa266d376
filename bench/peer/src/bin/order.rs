//! One sorted vector in plain Rust, to measure `sorted_order` against. It prints the same line.
use std::env;
use std::time::Instant;

const TIMED: usize = 8_192;

fn next(random: u64) -> u64 {
    random
        .wrapping_mul(6_364_136_223_846_793_005)
        .wrapping_add(1_442_695_040_888_963_407)
}

fn insert_all(order: &mut Vec<u32>, numbers: usize, from: u64) -> u64 {
    let mut random = from;
    for _ in 0..numbers {
        random = next(random);
        let number = (random >> 32) as u32;
        let at = number as usize % (order.len() + 1);
        order.insert(at, number);
    }
    random
}

fn walk(order: &[u32]) -> u32 {
    let mut sum = 0u32;
    for number in order {
        sum = sum.wrapping_mul(31).wrapping_add(*number);
    }
    sum
}

fn read_some(order: &[u32], from: u64) -> u32 {
    let mut random = from;
    let mut sum = 0u32;
    for _ in 0..TIMED {
        random = next(random);
        sum = sum.wrapping_add(order[(random >> 32) as usize % order.len()]);
    }
    sum
}

fn main() {
    let numbers = env::args().nth(1).and_then(|word| word.parse().ok()).unwrap_or(65_536);
    let mut order = Vec::new();
    order.reserve(numbers + TIMED);
    let random = insert_all(&mut order, numbers, 1);
    let started = Instant::now();
    let random = insert_all(&mut order, TIMED, random);
    let inserted = started.elapsed().as_nanos();
    let started = Instant::now();
    let walked = walk(&order);
    let walk = started.elapsed().as_nanos();
    let started = Instant::now();
    let read = read_some(&order, random);
    let reads = started.elapsed().as_nanos();
    println!("{numbers} {inserted} {walk} {reads} {walked} {read}");
}
