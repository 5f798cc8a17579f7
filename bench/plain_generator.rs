//! A plain generator of scripts, as a yardstick: it makes the lines as text. With a third argument it writes nothing,
//! and tells how long that many rounds took at least. Build: `rustc -O bench/plain_generator.rs -o /tmp/plain_generator`.
use std::fmt::Write as _;
use std::io::{self, Write};
use std::time::Instant;

struct Draws(u32);

impl Draws {
    fn draw(&mut self, most: u32) -> u32 {
        self.0 = self.0.wrapping_mul(1_664_525).wrapping_add(1_013_904_223);
        (self.0 >> 16) % most
    }
}

fn command(lines: &mut String, i: u32, kind: u32, a: u32) {
    match kind {
        0..=4 => writeln!(lines, "c1 put k{a:04} v{i}"),
        5 => writeln!(lines, "c1 del k{a:04}"),
        6 => writeln!(lines, "c1 delspan k{a:04} k{:04}", a + 5),
        7 | 8 => writeln!(lines, "c1 get k{a:04}"),
        _ => writeln!(lines, "c1 scan k{a:04} k{:04} 10", a + 50),
    }
    .unwrap();
}

fn generate(ops: u32, seed: u32) -> String {
    let mut draws = Draws(seed);
    let mut lines = String::new();
    for i in 1..=ops {
        if i % 500 == 0 {
            lines.push_str("db seal\ndb flush\ndb compact auto\n");
        } else if i % 700 == 0 {
            let a = draws.draw(1000);
            writeln!(lines, "c1 load l{i} excise k{a:04} k{:04}\ndb seal\ndb flush\nc1 install l{i}", a + 10).unwrap();
        } else if i % 900 == 0 {
            if i >= 1800 {
                writeln!(lines, "c1 drop s{}", i - 900).unwrap();
            }
            writeln!(lines, "c1 snap s{i} k0000 k9999").unwrap();
        } else {
            let kind = draws.draw(10);
            let a = draws.draw(1000);
            command(&mut lines, i, kind, a);
        }
    }
    lines
}

fn main() {
    let words: Vec<u32> = std::env::args().skip(1).map(|word| word.parse().unwrap()).collect();
    match words[..] {
        [ops, seed] => io::stdout().write_all(generate(ops, seed).as_bytes()).unwrap(),
        [ops, seed, rounds] => {
            let round = |_| {
                let start = Instant::now();
                let lines = std::hint::black_box(generate(ops, seed));
                (start.elapsed(), lines.len())
            };
            println!("{:?}", (0..rounds).map(round).min().unwrap());
        }
        _ => panic!("OPS SEED, or OPS SEED ROUNDS"),
    }
}
