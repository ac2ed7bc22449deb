// A plain program that only splits and parses rows, to measure beside `cep run`.
use std::io::{self, BufRead};

fn main() {
    let mut rows = 0u64;
    let mut total = 0i64;
    let input = io::stdin();
    let mut input = io::BufReader::with_capacity(1 << 16, input.lock());
    let mut line = Vec::new();
    loop {
        line.clear();
        if input.read_until(b'\n', &mut line).unwrap() == 0 {
            break;
        }
        let text = std::str::from_utf8(&line).unwrap().trim_end();
        let fields: Vec<&str> = text.split(',').collect();
        let time: i64 = fields[1].parse().unwrap();
        let price: i64 = fields[3].parse().unwrap();
        rows += 1;
        total = total.wrapping_add(time ^ price).wrapping_add(fields[2].len() as i64);
    }
    println!("{rows} {total}");
}
