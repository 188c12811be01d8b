// The baseline: CRC-32 by one table of 256 entries, an octet at a time, as `plain_crc FILE ROUNDS`.
use std::time::Instant;

const fn table() -> [u32; 256] {
    let mut table = [0; 256];
    let mut i = 0;
    while i < 256 {
        let mut c = i as u32;
        let mut k = 0;
        while k < 8 {
            c = if c & 1 == 1 { (c >> 1) ^ 0xEDB8_8320 } else { c >> 1 };
            k += 1;
        }
        table[i] = c;
        i += 1;
    }
    table
}

static TABLE: [u32; 256] = table();

fn update(crc: u32, bytes: &[u8]) -> u32 {
    let mut c = !crc;
    for b in bytes {
        c = TABLE[((c ^ u32::from(*b)) & 0xff) as usize] ^ (c >> 8);
    }
    !c
}

fn main() {
    let args: Vec<String> = std::env::args().collect();
    let bytes = std::fs::read(&args[1]).expect("a file");
    let rounds: u32 = args[2].parse().expect("a number");
    let start = Instant::now();
    let mut crc = 0;
    for _ in 0..rounds {
        crc = update(crc, &bytes);
    }
    let nanos = start.elapsed().as_nanos().max(1);
    let rate = bytes.len() as u128 * u128::from(rounds) * 1000 / nanos;
    println!("{crc:08x} {rate} MB/s");
}
