// Reads standard input to its end, as `read_all` does, and sums its bytes in one pass.
use std::io::Read;

fn main() {
    let mut bytes = Vec::new();
    let mut piece = vec![0u8; 65_536];
    loop {
        let count = std::io::stdin().read(&mut piece).expect("a read");
        if count == 0 {
            break;
        }
        bytes.extend_from_slice(&piece[..count]);
    }
    let sum: u64 = bytes.iter().map(|byte| u64::from(*byte)).sum();
    println!("{sum}");
}
