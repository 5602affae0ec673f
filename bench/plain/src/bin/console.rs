//! The plain console: reads lines from standard input by blocks, and writes what it has answered before it waits for more.

use plain::Console;
use std::io::{self, Read, Write};

const BLOCK: usize = 64 * 1024;

fn main() -> io::Result<()> {
    let mut console = Console::default();
    let mut input = io::stdin().lock();
    let mut output = io::stdout().lock();
    let mut block = vec![0; BLOCK];
    // The bytes of a line whose newline has not come yet; of a long line only as many as tell that it is long.
    let mut begun: Vec<u8> = Vec::new();
    let mut answers = Vec::new();
    loop {
        let count = input.read(&mut block)?;
        if count == 0 {
            break;
        }
        let mut left = &block[..count];
        while let Some(end) = left.iter().position(|&byte| byte == b'\n') {
            if begun.is_empty() {
                console.line(&left[..end], &mut answers);
            } else {
                keep(&mut begun, &left[..end]);
                console.line(&begun, &mut answers);
                begun.clear();
            }
            left = &left[end + 1..];
        }
        keep(&mut begun, left);
        output.write_all(&answers)?;
        output.flush()?;
        answers.clear();
    }
    if !begun.is_empty() {
        console.line(&begun, &mut answers);
        output.write_all(&answers)?;
        output.flush()?;
    }
    Ok(())
}

/// One byte more than a line may have is enough to tell that it is too long.
fn keep(begun: &mut Vec<u8>, bytes: &[u8]) {
    let room = 201usize.saturating_sub(begun.len());
    begun.extend_from_slice(&bytes[..bytes.len().min(room)]);
}
