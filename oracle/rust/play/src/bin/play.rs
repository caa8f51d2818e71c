//! play: a script on standard input, the original's answers on standard output, a line to a record.
use play::script::*;
use std::io::{Read, Write};

fn main() {
    play::keep_quiet();
    let mut script = Vec::new();
    std::io::stdin().read_to_end(&mut script).expect("the script");
    assert!(script.len() % 8 == 0, "a script is records of 8 bytes");
    let mut out = std::io::BufWriter::new(std::io::stdout());
    let mut side = play::start(start(0, 0, WHITE));
    for bytes in script.chunks(8) {
        let r = Record::decode(bytes);
        let answer = match r.op {
            b'S' => {
                side = play::start(r);
                Answer::Done
            }
            _ => side.play(r),
        };
        writeln!(out, "{answer}").expect("output");
    }
}
