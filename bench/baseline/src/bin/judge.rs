//! Judges cases: the first line of standard input is a schema, the second a plan, each other a case; prints a verdict for each
//! case.

use baseline::batch::{Batch, Judge};
use baseline::lines::Lines;
use baseline::verdict::Verdict;
use std::io::{self, BufRead, BufReader, BufWriter, Write};

/// Tells the verdict on each line.
fn tell<R: BufRead>(
    lines: &mut Lines<R>,
    out: &mut impl Write,
    mut judge: impl FnMut(&[u8]) -> Verdict,
) -> io::Result<()> {
    while let Some(line) = lines.next_line()? {
        out.write_all(&judge(line).line())?;
    }
    Ok(())
}

fn main() -> io::Result<()> {
    let mut lines = Lines::new(BufReader::with_capacity(1 << 16, io::stdin().lock()));
    let mut out = BufWriter::with_capacity(1 << 16, io::stdout().lock());
    let Some(schema) = lines.next_line()?.map(<[u8]>::to_vec) else {
        return Ok(());
    };
    let Some(plan) = lines.next_line()?.map(<[u8]>::to_vec) else {
        return Ok(());
    };
    match Batch::read(&schema, &plan) {
        Ok(batch) => {
            let mut judge = Judge::new(&batch);
            tell(&mut lines, &mut out, |line| judge.judge(line))?;
        }
        Err(refusal) => {
            let refused = Verdict {
                case: 0,
                refusal: Some(refusal),
            };
            tell(&mut lines, &mut out, |_| refused)?;
        }
    }
    out.flush()
}
