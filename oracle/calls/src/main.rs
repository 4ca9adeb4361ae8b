//! Reads requests on standard input, one a line, and answers each with one line, through the port alone.

use protocol::Request;
use std::io::{self, BufRead, BufWriter, Write};

fn main() -> io::Result<()> {
    let mut out = BufWriter::new(io::stdout().lock());
    for line in io::stdin().lock().split(b'\n') {
        let answer = Request::parse(&String::from_utf8_lossy(&line?)).map(|request| port::answer_request(&request));
        writeln!(out, "{}", answer.as_deref().unwrap_or("bad request"))?;
    }
    out.flush()
}
