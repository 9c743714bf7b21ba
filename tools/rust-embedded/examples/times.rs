//! Microseconds of a call: least and median of 200 takes.
use persist_embedded::Session;
use std::time::Instant;

const PROGRAM: &str = "record Letter 2 { val code: int; ptr next: Letter; }\nroot last: Letter;\n\
proc key(code: int) { var n: Letter; n = new Letter; n.code = code; last = n; }\nproc set(code: int) { last.code = code; }\nquery code() { print last.code; }\n";

fn measure(what: &str, mut call: impl FnMut(i64)) {
    let mut takes: Vec<f64> = vec![];
    for _ in 0..200 {
        let begun = Instant::now();
        (0..1000).for_each(&mut call);
        takes.push(begun.elapsed().as_secs_f64() * 1e3);
    }
    takes.sort_by(f64::total_cmp);
    println!("{what:28} least {:.2}  median {:.2}", takes[0], takes[100]);
}

fn main() -> persist_embedded::Result<()> {
    let mut session = Session::open(PROGRAM)?;
    let (mut text, mut printed, mut newest) = (vec![], vec![], 1);
    session.run(0, "key", &[7])?;
    measure("query, line and text", |_| session.say(b"query 1 code", &mut text).unwrap());
    measure("query, call and number", |_| session.query_into(1, "code", &[], &mut printed).unwrap());
    measure("refused line and text", |_| session.say(b"query 999999 code", &mut text).unwrap());
    measure("run, call", |code| newest = session.run_into(newest, "set", &[code], &mut printed).unwrap());
    Ok(())
}
