//! Carries an input out by a process of `persist`, and writes the replies: host PROGRAM FILE. Tested (tools/tests), not proved.
//!
//!     cargo run --example host -- ../../persist ../../examples/editor.persist
use persist::{split_input, Session};

fn main() -> Result<(), Box<dyn std::error::Error>> {
    let words: Vec<_> = std::env::args_os().collect();
    let [_, path, file] = words.as_slice() else { return Err("host PROGRAM FILE".into()) };
    let text = String::from_utf8_lossy(&std::fs::read(file)?).into_owned();
    let (program, script) = split_input(&text);
    let mut session = Session::start(path, program)?;
    for line in script {
        if let Some(reply) = session.command(line)? {
            println!("{reply}");
        }
    }
    println!("status {:?}", session.end()?);
    Ok(())
}
