//! Opens a file, writes, hands the log in, and reads: `first PROGRAM`, where PROGRAM is the program `kfs`.

use kfs_client::program::Program;
use kfs_client::{Client, Options, Session};
use std::error::Error;

fn main() -> Result<(), Box<dyn Error>> {
    let program = std::env::args_os().nth(1).ok_or("first PROGRAM")?;
    // Client 7 is the user 1000, and may give the numbers 2 to 99 to new nodes.
    let client = Client { number: 7, uid: 1000, gid: 1000, groups: vec![], is_privileged: false, grant: [2, 99] };
    let desk = Program::start(program, [64, 64, 64], std::slice::from_ref(&client))?;
    let mut session = Session::new(desk, client, Options::default());
    let file = session.open(b"/greeting", Some(0o644))?;
    session.write(file, 0, b"hello")?;
    session.sync()?;
    let bytes = session.read(file, 0, 100)?;
    println!("{}", String::from_utf8_lossy(&bytes));
    session.close()?;
    Ok(())
}
