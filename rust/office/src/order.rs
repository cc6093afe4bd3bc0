//! The system calls of a start, of changes and of questions: folders are synchronised before it serves, a commit is synchronised before its answer is written, and what is sent at once shares one
//! commit and few writes.

use crate::service::{expect, Client, Place, Program, Service};
use crate::tracer::Tracer;
use std::fs;
use std::process::Command;

/// So many requests are sent at once.
const AT_ONCE: usize = 64;

pub fn check(program: &Program) -> Result<String, String> {
    folders(program)?;
    let place = Place::new("order");
    let service = program.start(&place)?;
    let mut client = service.connect()?;
    let calls = "trace=read,recvfrom,write,sendto,fsync,fdatasync";
    let tracer = Tracer::of(&service, place.folder(), &["-y", "-s", "64", "-e", calls])?;
    expect("the change is not accepted", client.ask(b"enter\t31\t502\t100\t465\tG\t1\n")? == b"ok\n")?;
    all_at_once(&mut client, |number| format!("enter\t{}\t7\t1\t10\tG\t2\n", number + 100), b"ok\n")?;
    all_at_once(&mut client, |number| format!("cover\t{}\n", number + 2000), b"refused\t7\n")?;
    service.kill()?;
    let traced = tracer.ended()?;
    let lines: Vec<&str> = traced.lines().collect();
    let find =
        |from: usize, what: &dyn Fn(&str) -> bool| lines[from..].iter().position(|line| what(line)).map(|at| at + from);
    let arrived = find(0, &|line| line.contains("\"enter\\t31")).ok_or("the request is not seen")?;
    let synced = find(arrived, &|line| line.contains("sync(") && line.contains("journal.db-wal"));
    let synced = synced.ok_or("no synchronisation is seen")?;
    let done = find(synced, &|line| line.contains("sync") && line.contains("= 0")).ok_or("it does not end well")?;
    let answered = find(arrived, &|line| line.contains("\"ok\\n\"")).ok_or("the answer is not seen")?;
    expect("the answer is written before the commit is synchronised", done < answered)?;
    let count =
        |what: &[&str]| lines[answered + 1..].iter().filter(|line| what.iter().all(|part| line.contains(part))).count();
    let commits = count(&["sync(", "journal.db-wal"]);
    expect(&format!("{AT_ONCE} changes sent at once take {commits} commits"), commits <= 2)?;
    let writes = count(&["\"refused\\t7"]) + count(&["\"ok\\nok"]);
    expect(&format!("two times {AT_ONCE} requests sent at once take {writes} writes"), writes <= 4)?;
    Ok("the commit is synchronised before its answer is written".to_string())
}

/// The folders that it makes are synchronised, each in the one above it, before it serves.
fn folders(program: &Program) -> Result<(), String> {
    let place = Place::new("folders");
    let trace = place.folder().join("trace");
    let mut command = Command::new("strace");
    command.args(["-D", "-f", "-o"]).arg(&trace).args(["-y", "-e", "trace=fsync,listen"]).arg(&program.0);
    command.arg("--data").arg(place.data()).arg("--socket").arg(place.socket());
    let service = Service::of(command, &place)?;
    let traced = fs::read_to_string(&trace).map_err(|error| error.to_string())?;
    let before: Vec<&str> = traced.lines().take_while(|line| !line.contains("listen(")).collect();
    for folder in [place.folder(), &place.folder().join("office")] {
        let synced = format!("<{}>)", folder.display());
        let is_synced = before.iter().any(|line| line.contains("fsync(") && line.contains(&synced));
        expect(&format!("{} is not synchronised: {traced}", folder.display()), is_synced)?;
    }
    service.end().map(|_| ())
}

fn all_at_once(client: &mut Client, request: impl Fn(usize) -> String, answer: &[u8]) -> Result<(), String> {
    client.send((0..AT_ONCE).map(request).collect::<String>().as_bytes())?;
    for _ in 0..AT_ONCE {
        expect("another answer comes", client.answer()?.as_deref() == Some(answer))?;
    }
    Ok(())
}
