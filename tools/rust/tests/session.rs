//! The session over the built program, which PERSIST names. Where it names none they say so and are passed.
use persist::{program_path, split_input, Content, Error, Progress, Reply, Session, Stats};
use std::io::Write as _;
use std::process::{Command, Stdio};

const LIST: &str = "record Node 2 { val key: int; ptr next: Node; }
root first: Node;
proc add(key: int) {
  var n: Node;
  n = new Node;
  n.key = key;
  n.next = first;
  first = n;
}
query top() {
  print 1;
  print first.key;
}
query flood(n: int) { while n > 0 { print n; n = n - 1; } }
";

fn list() -> Option<Session> {
    if std::env::var_os("PERSIST").is_none() {
        println!("skipped: PERSIST names no program");
        return None;
    }
    Some(Session::start(program_path(), LIST).unwrap())
}

#[test]
fn runs_queries_and_versions() {
    let Some(mut session) = list() else { return };
    assert_eq!(session.run(0, "add", &[5]).unwrap().version, 1);
    assert_eq!(session.run(1, "add", &[i64::MIN]).unwrap().version, 2);
    assert_eq!(session.run(1, "add", &[i64::MAX]).unwrap().version, 3);
    assert_eq!(session.query(2, "top", &[]).unwrap(), [1, i64::MIN]);
    assert_eq!(session.query(3, "top", &[]).unwrap(), [1, i64::MAX]);
    assert_eq!(session.query(0, "flood", &[65_536]).unwrap().len(), 65_536);
    let versions = session.versions().unwrap();
    assert_eq!(versions.iter().map(|it| it.parent).collect::<Vec<_>>(), [None, Some(0), Some(1), Some(1)]);
    assert_eq!(versions.way_back(3).map(|it| it.number).collect::<Vec<_>>(), [3, 1, 0]);
    let Stats { records, pointers, values, .. } = session.stats().unwrap();
    // The record of the roots is one too.
    assert_eq!((records, pointers, values), (4, 6, 3));
    assert_eq!(session.end().unwrap(), Some(0));
}

#[test]
fn open_runs() {
    let Some(mut session) = list() else { return };
    let run = session.open(0).unwrap();
    assert_eq!(session.call(run, "add", &[5]).unwrap(), Progress::Running);
    assert_eq!(session.step(run, 1).unwrap(), Progress::Running);
    assert_eq!(session.step(run, 1000).unwrap(), Progress::Done);
    assert_eq!(session.close(run).unwrap().version, 1);
    let other = session.open(1).unwrap();
    session.drop_run(other).unwrap();
    session.budget(3).unwrap();
    assert!(matches!(session.run(1, "add", &[1]), Err(Error::Trapped(trap)) if trap.kind == "budget"));
}

#[test]
fn traps_and_refusals_are_errors_of_typed_commands_and_replies_of_lines() {
    let Some(mut session) = list() else { return };
    match session.query(0, "top", &[]) {
        Err(Error::Trapped(trap)) => assert_eq!((trap.kind.as_str(), trap.line, trap.printed), ("null", 12, vec![1])),
        other => panic!("{other:?}"),
    }
    assert!(matches!(session.run(9, "add", &[1]), Err(Error::Refused(kind)) if kind == "version"));
    assert!(matches!(session.run(0, "add", &[]), Err(Error::Refused(kind)) if kind == "arguments"));
    assert_eq!(session.command("jump").unwrap(), Some(Reply::Refused("line".into())));
    assert_eq!(session.command("query 0 top").unwrap().unwrap().to_string(), "| 1\ntrap null at 12");
    assert_eq!(session.command(" # nothing").unwrap(), None);
    assert_eq!(session.command("versions\t\r").unwrap().unwrap().to_string(), "0");
    assert_eq!(session.command("versions now").unwrap(), Some(Reply::Refused("line".into())));
}

#[test]
fn what_is_no_command_is_not_sent() {
    let Some(mut session) = list() else { return };
    assert!(matches!(session.command("run 0 add 1\nrun 0 add 2"), Err(Error::WrongText(_))));
    assert!(matches!(session.run(0, "add 1", &[]), Err(Error::WrongText(_))));
    assert!(matches!(session.run(0, "add\n", &[]), Err(Error::WrongText(_))));
    assert_eq!(session.run(0, "add", &[1]).unwrap().version, 1);
    assert!(matches!(Session::start(program_path(), "root a: int;\n%%\n"), Err(Error::WrongText(_))));
}

#[test]
fn a_refused_program_is_told_with_its_line() {
    if list().is_none() {
        return;
    }
    for more in [0, 100_000] {
        match Session::start(program_path(), &format!("root a: b;\n{}", "# more\n".repeat(more))) {
            Err(Error::ProgramRefused { kind, line, text }) => assert_eq!((kind.as_str(), line, text.as_str()), ("unknown", 1, "root a: b;")),
            other => panic!("{other:?}"),
        }
    }
}

#[test]
fn lines_that_end_with_cr_and_lf() {
    if list().is_none() {
        return;
    }
    let text = format!("{LIST}%%\n# A note.\nrun 0 add 7\n\nquery 1 top\nversions\n").replace('\n', "\r\n");
    let (program, script) = split_input(&text);
    let mut session = Session::start(program_path(), program).unwrap();
    let replies: Vec<String> = script.into_iter().filter_map(|line| session.command(line).unwrap()).map(|it| it.to_string()).collect();
    assert_eq!(replies, ["version 1", "| 1\n| 7\nok", "0\n1 from 0"]);
}

#[test]
fn a_process_that_ended_is_told() {
    let Some(mut session) = list() else { return };
    let killed = std::process::Command::new("kill").args(["-9", &session.id().to_string()]).status().unwrap();
    assert!(killed.success());
    assert!(matches!(session.run(0, "add", &[1]), Err(Error::Ended(None))));
    assert!(matches!(session.stats(), Err(Error::Ended(None))));
    assert!(matches!(Session::start("/no/such/program", LIST), Err(Error::Io(_))));
    assert!(matches!(Session::start("true", LIST), Err(Error::Ended(Some(0)))));
    assert!(matches!(Session::start("echo", LIST), Err(Error::UnknownReply(text)) if text == "run"));
}

/// The image behind a program and a script.
fn packed(input: &str) -> Vec<u8> {
    let mut child = Command::new(program_path()).arg("pack").stdin(Stdio::piped()).stdout(Stdio::piped()).spawn().unwrap();
    child.stdin.take().unwrap().write_all(input.as_bytes()).unwrap();
    child.wait_with_output().unwrap().stdout
}

#[test]
fn an_image_is_gone_on_from() {
    let Some(mut other) = list() else { return };
    assert!(matches!(other.dump(0), Err(Error::WrongText(_))));
    assert!(matches!(other.changed(0, "first"), Err(Error::WrongText(_))));
    let image = packed(&format!("{LIST}%%\nrun 0 add 5\nrun 1 add 7\n"));
    let mut session = Session::behind(program_path(), &image).unwrap();
    let records = session.dump(2).unwrap();
    assert_eq!(records.iter().map(|it| it.type_name.as_str()).collect::<Vec<_>>(), ["root", "Node", "Node"]);
    assert_eq!(records[1].contents, [Content::Number(7), Content::Pointer(2)]);
    assert_eq!(records[2].contents, [Content::Number(5), Content::Null]);
    assert_eq!(session.command("dump 1").unwrap().unwrap().to_string(), "0 root: @1\n1 Node: 5 null\nok");
    assert_eq!((session.changed(2, "first.next").unwrap(), session.changed(0, "first").unwrap()), (Some(2), None));
    assert!(matches!(session.dump(9), Err(Error::Refused(kind)) if kind == "version"));
    assert!(matches!(session.changed(2, "last"), Err(Error::Refused(kind)) if kind == "path"));
    assert_eq!(session.run(2, "add", &[9]).unwrap().version, 3);
    assert_eq!(session.end().unwrap(), Some(0));
    for length in [0, 7, 12, 100, image.len() - 1] {
        assert!(matches!(Session::behind(program_path(), &image[..length]), Err(Error::ImageRefused(0))), "{length}");
    }
    let behind = [image, b"stats\n".to_vec()].concat();
    assert!(matches!(Session::behind(program_path(), &behind), Err(Error::WrongText(_))));
}
