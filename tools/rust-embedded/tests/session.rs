//! Sessions in this process.
use persist_embedded::{Error, Progress, Reply, Session};

const PROGRAM: &str = "record Letter 2 { val code: int; ptr next: Letter; }\nroot text: Letter;\n\
proc key(code: int) {\n  var n: Letter;\n  n = new Letter;\n  n.code = code;\n  n.next = text;\n  text = n;\n}\nquery last() {\n  print text.code;\n}\n";

#[test]
fn lines_have_their_replies() {
    let mut session = Session::open(PROGRAM).unwrap();
    let mut said = |line: &str| session.command(line).unwrap().map(|it| it.to_string());
    for (line, wanted) in [
        ("run 0 key 104", "version 1"), ("query 1 last", "| 104\nok"), ("query 0 last", "trap null at 11"), ("query 9 last", "refused version"),
        ("open 1 key 7", "run 2"), ("step 2 1", "run 2 running"), ("close 2", "version 2"), ("versions", "0\n1 from 0\n2 from 1"), ("budget 90", "budget 90"),
        ("stats", "records 3 pointers 4 values 2 bound 31"), ("now", "refused line"),
    ] {
        assert_eq!(said(line).as_deref(), Some(wanted), "{line}");
    }
    assert_eq!(said("# nothing"), None);
}

#[test]
fn calls_have_typed_replies() {
    let mut session = Session::open(PROGRAM).unwrap();
    assert_eq!(session.run(0, "key", &[i64::MIN]).unwrap().version, 1);
    assert_eq!(session.query(1, "last", &[]).unwrap(), [i64::MIN]);
    assert!(matches!(session.query(0, "last", &[]), Err(Error::Trapped(it)) if it.kind == "null" && it.line == 11));
    assert!(matches!(session.run(7, "key", &[1]), Err(Error::Refused(it)) if it == "version"));
    assert!(matches!(session.run(0, "key", &[]), Err(Error::Refused(it)) if it == "arguments"));
    assert_eq!(session.command("open 1").unwrap(), Some(Reply::Opened(2)));
    assert_eq!(session.command("call 2 key 3").unwrap(), Some(Reply::Went(2, Progress::Running)));
    assert_eq!(session.dump(1).unwrap().len(), 2);
    assert_eq!((session.changed(1, "text.code").unwrap(), session.changed(0, "text").unwrap()), (Some(1), None));
    assert!(matches!(session.dump(9), Err(Error::Refused(it)) if it == "version"));
    assert!(matches!(session.changed(0, "a"), Err(Error::Refused(it)) if it == "path"));
}

#[test]
fn an_image_is_gone_on_from() {
    let mut session = Session::open(PROGRAM).unwrap();
    let mut version = 0;
    for code in 0..100 {
        version = session.run(version, "key", &[code]).unwrap().version;
    }
    let mut image = session.image().unwrap();
    let length = image.len();
    image.extend(b"query 1 last\n");
    let (mut other, used) = Session::resume(&image).unwrap();
    assert_eq!(used, length);
    assert_eq!(other.query(50, "last", &[]).unwrap(), [49]);
    assert_eq!(other.versions().unwrap().way_back(version).count(), 101);
    image[40] ^= 1;
    assert!(matches!(Session::resume(&image), Err(Error::ImageRefused(_))));
}

#[test]
fn a_program_is_refused_with_its_line() {
    let refused = Session::open("root n: int;\nroot n: int;\n").unwrap_err();
    assert!(matches!(refused, Error::ProgramRefused { line: 2, text, .. } if text == "root n: int;"));
}

#[test]
fn each_thread_has_sessions_of_its_own() {
    let threads = (0..2).map(|code| {
        std::thread::spawn(move || {
            let mut session = Session::open(PROGRAM).unwrap();
            session.run(0, "key", &[code]).unwrap();
            (0..2000).all(|_| session.query(1, "last", &[]).unwrap() == [code])
        })
    });
    assert!(threads.collect::<Vec<_>>().into_iter().all(|it| it.join().unwrap()));
}
