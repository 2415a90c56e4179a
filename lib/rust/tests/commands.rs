//! Commands by their words: each row of tests/rows/commands, and what no row shows.

use dimacs::texts::{command, explain, request, Access, Error, File, Form, Ran, Request, Status};
use std::collections::HashMap;

/// The cells of the rows of a table, in which `;` ends a line.
fn rows(table: &str) -> Vec<Vec<String>> {
    let rows = std::fs::read_to_string(format!("{}/../../tests/rows/{table}", env!("CARGO_MANIFEST_DIR"))).unwrap();
    let cells = |row: &str| row.split(" |").map(|it| it.trim_start().replace(';', "\n").replace("\\r", "\r")).collect();
    rows.lines().filter(|it| !it.starts_with('#')).map(cells).collect()
}

/// The two texts that follow `= NAME` among what a run does, of which another line begins with a sign and a blank.
fn made(done: &str) -> Vec<String> {
    let mut made = Vec::new();
    for line in done.lines() {
        match (line.get(..2), made.last_mut()) {
            (Some("= "), _) => made.push(String::new()),
            (Some("< " | "> " | "- " | "! "), _) => {}
            (_, last) => *last.unwrap() += &format!("{line}\n"),
        }
    }
    made.resize(2, String::new());
    made
}

/// Whether a plan has what a row says is done with files: what is created before one is closed is created before reading.
fn is_done(plan: &[Option<File>], done: &str) -> bool {
    let mut is_early = true;
    done.lines().all(|line| {
        is_early &= !line.starts_with("- ");
        let (sign, name) = line.split_once(' ').unwrap();
        let of = |access| plan.iter().flatten().any(|it| it.shown == name && it.access == access);
        match sign {
            "<" => of(Access::Read),
            ">" => of(if is_early { Access::Create } else { Access::Write }),
            _ => true,
        }
    })
}

/// What a row makes of its texts; a file that it creates is empty.
fn ran(words: &[&str], plan: &[Option<File>], files: &HashMap<String, String>) -> Result<Ran, Error> {
    let with = |access| plan.iter().flatten().filter(move |it| it.access == access);
    let is_created = |name: &str| with(Access::Create).any(|it| it.shown == name);
    let texts =
        with(Access::Read)
            .map(|it| if is_created(&it.shown) { Some("") } else { files.get(&it.shown).map(|it| &**it) });
    let mut texts = texts.map(|it| it.map(str::as_bytes)).chain([None; 3]);
    command(words, std::array::from_fn(|_| texts.next().unwrap()), Form::Files)
}

#[test]
fn rows_are_done() {
    let files: HashMap<String, String> = rows("files").into_iter().map(|it| (it[0].clone(), it[1].clone())).collect();
    let mut statuses = [0; 6];
    for row in rows("commands") {
        let [words, done, output, complaint, status] = &row[..] else { panic!("{row:?}") };
        let (words, status): (Vec<&str>, u32) = (words.split(' ').collect(), status.parse().unwrap());
        statuses[status as usize] += 1;
        let first = |it: &&str| words.iter().position(|other| other == it).unwrap() as u32;
        let same: Vec<u32> = words.iter().map(first).collect();
        let plan = match request(&words, &same).unwrap() {
            Request::Run { plan, .. } => plan,
            other => {
                assert!(status == 2 && matches!(other, Request::Complaint(_)), "{row:?}: {other:?}");
                continue;
            }
        };
        assert!(is_done(&plan, done), "{row:?}: {plan:?}");
        let ran = ran(&words, &plan, &files);
        if let Some((name, how)) = complaint.split_once(" cannot be ") {
            let place = plan.iter().flatten().position(|it| it.shown == name).unwrap() as u32 + 1;
            let is_read = ["opened", "read"].contains(&how);
            assert!(if is_read { ran == Err(Error::Unread(place)) } else { ran.is_ok() }, "{row:?}");
        } else {
            let ran = ran.unwrap();
            assert_eq!((ran.status as u32, &ran.report), (status, output), "{row:?}");
            let is_for_file = plan.iter().flatten().any(|it| it.access != Access::Read);
            assert!(!is_for_file || [ran.made, ran.more] == made(done)[..2], "{row:?}");
        }
    }
    assert!(
        statuses[0] > 30 && statuses[1] > 15 && statuses[2] > 4 && statuses[3] > 15 && statuses[5] > 0,
        "{statuses:?}"
    );
}

fn text_of(request: Result<Request, Error>) -> (&'static str, String) {
    match request.unwrap() {
        Request::Help(text) => ("help", text),
        Request::Complaint(told) => ("complaint", told),
        Request::Run { told, .. } => ("run", told),
    }
}

#[test]
fn words_without_a_run_have_a_text() {
    let no_words: [&str; 0] = [];
    let rows = [
        (text_of(request(&["--version"], &[])), "help", "dimacs 0."),
        (text_of(request(&["help", "judge-max"], &[])), "help", ""),
        (text_of(request(&["judgemax"], &[])), "complaint", "dimacs: usage\nno command judgemax: judge-max?\n"),
        (
            text_of(request(&[&b"show"[..], b"max", b"\xff"], &[])),
            "complaint",
            "dimacs: usage\nan argument isn't UTF-8\n",
        ),
        (text_of(request(&no_words, &[])), "complaint", "dimacs: usage\n"),
        (text_of(request(&["solve-max", "I", "S", "S"], &[])), "run", "dimacs: S: written twice\n"),
    ];
    for ((kind, text), wanted, begins) in rows {
        assert!(kind == wanted && text.starts_with(begins), "{text}");
    }
    let Request::Run { plan, told } = request(&["show", "max", "an\nI"], &[]).unwrap() else { panic!() };
    let file = File { access: Access::Read, shown: "an\\x0aI".to_owned() };
    assert_eq!((plan, told), (vec![None, None, Some(file)], String::new()));
}

const PIPE: &[u8] = b"p max 2 1\nn 1 s\nn 2 t\na 1 2 3\n";

#[test]
fn a_slip_runs_if_it_is_asked_to() {
    let (slip, pipe) = (["certify-max", "I", "S", "S"], [Some(PIPE), Some(&b"s 0\n"[..]), None]);
    let (kind, told) = text_of(request(&slip, &[0, 1, 2, 2]));
    assert_eq!(kind, "complaint");
    assert!(told.starts_with("dimacs: usage\nSOLUTION and CERTIFICATE are the same file: S\n"), "{told}");
    assert_eq!(text_of(request(&slip, &[])), ("run", String::new()));
    assert_eq!(command(&slip, pipe, Form::Texts).unwrap().made, "s 3\nf 1 2 3\n");
    assert_eq!(request(&slip, &[0]), Err(Error::WrongLength { array: "same", items: 1, wanted: 4 }));
}

#[test]
fn other_words_run_nothing() {
    let all = [Some(PIPE); 3];
    for words in [&["help"][..], &["judge-max", "I", "S"], &["show", "max\0", "I"], &[]] {
        assert_eq!(command(words, all, Form::Texts), Err(Error::NoCommand), "{words:?}");
    }
    assert_eq!(command(&[&b"show"[..], b"max", b"\xff"], all, Form::Texts), Err(Error::NoCommand));
    assert_eq!(request(&["show\0max", "I"], &[]), Err(Error::NoCommand));
}

#[test]
fn a_command_is_explained() {
    let [max, flow, cut] =
        [&b"p max 3 2\nn 1 s\nn 3 t\na 1 2 4\na 2 3 4\n"[..], b"s 4\nf 1 2 4\n", b"p cut 3 1\nu 1\n"];
    let words = ["explain", "judge-max", "I", "S", "C"];
    let ran = command(&words, [Some(max), Some(flow), Some(cut)], Form::Arrays).unwrap();
    let lines = "0 leaves node \u{2}2, 4 enters it: 4 too little leaves\nflows out of it: 0\nflows into it: 1\n";
    let arc = "  arc \u{1}1: \u{2}1 -> \u{2}2, FLOW 4\n";
    assert_eq!((ran.status, ran.report), (Status::Refused, format!("x node 2 Balance\n{lines}{arc}")));
    assert_eq!(command(&words, [Some(max), None, Some(cut)], Form::Files), Err(Error::Unread(2)));
    assert_eq!(Error::Unread(2).to_string(), "text 2 of the command can't be read");
    let odd = explain(&["show", "gr", "größe"], b"p sp 1 \xff\n", "", "").unwrap();
    assert!(odd.starts_with("x instance 1 4 BadNumber\ngröße:1: p sp 1 "), "{odd}");
}
