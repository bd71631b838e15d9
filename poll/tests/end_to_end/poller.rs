//! The host for the command line, as an integrator uses it.

use crate::gateway::Gateway;
use crate::libc::SIGTERM;
use std::net::TcpListener;
use std::process::Command;

/// Runs the host; gives its status, what it shows and what it says of errors.
fn poll(address: &str, words: &[&str]) -> (i32, String, String) {
    let output = Command::new(env!("CARGO_BIN_EXE_poll"))
        .args(["--host", address])
        .args(words)
        .output()
        .expect("the host runs");
    let text = |bytes: Vec<u8>| String::from_utf8(bytes).expect("text");
    (
        output.status.code().expect("a status"),
        text(output.stdout),
        text(output.stderr),
    )
}

/// Words without the spaces that set them in columns.
fn words(shown: &str) -> Vec<Vec<&str>> {
    shown
        .lines()
        .map(|line| {
            line.split("  ")
                .map(str::trim)
                .filter(|word| !word.is_empty())
                .collect()
        })
        .collect()
}

#[test]
fn commands() {
    let gateway = Gateway::start(&[]);
    let done = |line: &[&str]| {
        let (status, shown, error) = poll(&gateway.address, line);
        assert_eq!((status, error.as_str()), (0, ""), "{line:?}");
        shown
    };
    let read = done(&["read", "98", "0", "23"]);
    assert_eq!(words(&read), [["98/0/23", "Short 1", "0"]]);
    assert_eq!(done(&["write", "98", "0", "33", "5"]), "done\n");
    done(&["write", "98", "0", "0", "Pump house", "-1.5"]);
    done(&["write", "124", "1", "13", "98,0,1"]);
    let list = done(&["list", "98/0/0", "98/0/1", "98/0/33", "124/1/13", "122/0/9"]);
    assert_eq!(
        words(&list),
        [
            ["98/0/0", "ASCII Text 1", "\"Pump house\""],
            ["98/0/1", "Float 1", "-1.5"],
            ["98/0/33", "Byte 1", "5"],
            ["124/1/13", "User Weighting TLP", "98,0,1"],
            ["122/0/9", "Resource 1 Status", "0"],
        ]
    );
    done(&["list", "98/0/33=7", "97/0/0=\"Tag\""]);
    done(&["write", "99", "0", "0", "2", "98,0,33", "97,0,0"]);
    done(&["table", "0", "1", "set", "8", "Other"]);
    assert_eq!(
        words(&done(&["table", "0", "1", "2"])),
        [
            ["99/0/0", "Sequence/Revision #", "2.0"],
            ["98/0/33", "Byte 1", "8"],
            ["97/0/0", "Register Tag 1", "\"Other\""],
        ]
    );
    assert_eq!(done(&["clock", "set", "2026-01-02", "03:04:05"]), "done\n");
    assert!(done(&["clock"]).starts_with("2026-01-02 03:04:0"));
    assert!(done(&["clock"]).ends_with(" Friday\n"));
    let dump = done(&["dump", "124", "12"]);
    assert_eq!(
        words(&dump)[0],
        ["124/12/0", "Segment Description", "\"Segment 12\""]
    );
    assert_eq!(words(&dump).len(), 14);
    assert_eq!(words(&done(&["dump", "98"])).len(), 32 * 62);
    assert!(done(&["raw", "01020300", "0700", "7A65"]).contains("weekday 6, Friday"));
    assert!(done(&["--unit", "0", "write", "98", "0", "34", "6"]).contains("none answers"));
    let direct = [
        "--unit", "240", "--group", "240", "read", "98", "0", "33", "2",
    ];
    assert_eq!(
        words(&done(&direct)),
        [["98/0/33", "Byte 1", "8"], ["98/0/34", "Byte 2", "6"]]
    );
    gateway.stop(SIGTERM);
}

#[test]
fn refusals() {
    let gateway = Gateway::at_level(1);
    for (line, said) in [
        (
            &["read", "50", "0", "0"][..],
            "refused: 22, no such point type, place 0",
        ),
        (
            &["write", "98", "0", "1", "inf"],
            "refused: 27, value outside its range, place 4",
        ),
        (&["read", "98", "0", "0", "57"], "refused: 28, "),
        (&["dump", "123"], "refused: 25, level too low, place 0"),
        (&["clock", "set", "2026-02-30", "00:00:00"], "refused: 25, "),
        (&["table", "0", "1", "1"], "refused: 22, "),
    ] {
        let (status, shown, error) = poll(&gateway.address, line);
        assert_eq!((status, shown.as_str()), (1, ""), "{line:?}");
        assert!(error.contains(said), "{error}");
    }
    let (status, shown, error) = poll(&gateway.address, &["raw", "010203001100", "7405"]);
    assert_eq!(status, 1, "{error}");
    assert!(shown.contains("error 20: opcode not served"), "{shown}");
    gateway.stop(SIGTERM);
}

#[test]
fn bad_command_lines() {
    for line in [
        &[][..],
        &["read", "98", "0"],
        &["read", "98", "0", "256"],
        &["write", "98", "0", "33"],
        &["write", "98", "0", "33", "256"],
        &["write", "50", "0", "0", "1"],
        &["list", "98/0"],
        &["list", "98/0/33=1", "98/0/34"],
        &["dump", "50"],
        &["clock", "set", "2026-01-02"],
        &["clock", "set", "2026-01", "00:00:00"],
        &["raw", "123"],
        &["raw", "zz"],
        &["--from", "3", "clock"],
        &["--loud", "1", "clock"],
        &["fetch"],
    ] {
        let (status, shown, error) = poll("127.0.0.1:1", line);
        assert_eq!((status, shown.as_str()), (2, ""), "{line:?}");
        assert!(error.starts_with("poll: "), "{line:?}: {error}");
    }
}

#[test]
fn no_answer() {
    // It listens and never answers.
    let listener = TcpListener::bind("127.0.0.1:0").unwrap();
    let address = listener.local_addr().unwrap().to_string();
    let (status, _, error) = poll(&address, &["--wait", "100", "clock"]);
    assert_eq!(status, 3);
    assert!(error.contains("no answer within 100 ms"), "{error}");
    drop(listener);
    let (status, _, error) = poll(&address, &["clock"]);
    assert_eq!(status, 3);
    assert!(error.contains("the line: "), "{error}");
    let gateway = Gateway::start(&[]);
    let elsewhere = ["--wait", "100", "--unit", "9", "clock"];
    assert_eq!(poll(&gateway.address, &elsewhere).0, 3);
    gateway.stop(SIGTERM);
}
