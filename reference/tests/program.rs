//! The program: standard input to standard output.

mod common;

use common::lines;
use std::io::Write;
use std::process::{Command, Stdio};

/// What the program prints for a text, literal or fast.
fn prints(text: &[u8], arguments: &[&str]) -> String {
    let mut program = Command::new(env!("CARGO_BIN_EXE_reference"))
        .args(arguments)
        .stdin(Stdio::piped())
        .stdout(Stdio::piped())
        .spawn()
        .expect("the program starts");
    program.stdin.take().expect("an input").write_all(text).expect("the program reads to the end");
    let output = program.wait_with_output().expect("the program ends");
    assert!(output.status.success());
    String::from_utf8(output.stdout).expect("the table is ASCII")
}

#[test]
fn both_print_the_sample_sheet() {
    let table = ["stratum source df", "U U 1", "U =total 1", "Hut =total 1", "E Gain 1", "E =residual 1", "E =total 2", "=all =total 4"];
    for arguments in [&[][..], &["--fast"]] {
        assert_eq!(prints(b"p:Hut\tt:Gain\n1\t1\n1\t2\n2\t1\n2\t2\n", arguments), lines(&table));
    }
}

#[test]
fn both_convert_a_sheet_numbered_within_a_parent() {
    for arguments in [&["convert"][..], &["--fast", "convert"]] {
        let converted = prints(b"p:Bench\tp:Section/Bench\n1\t1\n1\t2\n2\t1\n2\t2\n", arguments);
        assert_eq!(converted, lines(&["p:Bench p:Section", "1 1", "1 2", "2 3", "2 4"]));
        assert_eq!(prints(b"p:Section/Bench\tp:Bench\n1\t1\n", arguments), lines(&["refused 23 - -"]));
    }
}

#[test]
fn both_write_the_sheet_of_a_formula() {
    for arguments in [&["formula"][..], &["--fast", "formula"]] {
        let sheet = lines(&["p:Hut p:Pier", "1 1", "1 2", "2 3", "2 4"]);
        // One line end after the formula is no part of it; a second one is, and so is one before it.
        assert_eq!(prints(b"Hut=2/Pier=2", arguments), sheet);
        assert_eq!(prints(b"Hut=2/Pier=2\n", arguments), sheet);
        for text in [&b"Hut=2/Pier=2\n\n"[..], b"\nHut=2/Pier=2", b"Hut=2/\nPier=2", b"Hut=2/Pier=2\r\n", b"\n", b"Hut"] {
            assert_eq!(prints(text, arguments), lines(&["refused 17 - -"]), "{text:?}");
        }
        assert_eq!(prints(b"Hut=16*Pier=16\n", arguments), lines(&["refused 18 - -"]));
        // 256 bytes and a line end; a formula of 257 bytes; much more.
        let long = |pairs: usize, name: &str| ["(".repeat(pairs), format!("{name}=2"), ")".repeat(pairs), "\n".to_string()].concat();
        assert_eq!(prints(long(126, "Aa").as_bytes(), arguments), lines(&["p:Aa", "1", "2"]));
        assert_eq!(prints(long(126, "Aaa").as_bytes(), arguments), lines(&["refused 17 - -"]));
        for length in [0, 257, 32_769, 1_000_000] {
            assert_eq!(prints(&vec![b'('; length], arguments), lines(&["refused 17 - -"]));
            assert_eq!(prints(&vec![b'\n'; length], arguments), lines(&["refused 17 - -"]));
        }
    }
}

#[test]
fn any_length_of_input_is_read() {
    for arguments in [&[][..], &["--fast"], &["convert"], &["--fast", "convert"]] {
        for length in [0, 32_769, 1_000_000] {
            assert_eq!(prints(&vec![b'1'; length], arguments), lines(&["refused 2 - -"]));
        }
        assert_eq!(prints(&[b'1'; 32_768], arguments), lines(&["refused 3 - -"]));
    }
}
