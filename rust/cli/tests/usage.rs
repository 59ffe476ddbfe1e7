//! Arguments, help, names and colours.

mod common;

use common::{command, ended, fed, run, text, Folder};
use std::process::Command;

#[test]
fn help_and_version() {
    let all = run(&["--help"]).ends(0);
    for word in ["order", "explain", "table", "move", "check", "judge"] {
        assert!(all.text().contains(&format!("\n  {word} ")), "{word}");
        let page = run(&[word, "--help"]).ends(0);
        assert!(page.text().starts_with(&format!("use: gimmerskip {word} ")), "{word}");
        assert_eq!(page.err, "");
    }
    run(&["order", "--help"]).prints(&["order and without their names."]);
    assert_eq!(
        run(&["--version"]).ends(0).text(),
        format!("gimmerskip {}\n", env!("CARGO_PKG_VERSION"))
    );
}

#[test]
fn wrong_use_is_trouble() {
    let wrong: [(&[&str], &str); 12] = [
        (&[], "a command is missing"),
        (&["water"], "unknown command water"),
        (&["order"], "order needs more operands"),
        (&["check"], "check needs more operands"),
        (&["explain", "a", "b"], "b is one operand too many"),
        (&["move", "a", "1"], "move needs more operands"),
        (&["judge", "a"], "judge needs more operands"),
        (&["judge", "a", "b", "c"], "c is one operand too many"),
        (&["order", "-x"], "unknown option -x"),
        (&["table", "--steps", "a"], "table has no option --steps"),
        (&["order", "a", "--names"], "--names needs a file"),
        (&["move", "a", "-1", "3"], "unknown option -1"),
    ];
    for (arguments, words) in wrong {
        let ended =
            run(arguments).ends(2).says(&[&format!("gimmerskip: {words}\n"), "use: gimmerskip "]);
        assert_eq!(ended.text(), "");
    }
}

#[test]
fn an_empty_name_is_no_file() {
    let wrong: [&[&str]; 4] = [
        &["explain", ""],
        &["order", ""],
        &["order", "--names=", "-"],
        &["table", "--names", "", "-"],
    ];
    for arguments in wrong {
        let ended = run(arguments).ends(2);
        assert_eq!((ended.text(), &ended.err[..]), ("", "gimmerskip: an empty name is no file\n"));
    }
}

#[test]
fn files_that_look_like_options() {
    let folder = Folder::new();
    folder.file("-x", text("1 take 0"));
    for arguments in [["order", "--", "-x"], ["--", "order", "-x"], ["order", "./-x", "./-x"]] {
        let mut command = command(&arguments);
        let ended =
            ended(command.current_dir(&folder.path).spawn().expect("it can be started")).ends(0);
        assert!(ended.text().starts_with("order\t1\t1\n1\n"));
    }
}

#[test]
fn names_are_used_in_all_words() {
    let folder = Folder::new();
    let names = folder.file("n", "# devices\n0\tpump\n\n1\tdosing tank\n");
    let say = |bytes: &[u8], words: &[&str]| {
        fed(&["explain", "--names", &names, "-"], bytes).prints(words);
    };
    let ring = text("1 start 2; 1 take 0; 1 take 1; 1 give 1; 2 take 1; 2 take 0; 2 give 0");
    say(&ring, &["job 1 keeps device 0 (pump) from line 2 on; after that line 3 needs device 1 (dosing tank)\n"]);
    say(
        &text("1 take 0; 1 take 1; 1 give 0"),
        &["gives device 0 (pump), but job 1 took device 1 (dosing tank)"],
    );
    say(&text("1 start 2; 1 take 0; 2 take 0"), &["device 0 (pump) is taken and kept"]);
    say(&text("1 take 0; 1 take 2"), &["holds device 0 (pump) from", "holds device 2 from"]);
    // Before the subcommand as well, and for every subcommand.
    fed(&["--names", &names, "check", "-"], &ring).ends(1).prints(&["device 0 (pump) leads back"]);
    fed(&["order", "-", "--names", &names], &ring).ends(1).says(&["device 0 (pump) leads back"]);
}

#[test]
fn names_that_are_wrong_are_trouble() {
    let folder = Folder::new();
    let plan = folder.file("p", text("1 take 0"));
    let wrong: [(&[u8], &str); 11] = [
        (b"0\tpump\n32\ttank\n", "line 2: there is no device 32"),
        (b"0\tpump\n0\ttank\n", "line 2: device 0 has a name already"),
        (b"0\tpump\n1\tpump\n", "line 2: devices 0 and 1 have the same name, pump"),
        (b"\n0\t\n", "line 2: the name of device 0 is empty"),
        (b"0\tpu\x07mp\n", "line 1: the name of device 0 has a control character"),
        (b"0\tpump\r\n", "line 1: the name of device 0 ends with a carriage return"),
        (b"\r\n0\tpump\r\n", "line 1: has a carriage return: save the file with Unix newlines"),
        (b"\xef\xbb\xbf# devices\n", "line 1: begins with a byte order mark: save the file"),
        (b"0 pump\n", "line 1: a device, a tab and a name are needed"),
        (b"x\tpump\n", "line 1: 'x' is no device's number"),
        (b"0\t\xff\n", "line 1: is not UTF-8"),
    ];
    for (bytes, words) in wrong {
        let names = folder.file("n", bytes);
        let ended = run(&["order", "--names", &names, &plan]).ends(2).says(&[words]);
        assert_eq!(ended.text(), "", "nothing is printed before the names are known");
    }
    let none = folder.path.join("none").to_str().unwrap().to_string();
    run(&["order", "--names", &none, &plan]).ends(2).says(&["No such file"]);
}

/// What a run prints on a terminal, where the system has a way to make one.
fn on_terminal(environment: &str, arguments: &str) -> Option<String> {
    let line = format!("env -u NO_COLOR {environment} {} {arguments}", common::GIMMERSKIP);
    let output = Command::new("script").args(["-qec", &line, "/dev/null"]).output().ok()?;
    String::from_utf8(output.stdout).ok()
}

#[test]
fn colours_are_for_terminals() {
    let folder = Folder::new();
    let bad = folder.file("bad", "1\tTake\t0\n");
    let Some(coloured) = on_terminal("TERM=xterm", &format!("explain {bad}")) else { return };
    assert!(coloured.contains("\x1b[1;31mrefused\x1b[0m 2 1"), "{coloured:?}");
    assert!(coloured.contains("\x1b[1;31m^^^^\x1b[0m"), "{coloured:?}");
    for environment in ["TERM=dumb", "TERM=xterm NO_COLOR=1", "TERM=xterm NO_COLOR="] {
        let plain = on_terminal(environment, &format!("explain {bad}")).expect("a terminal");
        assert!(plain.contains("refused 2 1") && !plain.contains('\x1b'), "{plain:?}");
    }
    // What the program prints has no colours anywhere.
    let print = on_terminal("TERM=xterm", &format!("order {bad} 2>/dev/null")).expect("a terminal");
    assert!(print.contains("refused\t2\t1") && !print.contains('\x1b'), "{print:?}");
    assert!(!run(&["explain", &bad]).ends(1).text().contains('\x1b'));
}
