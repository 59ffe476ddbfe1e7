//! `gimmerskip explain`: each refusal with its words, each hint, and what is pointed at.

mod common;

use common::{fed, run, text, Ended, Folder};

/// What `explain` says of a text that is refused with this number and place.
fn refused(bytes: impl AsRef<[u8]>, number: u32, place: u32) -> Ended {
    let told = format!("standard input: refused {number} {place}: ");
    let ended = fed(&["explain", "-"], bytes).ends(1).prints(&[&told]);
    assert_eq!(ended.err, "");
    assert!(ended.text().is_ascii() && !ended.text().contains('\x1b'), "{}", ended.text());
    ended
}

/// What stands over the carets, in each place where there are some.
fn pointed(ended: &Ended) -> Vec<String> {
    let lines: Vec<&str> = ended.text().lines().collect();
    let pairs = lines.windows(2).filter(|pair| pair[1].trim_matches([' ', '|']).starts_with('^'));
    let over = |pair: &[&str]| {
        let (start, end) = (pair[1].find('^').expect("a caret"), pair[1].len());
        pair[0].get(start..end.min(pair[0].len())).unwrap_or("").to_string()
    };
    pairs.map(over).collect()
}

/// A malformed first line: what it is pointed at, and words that are said.
fn malformed(line: impl AsRef<[u8]>, over: &str, words: &[&str]) {
    let ended = refused(line, 2, 1).prints(words);
    assert_eq!(pointed(&ended), [over], "{}", ended.text());
}

#[test]
fn spaces_in_place_of_tabs() {
    malformed("1 take 3\n", " ", &["line 1 has spaces where a tab has to be", "put one tab"]);
    malformed("1\t take\t3\n", "<tab> ", &["has spaces beside a tab"]);
    malformed("1\ttake\t\t3\n", "<tab><tab>", &["has more than one tab between two fields"]);
    malformed("  1\ttake\t3\n", "  ", &["begins with a space"]);
    malformed("1\ttake\t3 \n", " ", &["has a space after its last field"]);
    malformed("1\u{a0}take\u{a0}3\n", "<c2><a0>", &["no-break space"]);
    malformed("1\u{3000}take\t3\n", "<e3><80><80>", &["has a wide space where a tab has to be"]);
    malformed("1take\t3\n", "t", &["has no tab between two fields", "put one tab, and nothing"]);
    malformed("1,take,3\n", ",", &["has a comma where a tab has to be", "put one tab"]);
    malformed("1\ttake; 3\n", "; ", &["has a semicolon where a tab has to be"]);
}

#[test]
fn ends_of_lines() {
    let windows = "1\ttake\t3\r\n1\tgive\t3\r\n1\tdo\t3\r\n";
    malformed(
        windows,
        "<cr>",
        &["ends with a carriage return", "All 3 lines have this fault.", "Unix newlines (LF)"],
    );
    malformed("1\ttake\t3\r\n1\tgive\t3\r\n", "<cr>", &["Both lines have this fault."]);
    malformed(
        "1\ttake\t3\r\n1\tgive\t3\n1\tdo\t0\r\n",
        "<cr>",
        &["2 of the 3 lines have this fault."],
    );
    malformed("1\ttake\t3\r1\tgive\t3\r", "<cr>", &["carriage return inside"]);
    malformed("1\ttake\t3\r\r\n", "<cr><cr>", &["ends with 2 carriage returns"]);
    malformed("1\t\rtake\t3\n", "<cr>", &["inside\n", "take the carriage return out"]);
    malformed("1\ttake\t3", "", &["has no newline at its end", "the Enter key"]);
    malformed("\n", "", &["line 1 is empty", "take the line out"]);
    malformed("\n\n", "", &["Both lines have this fault.", "take these lines out"]);
    malformed("\t \n", "<tab> ", &["has only spaces or tabs"]);
    let last = refused("1\tdo\t0\n\n", 2, 2).prints(&["line 2 is empty"]);
    assert_eq!(pointed(&last), [""]);
}

#[test]
fn other_kinds_of_text() {
    malformed("\u{feff}1\ttake\t3\n", "<ef><bb><bf>", &["byte order mark", "UTF-8 without"]);
    malformed(b"\xff\xfe1\x00\t\x00", "<ff><fe>", &["UTF-16", "plain text"]);
    malformed(b"1\x00\t\x00\n", "<00>", &["byte of value 0"]);
    malformed("# a plan\n", "# a plan", &["is a remark"]);
    let after = ["has a remark at its end", "take out everything after '3'."];
    malformed("1\ttake\t3\t#pump\n", "<tab>#pump", &after);
    malformed("1\ttake\t3 # pump \n", " # pump ", &after);
    malformed("\u{feff}\n", "<ef><bb><bf>", &["byte order mark", "also is empty"]);
    let lone = fed(&["explain", "-"], "\u{feff}").ends(1);
    assert!(lone.text().ends_with("save the file as UTF-8 without a byte order mark.\n"));
}

#[test]
fn numbers() {
    malformed("1\ttake\t03\n", "03", &["has a leading zero in its device, '03'", "write 3."]);
    malformed("1\tdo\t+3\n", "+3", &["has a sign in its action, '+3'", "write 3."]);
    malformed("1\tdo\t-3\n", "-3", &["has a sign in its action, '-3'"]);
    let high = ["has a sign in its device, '-40'", "To mend it, choose a number from 0 to 31.\n"];
    malformed("1\ttake\t-40\n", "-40", &high);
    malformed("1\ttake\t00032\n", "00032", &["To mend it, choose a number from 0 to 31.\n"]);
    malformed("1.0\ttake\t3\n", "1.0", &["which is not written in digits alone"]);
    malformed("65\tdo\t3\n", "65", &["has job 65, which is out of range: 1 to 64"]);
    malformed("0\tdo\t3\n", "0", &["has job 0, which is out of range: 1 to 64"]);
    malformed("1\tdo\t256\n", "256", &["has action 256, which is out of range: 0 to 255"]);
    malformed("1\tgive\t32\n", "32", &["has device 32, which is out of range: 0 to 31"]);
    malformed("1\tstart\t1\n", "1", &["has started job 1, which is out of range: 2 to 64"]);
    malformed("1\tdo\tx\n", "x", &["has 'x' as its action, which is no number"]);
    malformed("1\tdo\t3\u{e9}\n", "3<c3><a9>", &["'3<c3><a9>'"]);
}

#[test]
fn verbs_and_fields() {
    malformed(
        "1\tTAKE\t3\n",
        "TAKE",
        &["has capitals in its verb, 'TAKE'", "write take in small letters"],
    );
    malformed("1\ttka\t3\n", "tka", &["which is no verb; the nearest is take"]);
    malformed("1\tdrop\t3\n", "drop", &["which is no verb\n", "write do, take, give or start"]);
    malformed("1\ttake\n", "", &["has only two fields of three: its number is missing"]);
    malformed("take\t3\n", "take", &["has only two fields of three: its job is missing"]);
    malformed("1\n", "", &["has only one field of three"]);
    let after = ["has something after its number: 4 fields, not three", "everything after '3'."];
    malformed("1\ttake\t3\t4\n", "<tab>4", &after);
    malformed("1\ttake\t3 4\n", " 4", &after);
    malformed("1\t\t3\n", "<tab><tab>", &["its verb is missing in the middle"]);
    malformed("1\tt\x1b[31mke\t3\n", "t<1b>[31mke", &[]);
}

#[test]
fn several_faults_of_a_line_are_told() {
    let words = [
        "line 1 has job 65",
        "Line 1 also has capitals",
        "Line 1 also ends with a carriage return",
    ];
    malformed("65\tTake\t3\r\n", "65", &words);
}

#[test]
fn other_lines_that_are_malformed_are_told() {
    malformed("1 do 0\n1\tdo\t0\n1\tdo\n", " ", &["Line 3 is malformed too."]);
    malformed(
        "1 do 0\n1 do 0\n1\tdo\n\n",
        " ",
        &["2 of the 4 lines have", "Lines 3 and 4 are malformed too."],
    );
    malformed("\n".repeat(1_200), "", &["All 1,200 lines have this fault.", "take these lines"]);
    let many = "1 do 0\n".to_string() + &"\n".repeat(9);
    malformed(many, " ", &["9 other lines from line 2 to line 10 are malformed too."]);
}

#[test]
fn long_lines_are_cut() {
    let mut line = vec![b'x'; 5_000];
    line.extend(b"\ttake\t3\n");
    let ended = refused(&line, 2, 1);
    assert!(ended.text().lines().all(|line| line.len() < 120), "{}", ended.text());
}

#[test]
fn too_long_and_too_many() {
    let folder = Folder::new();
    let long = "1\tdo\t100\n".repeat(1_400);
    let path = folder.file("long.plan", &long);
    let words = [
        "refused 1 0: the text has more than 12,288 bytes",
        "It has 12,600 bytes, 312 too many.",
        "in line 1366.",
    ];
    run(&["explain", &path]).ends(1).prints(&words);
    refused(&long, 1, 0).prints(&["Byte 12,289, the first too many, stands in line 1366."]);
    let wide = [&b"1\tdo\t1\n"[..], &[b'y'; 13_000]].concat();
    refused(&wide, 1, 0).prints(&["Line 2 is longer than any line of a plan has to be."]);
    let spaces = "1   do   100\n".repeat(1_400);
    let words = ["Line 1 has spaces where a tab has to be.", "put one tab", "split the plan"];
    refused(&spaces, 1, 0).prints(&words);
    let wide: Vec<u8> = long.bytes().flat_map(|byte| [byte, 0]).collect();
    let wide = [&b"\xff\xfe"[..], &wide].concat();
    let words = ["Line 1 begins as a text in UTF-16 does.", "save the file as plain text", "split"];
    assert_eq!(pointed(&refused(&wide, 1, 0).prints(&words)), ["<ff><fe>"]);
    let many = "1\tdo\t1\n".repeat(1_030);
    let words = [
        "something stands after line 1024",
        "The text has 1,030 lines, 6 too many.",
        "split the plan",
    ];
    let ended = refused(&many, 3, 1_025).prints(&words);
    assert_eq!(pointed(&ended), ["1<tab>do<tab>1"]);
}

/// A plan written the short way: what is pointed at, and words that are said.
fn fault(short: &str, number: u32, place: u32, over: &[&str], words: &[&str]) {
    let ended = refused(text(short), number, place).prints(words);
    assert_eq!(pointed(&ended), over, "{}", ended.text());
}

#[test]
fn jobs_out_of_sequence() {
    let gap = [
        "line 2 is of job 3, but the line before is of job 1",
        "Between them job 2 is left out.",
        "  line 1 | 1 ",
    ];
    fault("1 start 3; 3 do 0", 4, 2, &["3"], &gap);
    fault("1 start 5; 5 do 0", 4, 2, &["5"], &["Between them jobs 2 to 4 are left out."]);
    fault("2 do 0", 4, 1, &["2"], &["line 1 is of job 2, and a plan begins with job 1"]);
    let back = [
        "Here a line of job 2 or of job 3 can come.",
        "The lines of job 1 ended with line 2.",
        "put line 4 after line 2",
    ];
    fault("1 start 2; 1 do 0; 2 do 0; 1 do 1", 4, 4, &["1"], &back);
}

#[test]
fn bad_starts() {
    let twice = [
        "line 2 starts job 2, which line 1 starts already",
        "  line 1 | 1 ",
        "take one of the two starts out",
    ];
    fault("1 start 2; 1 start 2; 2 do 7", 5, 2, &["2"], &twice);
    fault(
        "1 do 7; 1 start 2",
        5,
        2,
        &["2"],
        &["line 2 starts job 2, which has no lines", "give job 2 lines"],
    );
    fault(
        "1 start 2; 2 start 2",
        5,
        2,
        &["2"],
        &["which is its own job", "only jobs with higher numbers"],
    );
    let lower = ["line 3 starts job 2, which is lower than its own, job 3"];
    fault("1 start 2; 2 start 3; 3 start 2", 5, 3, &["2"], &lower);
}

#[test]
fn jobs_that_are_never_started() {
    fault(
        "1 do 7; 2 take 0",
        6,
        2,
        &["2"],
        &["line 2 begins job 2, which no line starts", "Only job 1 could"],
    );
    let third = ["Each of jobs 1 and 2 could start it.", "put a start of job 3 into one of them"];
    fault("1 start 2; 2 do 0; 3 do 0; 3 do 1", 6, 3, &["3"], &third);
}

#[test]
fn gives_without_takes() {
    let below = [
        "line 3 gives device 0, but job 1 took device 1 after it, in line 2",
        "There job 1 holds device 0 from line 1 on and device 1 from line 2 on.",
        "  line 2 | 1 ",
        "give device 1 back first",
    ];
    fault("1 take 0; 1 take 1; 1 give 0; 1 give 1", 7, 3, &["0"], &below);
    let nothing = [
        "line 3 gives device 0, but job 1 holds nothing there",
        "Job 1 gave device 0 back in line 2.",
    ];
    fault("1 take 0; 1 give 0; 1 give 0", 7, 3, &["0"], &nothing);
    let other = [
        "line 2 gives device 1, which job 1 does not hold there",
        "There job 1 holds device 0 from line 1 on.",
    ];
    fault("1 take 0; 1 give 1", 7, 2, &["1"], &other);
    let job = ["line 3 gives device 0, but job 2 holds nothing there"];
    fault("1 start 2; 1 take 0; 2 give 0", 7, 3, &["0"], &job);
}

#[test]
fn devices_with_two_lasting_takes() {
    let two = [
        "device 0 is taken and kept to the end in lines 2 and 3",
        "Job 1 takes device 0 in line 2 and never gives it back.",
        "Job 2 takes device 0 in line 3 and never gives it back.",
        "let one of the two jobs give the device back",
        "With a give of device 0 by job 1 after line 2, for example, the plan has an order.",
    ];
    fault("1 start 2; 1 take 0; 2 take 0", 9, 0, &["0", "0"], &two);
    let three = ["lines 3, 4 and 5", "let all but one of these jobs"];
    fault("1 start 2; 1 start 3; 1 take 7; 2 take 7; 3 take 7", 9, 7, &["7"; 3], &three);
}

#[test]
fn circles() {
    let two = [
        "device 0 leads back to itself, in a circle of 2 devices",
        "job 1 keeps device 0 from line 2 on; after that line 3 needs device 1\n",
        "job 2 keeps device 1 from line 5 on; after that line 6 needs device 0\n",
        "break the circle at one place",
        "With lines 3 and 4 put before line 2, for example, the plan has an order.",
    ];
    fault(
        "1 start 2; 1 take 0; 1 take 1; 1 give 1; 2 take 1; 2 take 0; 2 give 0",
        10,
        0,
        &["0"],
        &two,
    );
    let one = [
        "device 0 is needed behind the line that keeps it to the end",
        "job 1 keeps device 0 from line 1 on; after that line 4 needs device 0 (in job 2, started after that)",
        "put the start that leads to line 4 before line 1",
        "With line 2 put before line 1, for example, the plan has an order.",
    ];
    fault("1 take 0; 1 start 2; 1 do 7; 2 take 0; 2 give 0", 10, 0, &["0"], &one);
}

#[test]
fn a_shorter_circle_is_told_too() {
    let words = [
        "device 0 leads back to itself, in a circle of 2 devices\n",
        "job 1 keeps device 0 from line 2 on; after that line 4 needs device 1 (in job 2, started after that)\n",
        "job 1 keeps device 1 from line 1 on; after that line 2 keeps device 0\n",
        "What a job keeps to the end no other can take any more: so each of these devices would have to be\n\
         kept before the next one is, and device 0 before itself.\n",
        "A shorter circle is there too: device 1 is needed behind the line that keeps it to the end.\n",
        "job 1 keeps device 1 from line 1 on; after that line 4 needs device 1 (in job 2",
        "put the start that leads to line 4 before line 1.\n",
        "With line 3 put before line 1, for example, the plan has an order.\n",
    ];
    let plan = "1 take 1; 1 take 0; 1 start 2; 2 take 1; 2 give 1";
    let ended = refused(text(plan), 10, 0).prints(&words);
    assert!(!ended.text().contains("line 2 needs") && !ended.text().contains("waits"));
}

#[test]
fn several_devices_are_given_back() {
    let words =
        ["With gives of device 1 and device 0 by job 1 after line 3, for example, the plan has"];
    refused(text("1 start 2; 1 take 0; 1 take 1; 2 take 0; 2 take 2"), 9, 0).prints(&words);
}

#[test]
fn an_accepted_plan_is_told_job_by_job() {
    let words = "\
standard input: accepted, 7 lines, 1 device stays held

Job 1, lines 1 to 4, which begins by itself:
  holds device 3 from line 2 to line 4

Job 2, lines 5 to 7, started in line 1:
  holds device 3 from line 5 to the end
  holds device 5 from line 6 to line 7

Held to the end: device 3 by job 2.
The plan has an order: `gimmerskip order --steps` shows it.
";
    let plan = "1 start 2; 1 take 3; 1 do 7; 1 give 3; 2 take 3; 2 take 5; 2 give 5";
    assert_eq!(fed(&["explain", "-"], text(plan)).ends(0).text(), words);
    fed(&["explain", "-"], "").ends(0).prints(&["accepted, 0 lines, no device stays held"]);
    fed(&["explain", "-"], "1\tdo\t0\n").ends(0).prints(&["accepted, 1 line, ", "holds no device"]);
}
