//! The program `card` on a terminal: styles, `--follow`, the line of progress,
//! and the terminal as it was after Ctrl-C.

use std::ffi::{c_char, c_int, CStr};
use std::fs::{File, OpenOptions};
use std::io::{Read, Write};
use std::os::fd::FromRawFd;
use std::os::unix::fs::OpenOptionsExt;
use std::os::unix::process::{CommandExt, ExitStatusExt};
use std::process::{Child, ChildStdin, Command, ExitStatus, Stdio};
use std::sync::mpsc::{channel, Receiver};
use std::thread;
use std::time::{Duration, Instant};

/// How long what must come is waited for.
const PATIENCE: Duration = Duration::from_secs(20);
const READ_AND_WRITE: c_int = 2;
const NOT_CONTROLLING: c_int = 0o400;
const HANG_UP: c_int = 1;
const INTERRUPT: c_int = 2;
const QUIT: c_int = 3;
/// What a signal does if nothing is said of it.
const DEFAULT: usize = 0;

extern "C" {
    fn posix_openpt(flags: c_int) -> c_int;
    fn grantpt(file: c_int) -> c_int;
    fn unlockpt(file: c_int) -> c_int;
    fn ptsname_r(file: c_int, name: *mut c_char, length: usize) -> c_int;
    fn kill(process: c_int, signal: c_int) -> c_int;
    fn signal(signal: c_int, action: usize) -> usize;
}

/// A terminal of our own: what is written to it comes out here.
struct Terminal {
    /// Held open, so that it keeps its modes.
    held: File,
    pieces: Receiver<Vec<u8>>,
    seen: String,
}

impl Terminal {
    /// A new terminal of so many rows and columns.
    fn new(rows: u16, columns: u16) -> Terminal {
        let mut name = [0; 64];
        // SAFETY: the name's room is good for its length; a file that was opened
        // is owned by the File alone.
        let mut ours = unsafe {
            let ours = posix_openpt(READ_AND_WRITE | NOT_CONTROLLING);
            assert!(ours >= 0);
            assert_eq!(grantpt(ours) | unlockpt(ours), 0);
            assert_eq!(ptsname_r(ours, name.as_mut_ptr(), name.len()), 0);
            File::from_raw_fd(ours)
        };
        // SAFETY: the name was written, and ends with 0.
        let name = unsafe { CStr::from_ptr(name.as_ptr()) }.to_str().unwrap();
        let held = OpenOptions::new()
            .read(true)
            .write(true)
            .custom_flags(NOT_CONTROLLING)
            .open(name)
            .unwrap();
        let (sender, pieces) = channel();
        thread::spawn(move || {
            let mut room = [0; 4_096];
            while let Ok(count) = ours.read(&mut room) {
                if sender.send(room[..count].to_vec()).is_err() {
                    return;
                }
            }
        });
        let terminal = Terminal {
            held,
            pieces,
            seen: String::new(),
        };
        terminal.stty(&["rows", &rows.to_string(), "cols", &columns.to_string()]);
        terminal
    }

    /// The terminal as a file to write to.
    fn file(&self) -> Stdio {
        self.held.try_clone().unwrap().into()
    }

    /// What `stty` says of it with these words.
    fn stty(&self, words: &[&str]) -> Vec<u8> {
        let mut command = Command::new("stty");
        let output = command.args(words).stdin(self.file()).output().unwrap();
        assert!(output.status.success(), "stty {words:?}");
        output.stdout
    }

    /// Waits until this is seen after what was seen before; gives what came up
    /// to its end.
    fn until(&mut self, words: &str) -> String {
        let begun = Instant::now();
        loop {
            if let Some(at) = self.seen.find(words) {
                let rest = self.seen.split_off(at + words.len());
                return std::mem::replace(&mut self.seen, rest);
            }
            let rest = PATIENCE.saturating_sub(begun.elapsed());
            let piece = self.pieces.recv_timeout(rest);
            let piece = piece.unwrap_or_else(|_| panic!("{words:?} not in {:?}", self.seen));
            self.seen += std::str::from_utf8(&piece).unwrap();
        }
    }

    /// Takes what has come, and waits for nothing.
    fn gather(&mut self) {
        let pieces = self.pieces.try_iter();
        let texts = pieces.map(|piece| String::from_utf8(piece).unwrap());
        self.seen.extend(texts);
    }

    /// All that has come, after a mark of our own.
    fn all(&mut self) -> String {
        (&self.held).write_all(b"<end>").unwrap();
        let all = self.until("<end>");
        all.strip_suffix("<end>").unwrap().to_string()
    }
}

/// The program with these words, in the surroundings of a terminal.
fn card(words: &[&str]) -> Command {
    let mut command = Command::new(env!("CARGO_BIN_EXE_card"));
    command.args(words).env_remove("NO_COLOR");
    command.env("TERM", "xterm").stdin(Stdio::piped());
    command
}

/// Starts a command on the terminal.
fn start(terminal: &Terminal, mut command: Command) -> (Child, ChildStdin) {
    command.stdout(terminal.file()).stderr(terminal.file());
    // SAFETY: between fork and exec only `signal` is called, which is allowed
    // there. Signals may be ignored where the tests were started.
    unsafe {
        command.pre_exec(|| {
            for number in [HANG_UP, INTERRUPT, QUIT] {
                signal(number, DEFAULT);
            }
            Ok(())
        });
    }
    let mut child = command.spawn().unwrap();
    let stdin = child.stdin.take().unwrap();
    (child, stdin)
}

/// How a child ends, which it must in time.
fn end(child: &mut Child) -> ExitStatus {
    let begun = Instant::now();
    loop {
        if let Some(status) = child.try_wait().unwrap() {
            return status;
        }
        if begun.elapsed() > PATIENCE {
            child.kill().unwrap();
            panic!("it does not end");
        }
        thread::sleep(Duration::from_millis(5));
    }
}

/// What the terminal gets of an input by a command.
fn shown(command: Command, input: &[u8]) -> String {
    let mut terminal = Terminal::new(24, 80);
    let (mut child, mut stdin) = start(&terminal, command);
    let input = input.to_vec();
    // A child that hangs is killed, and the writing ends.
    thread::spawn(move || stdin.write_all(&input));
    assert_eq!(end(&mut child).code(), Some(0));
    terminal.all()
}

const STYLES: &[u8] =
    b"\x1BEB\x1BFP\x1BGT\x1BH\x1B4I\x1B5\x1B-\x01U \x1B-\x00P\r\n\x1BW\x01WI\x1BW\x00P\r\nA\x08_";

#[test]
fn styles_show() {
    let first = "\x1B[0;1mB\x1B[0mP\x1B[0;1mT\x1B[0;3mI\x1B[0;4mU \x1B[0mP\r\n";
    let second = "\u{FF37}\u{FF29}P\r\n";
    let third = "\x1B[0;4mA\x1B[0m\r\n";
    let lines = [first, second, third].concat();
    assert_eq!(shown(card(&[]), STYLES), lines);
    // An empty NO_COLOR is none.
    let mut command = card(&[]);
    command.env("NO_COLOR", "");
    assert_eq!(shown(command, STYLES), lines);
}

#[test]
fn no_styles_where_none_are_wanted() {
    for (name, value) in [("NO_COLOR", "1"), ("TERM", "dumb")] {
        let mut command = card(&[]);
        command.env(name, value);
        assert_eq!(shown(command, STYLES), "BPTIU P\r\nW I P\r\nA\r\n");
    }
}

/// On a terminal that cannot be drawn over, frames follow each other.
#[test]
fn frames_on_a_dumb_terminal() {
    let mut command = card(&["--follow"]);
    command.env("TERM", "dumb");
    assert_eq!(shown(command, b"\x1BEA"), "A\r\n\x0C\r\n");
}

/// A letter struck over itself is bold, also right after so many were that some
/// are let go: their records, of 14 bytes, are just past 16 KiB.
#[test]
fn bold_of_many() {
    let input = b"A\r".repeat((1 << 14) / 14 + 1);
    assert_eq!(shown(card(&[]), &input), "\x1B[0;1mA\x1B[0m\r\n");
}

/// A double width letter is wide only where it takes two cells: not in a grid of
/// 5 to the inch, and not beside a blank that is a letter's.
#[test]
fn wide_over_two_cells() {
    let input = b"\x1BW\x01A\x1BW\x00  B";
    assert_eq!(shown(card(&[]), input), "\u{FF21}  B\r\n");
    assert_eq!(shown(card(&["--cpi", "5"]), input), "A B\r\n");
    let input = b"\x0F\x1BW\x01A\x1BW\x00   B";
    assert_eq!(shown(card(&["--cpi", "10"]), input), "A  B\r\n");
    assert_eq!(shown(card(&[]), input), "\u{FF21}   B\r\n");
}

const HOME: &str = "\x1B[H";
const BELOW: &str = "\x1B[J";

/// How lines are drawn over others.
fn over(lines: &[&str]) -> String {
    lines
        .iter()
        .map(|line| format!("\x1B[K{line}\r\n"))
        .collect()
}

#[test]
fn redrawn_as_bytes_come() {
    let mut terminal = Terminal::new(24, 80);
    let words = ["--follow", "--slots", "10"];
    let (mut child, mut stdin) = start(&terminal, card(&words));
    let frame = |lines: &[&str], word: &str| {
        let slot = format!("slot 1 (electricians: 0)  {word}");
        let lines = [lines, &[&slot]].concat();
        format!("{HOME}{}{BELOW}", over(&lines))
    };
    let first = format!("\x1B[0m\x1B[2J{}", frame(&[], "(nothing)"));
    assert_eq!(terminal.until(BELOW), first);
    let (locked, released) = ("STATE     LOCKED", "STATE     RELEASED");
    let turned = "---- page 1, turned ----";
    // A page turned stays until the next has something on it.
    let steps: [(&str, &[&str], &str); 4] = [
        (locked, &[locked], "LOCKED"),
        ("\r\nSTATE     RELEASED", &[locked, released], "RELEASED"),
        ("\x0C", &[turned, locked, released], "(nothing)"),
        ("NEXT", &["NEXT"], "(nothing)"),
    ];
    for (input, lines, word) in steps {
        stdin.write_all(input.as_bytes()).unwrap();
        let came = terminal.until(BELOW);
        assert_eq!(came, format!("\x1B[0m{}", frame(lines, word)));
    }
    drop(stdin);
    assert_eq!(end(&mut child).code(), Some(0));
    assert_eq!(terminal.all(), "");
}

/// What does not fit on the screen is left out: the upper lines, and what is
/// too far to the right, where the last cell says so.
#[test]
fn on_a_small_screen() {
    let mut terminal = Terminal::new(5, 6);
    let (mut child, mut stdin) = start(&terminal, card(&["--follow"]));
    stdin
        .write_all(b"1\r\n2\r\n3\r\n4\r\n123456\r\n1234567")
        .unwrap();
    let lines = over(&["… 3 l…", "4", "123456", "12345…"]);
    terminal.until(&format!("{HOME}{lines}{BELOW}"));
    drop(stdin);
    assert_eq!(end(&mut child).code(), Some(0));
}

/// The slots are cut as the page is, and stand below it; a double width letter
/// of which only half has room is left out.
#[test]
fn slots_on_a_small_screen() {
    let page = "\x1B[0;1m\u{FF11}\u{FF12}\u{FF13}…\x1B[0m";
    let all = ["… 2 li…", page, "slot 1…", "slot 2…"];
    for (rows, lines) in [(5, &all[..]), (2, &all[3..])] {
        let mut terminal = Terminal::new(rows, 7);
        let words = ["--follow", "--slots", "0u,720u"];
        let (mut child, mut stdin) = start(&terminal, card(&words));
        stdin.write_all(b"1\r\n2\r\n\x1BW\x01\x1BE1234").unwrap();
        terminal.until(&format!("{HOME}{}{BELOW}", over(lines)));
        drop(stdin);
        assert_eq!(end(&mut child).code(), Some(0));
    }
}

/// A frame is drawn anew where the window has another size, on a cleared screen.
#[test]
fn another_size() {
    let mut terminal = Terminal::new(24, 80);
    let (mut child, mut stdin) = start(&terminal, card(&["--follow"]));
    stdin.write_all(b"\x1BM1234567890").unwrap();
    terminal.until(&format!("{HOME}{}{BELOW}", over(&["1234567890"])));
    terminal.stty(&["rows", "24", "cols", "6"]);
    let clear = "\x1B[0m\x1B[2J";
    terminal.until(&format!("{clear}{HOME}{}{BELOW}", over(&["12345…"])));
    terminal.stty(&["rows", "24", "cols", "40"]);
    terminal.until(&format!("{clear}{HOME}{}{BELOW}", over(&["1234567890"])));
    drop(stdin);
    assert_eq!(end(&mut child).code(), Some(0));
}

/// The grid is no finer than the screen has room for.
#[test]
fn a_grid_for_the_screen() {
    let input = [
        &b"\x1BD\x0A\x14\x1E\x28\x32\x3C\x46\x00"[..],
        b"\x1BMA\tB\tC\tD\tE\tF\tG\tH",
    ]
    .concat();
    let fine = "A         B         C         D         E         F         G         H\r\n";
    assert_eq!(shown(card(&[]), &input), fine);
    let mut terminal = Terminal::new(24, 65);
    let (mut child, mut stdin) = start(&terminal, card(&[]));
    stdin.write_all(&input).unwrap();
    drop(stdin);
    assert_eq!(end(&mut child).code(), Some(0));
    let coarse = "A       B       C        D       E       F        G       H\r\n";
    assert_eq!(terminal.all(), coarse);
}

/// What was passed over is below the page, and the slots, as it comes: a file that
/// grows has no end at which it could be told.
#[test]
fn passed_over_below_the_page() {
    let mut terminal = Terminal::new(24, 80);
    let words = ["--follow", "--slots", "0"];
    let (mut child, mut stdin) = start(&terminal, card(&words));
    let slot = "slot 1 (electricians: 0)  HELD";
    for (input, lines) in [
        ("HELD", &["HELD", slot][..]),
        (
            "\x01",
            &["HELD", slot, "(passed over: 1 unlisted (first at byte 4))"],
        ),
        (
            "\r\x02",
            &["HELD", slot, "(passed over: 2 unlisted (first at byte 4))"],
        ),
    ] {
        stdin.write_all(input.as_bytes()).unwrap();
        terminal.until(&format!("{HOME}{}{BELOW}", over(lines)));
    }
    // SAFETY: the child is ours, and is not waited for yet.
    assert_eq!(unsafe { kill(child.id() as c_int, INTERRUPT) }, 0);
    assert_eq!(end(&mut child).signal(), Some(INTERRUPT));
    assert_eq!(terminal.all(), "");
}

#[test]
fn ended_by_ctrl_c() {
    let mut terminal = Terminal::new(24, 80);
    let before = terminal.stty(&["-g"]);
    let (mut child, mut stdin) = start(&terminal, card(&["--follow"]));
    stdin.write_all(b"\x1BEBOLD").unwrap();
    terminal.until(&format!("BOLD\x1B[0m\r\n{BELOW}"));
    // SAFETY: the child is ours, and is not waited for yet.
    assert_eq!(unsafe { kill(child.id() as c_int, INTERRUPT) }, 0);
    assert_eq!(end(&mut child).signal(), Some(INTERRUPT));
    assert_eq!(terminal.stty(&["-g"]), before);
    assert_eq!(terminal.all(), "");
}

/// The line of progress comes with time, and is gone when text comes.
#[test]
fn progress() {
    let mut terminal = Terminal::new(24, 80);
    let (mut child, mut stdin) = start(&terminal, card(&[]));
    let begun = Instant::now();
    stdin.write_all(b"A\x0C").unwrap();
    terminal.until("A\r\n");
    while !terminal.seen.contains("\x1B[K") {
        assert!(begun.elapsed() < PATIENCE);
        stdin.write_all(b"B").unwrap();
        thread::sleep(Duration::from_millis(50));
        terminal.gather();
    }
    assert_eq!(terminal.until("\x1B[K"), "\r0.0 MB, 1 page\x1B[K");
    drop(stdin);
    assert_eq!(end(&mut child).code(), Some(0));
    let rest = terminal.all();
    let (lines, text) = rest.split_once("\r\x1B[K---- page 2 ----\r\n").unwrap();
    assert_eq!(lines.replace("\r0.0 MB, 1 page\x1B[K", ""), "");
    assert_eq!(text.trim_end_matches("\r\n").replace('B', ""), "");
}

/// Where the text goes elsewhere, the line stays while pages are written.
#[test]
fn progress_beside_text() {
    let mut terminal = Terminal::new(24, 80);
    let mut command = card(&[]);
    command.stdout(Stdio::null()).stderr(terminal.file());
    let mut child = command.spawn().unwrap();
    let mut stdin = child.stdin.take().unwrap();
    let begun = Instant::now();
    while terminal.seen.matches(" MB, ").count() < 2 {
        assert!(begun.elapsed() < PATIENCE);
        stdin.write_all(b"A\x0C").unwrap();
        thread::sleep(Duration::from_millis(20));
        terminal.gather();
    }
    assert!(!terminal.seen.contains("\r\x1B[K"), "{:?}", terminal.seen);
    drop(stdin);
    assert_eq!(end(&mut child).code(), Some(0));
    assert!(terminal.all().ends_with("\r\x1B[K"));
}

/// The share of a file is known. This one is longer than is read in the time;
/// all of it but its first bytes is a hole.
#[test]
fn progress_of_a_file() {
    let mut terminal = Terminal::new(24, 80);
    let name = format!("{}/card-share", env!("CARGO_TARGET_TMPDIR"));
    let mut file = File::create(&name).unwrap();
    file.write_all(b"A\x0CB\x0C").unwrap();
    let length = 1 << 30;
    file.set_len(length).unwrap();
    let mut command = card(&[&name]);
    command.stdout(Stdio::null()).stderr(terminal.file());
    let mut child = command.spawn().unwrap();
    terminal.until("\r");
    let line = terminal.until(" %\x1B[K");
    child.kill().unwrap();
    end(&mut child);
    std::fs::remove_file(&name).unwrap();
    let (read, share) = line.split_once(" MB, 2 pages, ").unwrap();
    let read = read.parse::<f64>().unwrap() * 1e6;
    let share: f64 = share.strip_suffix(" %\x1B[K").unwrap().parse().unwrap();
    assert!(read > 0.0 && read <= length as f64, "{line:?}");
    assert!(
        (share - read * 100.0 / length as f64).abs() <= 1.0,
        "{line:?}"
    );
}
