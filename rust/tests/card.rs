//! The program `card`: its text and pictures of worked cards against stored
//! ones (rust/tests/card/README.md), the slots, usage, and long captures.

use std::ffi::{c_int, OsStr};
use std::fs;
use std::io::{BufRead, BufReader, Read, Write};
use std::os::unix::ffi::OsStrExt;
use std::path::{Path, PathBuf};
use std::process::{Child, Command, Output, Stdio};
use std::sync::mpsc::{channel, RecvTimeoutError, Sender};
use std::thread;
use std::time::Duration;

/// The slots of a card at columns 10, 20 .. 70.
const SLOTS: [&str; 2] = ["--slots", "10,20,30,40,50,60,70"];

/// How long the program may run before it is killed, so that no test waits
/// without end.
const PATIENCE: Duration = Duration::from_secs(120);
const KILL: c_int = 9;

extern "C" {
    fn kill(process: c_int, signal: c_int) -> c_int;
}

/// A child that is killed when its time is over, unless this is gone before.
struct Limit {
    _gone: Sender<()>,
}

impl Limit {
    fn new(child: &Child) -> Limit {
        let process = child.id() as c_int;
        let (gone, wait) = channel::<()>();
        thread::spawn(move || {
            if wait.recv_timeout(PATIENCE) == Err(RecvTimeoutError::Timeout) {
                // SAFETY: no memory is touched; the child is ours, and the limit
                // is gone once it was waited for.
                unsafe { kill(process, KILL) };
            }
        });
        Limit { _gone: gone }
    }
}

/// A file of this folder's cards.
fn stored(name: &str) -> PathBuf {
    Path::new(env!("CARGO_MANIFEST_DIR"))
        .join("tests/card")
        .join(name)
}

/// The program with these words, without an input.
fn card(words: &[&str]) -> Command {
    let mut command = Command::new(env!("CARGO_BIN_EXE_card"));
    command.args(words).env_remove("NO_COLOR");
    command.stdin(Stdio::null());
    command
}

/// What comes of the program with these words and this input.
fn run(words: &[&str], input: &[u8]) -> Output {
    let mut command = card(words);
    command.stdin(Stdio::piped());
    command.stdout(Stdio::piped()).stderr(Stdio::piped());
    let mut child = command.spawn().unwrap();
    let _limit = Limit::new(&child);
    let mut stdin = child.stdin.take().unwrap();
    let input = input.to_vec();
    // What is wrong with the words may end it before it reads.
    let writer = thread::spawn(move || drop(stdin.write_all(&input)));
    let output = child.wait_with_output().unwrap();
    writer.join().unwrap();
    output
}

/// What it says where words of the text are not at their places.
const CROWDED: &str =
    "card: letters stand closer than the text's cells, words are moved or cut; see --cpi\n";

/// What it says where the slots named are not the card's.
const OUT_OF_STEP: &str = "card: the card is out of step with --slots; --slot-stops goes by its \
                           tab stops, 10,20@12 names columns of 12 to the inch, 0.833in or 3000u \
                           a place\n";

/// What it prints, with this on standard error.
fn prints_and_says(words: &[&str], input: &[u8], said: &str) -> String {
    let output = run(words, input);
    assert_eq!(String::from_utf8_lossy(&output.stderr), said, "{words:?}");
    assert_eq!(output.status.code(), Some(0), "{words:?}");
    String::from_utf8(output.stdout).unwrap()
}

/// What it prints, without a complaint.
fn prints(words: &[&str], input: &[u8]) -> String {
    prints_and_says(words, input, "")
}

/// A new folder that is gone with the value.
struct Folder(PathBuf);

impl Folder {
    fn new(name: &str) -> Folder {
        let path = Path::new(env!("CARGO_TARGET_TMPDIR")).join(name);
        let _ = fs::remove_dir_all(&path);
        fs::create_dir_all(&path).unwrap();
        Folder(path)
    }

    /// The names of its files, in order.
    fn names(&self) -> Vec<String> {
        let names = fs::read_dir(&self.0).unwrap();
        let name = |entry: fs::DirEntry| entry.file_name().into_string().unwrap();
        let mut names: Vec<String> = names.map(|entry| name(entry.unwrap())).collect();
        names.sort();
        names
    }
}

impl Drop for Folder {
    fn drop(&mut self) {
        let _ = fs::remove_dir_all(&self.0);
    }
}

/// Text and pictures of a card at both resolutions are the stored ones, with
/// pages of these numbers; this is said. Pictures have exact places, so they are
/// the same at both.
fn as_stored(name: &str, pages: &[u32], words: &[&str], said: &str) {
    let input = stored(&format!("{name}.prn"));
    let input = input.to_str().unwrap();
    for (dots, ending) in [("300", ""), ("203", "-203")] {
        let words = [words, &["--dots", dots, input]].concat();
        let text = fs::read_to_string(stored(&format!("{name}{ending}.txt"))).unwrap();
        assert_eq!(prints_and_says(&words, b"", said), text, "{name}{ending}");
        let folder = Folder::new(&format!("card-{name}{ending}"));
        let prefix = folder.0.join(name);
        let words = [&words[..], &["--svg", prefix.to_str().unwrap()]].concat();
        assert_eq!(prints_and_says(&words, b"", said), "", "{name}{ending}");
        let picture = |page: &u32| format!("{name}-{page}.svg");
        let names: Vec<String> = pages.iter().map(picture).collect();
        assert_eq!(folder.names(), names);
        for picture in &names {
            let came = fs::read_to_string(folder.0.join(picture)).unwrap();
            let kept = fs::read_to_string(stored(picture)).unwrap();
            assert!(came == kept, "{picture} is another at {dots} dots");
        }
    }
}

#[test]
fn a_card_on_which_released_moves() {
    as_stored("moves", &[1], &[], "");
}

#[test]
fn styles() {
    as_stored("styles", &[1], &[], "");
}

#[test]
fn lines_that_lie_close_and_letters_struck_over() {
    as_stored("close", &[1], &[], "");
}

#[test]
fn an_automatic_line_on_narrow_paper() {
    as_stored("narrow", &[1], &["--width", "7200"], "");
}

#[test]
fn pages_and_a_voided_line() {
    as_stored("pages", &[1, 2, 4], &[], "");
}

/// A form: channel 3 has stops at lines 2 and 6, and channel 5 at line 8, where
/// ESC B's is at line 4.
#[test]
fn vertical_channels() {
    let form = b"\x1Bb\x03\x02\x06\x00\x1Bb\x05\x08\x00\x1BB\x04\x00";
    let fields = b"\x1B/\x03A\x0BB\x0BC\x1B/\x05\x0BD";
    let came = prints(&[], &[&form[..], fields].concat());
    assert_eq!(came, "A\n\nB\n\n\n\nC\n\nD\n");
}

#[test]
fn images_of_every_mode() {
    let said = "card: passed over: 1 not allowed (first at byte 630)\n";
    as_stored("images", &[1], &[], said);
}

/// RELEASED stands under the 4, however close its letters and the blanks before
/// it are, and also where these are underlined.
#[test]
fn columns_of_closer_letters() {
    let heading = "SLOT      1         2         3         4         5         6         7\n";
    let line = "STATE                                   RELEASED\n";
    // How each pitch is chosen, the blanks before column 40, and what ends it.
    let pitches: [(&[u8], usize, &[u8]); 6] = [
        (b"", 35, b""),
        (b"\x1BM", 43, b"\x1BP"),
        (b"\x1Bg", 55, b"\x1BP"),
        (b"\x0F", 62, b"\x12"),
        (b"\x1BM\x0F", 75, b"\x12\x1BP"),
        (b"\x0F\x1B-1", 62, b"\x1B-0\x12"),
    ];
    for dots in ["300", "203"] {
        for (begin, blanks, end) in pitches {
            let mut input = heading.replace('\n', "\r\n").into_bytes();
            input.extend_from_slice(begin);
            input.extend_from_slice(b"STATE");
            input.extend(vec![b' '; blanks]);
            input.extend_from_slice(b"RELEASED");
            input.extend_from_slice(end);
            let came = prints(&["--cpi", "10", "--dots", dots], &input);
            assert_eq!(came, format!("{heading}{line}"), "{}", begin.escape_ascii());
        }
    }
}

/// The grid follows the letters of a page, so that none is cut; a page of several
/// pitches has that of the narrowest.
#[test]
fn the_grid_follows_the_page() {
    let words = "RELEASED  LOCKED    RELEASED  HELD\n";
    let table = b"\x1BD\x0A\x14\x1E\x00RELEASED\tLOCKED\tRELEASED\tHELD";
    for pitch in [&b""[..], b"\x1BM", b"\x1Bg", b"\x0F", b"\x1BM\x0F"] {
        for dots in ["300", "203"] {
            let input = [pitch, table].concat();
            assert_eq!(prints(&["--dots", dots], &input), words);
        }
    }
    let mixed = b"TEN TO THE\r\n\x1BMTWELVE TO";
    assert_eq!(prints(&[], mixed), "TEN TO  THE\nTWELVE TO\n");
    // Each page has its own.
    let pages = b"\x1BMA B\x0C\x1BPA B";
    assert_eq!(prints(&[], pages), "A B\n---- page 2 ----\nA B\n");
}

/// Double width letters have even cells in every pitch; ESC SP is space between
/// letters where it is as wide as a cell.
#[test]
fn even_cells() {
    let wide = "I N T E R L O C K   S E V E N\n";
    for pitch in [&b""[..], b"\x1BM", b"\x1Bg", b"\x0F", b"\x1BM\x0F"] {
        let input = [pitch, b"\x1BW\x01INTERLOCK SEVEN\r\n"].concat();
        assert_eq!(prints(&[], &input), wide, "{}", pitch.escape_ascii());
    }
    assert_eq!(
        prints(&["--cpi", "10"], b"\x1BM\x1BW\x01LOCK UP"),
        "LOCK    UP\n"
    );
    assert_eq!(prints(&[], b"\x1B \x12HELD"), "H E L D\n");
    assert_eq!(prints(&[], b"\x1B \x05\x1BW\x01HELD"), "H E L D\n");
    assert_eq!(prints(&[], b"\x1B \x24HELD"), "H  E  L  D\n");
}

/// In a grid that was asked for words in columns stay there, and are cut where the
/// next one leaves no room; running text goes on to the right; a finer grid has
/// room for all.
#[test]
fn words_without_room() {
    let ten = ["--cpi", "10"];
    let table = b"\x0F\x1BD\x0A\x14\x1E\x00RELEASED\tLOCKED\tRELEASED\tHELD";
    let came = prints_and_says(&ten, table, CROWDED);
    assert_eq!(came, "RELEA…LOCKE…RELEA…HELD\n");
    let came = prints(&["--cpi", "17"], table);
    assert_eq!(came, "RELEASED  LOCKED    RELEASED  HELD\n");
    let running = b"\x1BMTWELVE TO THE INCH";
    let came = prints_and_says(&ten, running, CROWDED);
    assert_eq!(came, "TWELVE»TO»THE»INCH\n");
    let came = prints(&["--cpi", "12"], running);
    assert_eq!(came, "TWELVE TO THE INCH\n");
    // Frames say it too.
    let came = prints(&["--follow", "--cpi=10"], running);
    let said = CROWDED.strip_prefix("card: ").unwrap().trim_end();
    assert_eq!(came, format!("TWELVE»TO»THE»INCH\n({said})\n\x0C\n"));
    // No letter is lost without a sign, even before the first column.
    let close = b"\x1BM\x0FA\x1B\\\x07\x00B\x1B$\x3C\x00CCC";
    let came = prints_and_says(&ten, close, CROWDED);
    assert_eq!(came, "A»B       CCC\n");
}

/// A running line that has no room says of each word that it is not at its place:
/// RELEASED is on paper under the 3.
#[test]
fn running_text_under_a_heading() {
    let heading = "SLOT      1         2         3         4         5";
    let line = b"\r\n\x1B$\x3C\x00\x0FLOCKED-SINCE-MON LOCKED-SINCE-TUE RELEASED";
    let input = [heading.as_bytes(), line].concat();
    let came = prints_and_says(&["--cpi", "10"], &input, CROWDED);
    let moved = "          LOCKED-SINCE-MON»LOCKED-SINCE-TUE»RELEASED\n";
    assert_eq!(came, format!("{heading}\n{moved}"));
}

/// Letters of one word are beside each other, also where their cells are not.
#[test]
fn no_blanks_within_words() {
    let spaced = b"\x1B \x02XXXXXXXINOPERATIVE";
    assert_eq!(prints(&[], spaced), "XXXXXXXINOPERATIVE\n");
    for cpi in ["11", "12", "15", "17"] {
        let came = prints(&["--cpi", cpi], b"SLOT      UNRELEASED");
        assert!(came.ends_with(" UNRELEASED\n"), "{came}");
    }
}

/// Reduced letters set one by one, a tenth of an inch apart, are one word.
#[test]
fn letters_set_one_by_one() {
    let set = |(place, letter): (u8, &u8)| [0x1B, b'$', 6 * place, 0, *letter];
    let mut input = b"\x0F".to_vec();
    input.extend((10..).zip(b"RELEASED").flat_map(set));
    assert_eq!(prints(&["--cpi=10"], &input), "          RELEASED\n");
    assert_eq!(
        prints(&["--slots", "1in"], &input),
        slot_lines(&["RELEASED"])
    );
}

/// The folder of the card in README.
fn docs() -> PathBuf {
    Path::new(env!("CARGO_MANIFEST_DIR")).join("../docs")
}

/// The text in README is what the program prints of its card.
#[test]
fn the_text_of_the_how_to() {
    let input = docs().join("card.prn");
    let text = prints(&[input.to_str().unwrap()], b"");
    let indented = |line| match line {
        "" => "\n".to_string(),
        _ => format!("    {line}\n"),
    };
    let text: String = text.lines().map(indented).collect();
    let how_to = fs::read_to_string(docs().join("../README.md")).unwrap();
    assert!(how_to.contains(&format!("\nprints\n\n{text}\n")), "{text}");
    let asked = [&SLOTS[..], &[input.to_str().unwrap()]].concat();
    let mut words = ["LOCKED"; 7];
    words[3] = "RELEASED";
    assert_eq!(prints(&asked, b""), slot_lines(&words));
}

/// The marked slots in README are what the program prints of such a card.
#[test]
fn the_marked_slots_of_the_how_to() {
    let input = b"\x1BD\x0A\x14\x1E\x28\x32\x3C\x46\x00STATE\t\t\t\tNOT RELEASED";
    let came = prints(&SLOTS, input);
    let lines: Vec<&str> = came.lines().collect();
    let marked = format!("\n    {}\n    {}\n", lines[3], lines[4]);
    assert!(marked.contains("NOT RELEASED (begins before the slot)"));
    let how_to = fs::read_to_string(docs().join("../README.md")).unwrap();
    assert!(how_to.contains(&marked), "{marked}");
}

/// The picture in README is what the program makes of its card.
#[test]
fn the_picture_of_the_how_to() {
    let docs = docs();
    let folder = Folder::new("card-how-to");
    let prefix = folder.0.join("card");
    let input = docs.join("card.prn");
    let words = ["--svg", prefix.to_str().unwrap(), input.to_str().unwrap()];
    assert_eq!(prints(&words, b""), "");
    assert_eq!(folder.names(), ["card-1.svg"]);
    let came = fs::read_to_string(folder.0.join("card-1.svg")).unwrap();
    let kept = fs::read_to_string(docs.join("card.svg")).unwrap();
    assert!(came == kept, "docs/card.svg is another");
}

/// Pieces of any length give the same: the file at once, and byte by byte.
#[test]
fn cut_anywhere() {
    let input = fs::read(stored("pages.prn")).unwrap();
    let text = fs::read_to_string(stored("pages.txt")).unwrap();
    assert_eq!(prints(&[], &input), text);
    let mut child = card(&["-"])
        .stdin(Stdio::piped())
        .stdout(Stdio::piped())
        .spawn()
        .unwrap();
    let _limit = Limit::new(&child);
    let mut stdin = child.stdin.take().unwrap();
    for byte in input.chunks(1) {
        stdin.write_all(byte).unwrap();
        stdin.flush().unwrap();
    }
    drop(stdin);
    let output = child.wait_with_output().unwrap();
    assert_eq!(String::from_utf8(output.stdout).unwrap(), text);
}

/// Files are captures of their own, under their names; joined they are one stream.
#[test]
fn several_files() {
    let folder = Folder::new("card-several");
    let (one, two) = (folder.0.join("one"), folder.0.join("two"));
    // The first is cut off within an escape.
    fs::write(&one, b"A\x1BW\x01\x1B").unwrap();
    fs::write(&two, b"EB").unwrap();
    let (one, two) = (one.to_str().unwrap(), two.to_str().unwrap());
    assert_eq!(
        prints(&[one, "--", two], b""),
        format!("==== {one} ====\nA\n==== {two} ====\nEB\n")
    );
    assert_eq!(prints(&["--join", one, "--", two], b""), "AB\n");
    assert_eq!(prints(&["--join", "--", two, "-"], b"C"), "EBC\n");
    assert_eq!(
        prints(&["--slots", "0", two, "-"], b"C"),
        format!(
            "==== {two} ====\n{}==== standard input ====\n{}",
            slot_lines(&["EB"]),
            slot_lines(&["C"])
        )
    );
    // What is passed over is told of each.
    let said = "card: standard input: passed over: 1 unlisted (first at byte 1)\n";
    let came = prints_and_says(&[two, "-"], b"C\x01", said);
    assert!(came.ends_with("\nC\n"), "{came}");
    // Frames have the name too.
    let came = prints(&["--follow", two, "-"], b"C");
    assert!(
        came.ends_with("==== standard input ====\nC\n\x0C\n"),
        "{came}"
    );
}

/// What was passed over is told at the end, by its reasons, with the places of the
/// first; it is no failure, unless by `--strict`.
#[test]
fn passed_over() {
    let input =
        b"A\x01\x1B$\xFF\xFF\x01\x1BA\x56\x1BD\x00\t\x1BD\x0A\x00\x1BQ\x02\x1BW\x01\x1Bl\x01\
                  \x1B \x7F\x1B?";
    let said = "card: passed over: 3 unlisted (first at byte 1), 1 not allowed (first at byte 9), \
                2 past limits (first at byte 5), 1 without a stop (first at byte 13)\n";
    for words in [&[][..], &["--records"], &["--follow"], &["--json"]] {
        let output = run(words, input);
        assert_eq!(String::from_utf8_lossy(&output.stderr), said, "{words:?}");
        assert_eq!(output.status.code(), Some(0), "{words:?}");
        let strict = run(&[words, &["--strict"]].concat(), input);
        assert_eq!(strict.stdout, output.stdout, "{words:?}");
        assert_eq!(strict.stderr, output.stderr, "{words:?}");
        assert_eq!(strict.status.code(), Some(1), "{words:?}");
    }
    prints(&["--strict"], b"A");
    // Far on, and by every reason.
    let many = [
        &b"A\r".repeat(100_000)[..],
        b"\x01",
        &b"B\r".repeat(100_000),
    ]
    .concat();
    let said = "card: passed over: 1 unlisted (first at byte 200000)\n";
    assert_eq!(prints_and_says(&[], &many, said), "B\n");
    let said = "card: passed over: 1 without room (first at byte 5)\n";
    prints_and_says(&["--width=7200"], b"\x1B \x7F\x1BW\x01A", "");
    prints_and_says(
        &[],
        b"\x1BQ\x01\x1BW\x01A",
        &said.replace("byte 5", "byte 6"),
    );
}

/// Records in words are the worked cases' own.
#[test]
fn records_in_words() {
    let cases = Path::new(env!("CARGO_MANIFEST_DIR")).join("../cases");
    let mut held = 0;
    for file in [
        "cards.txt",
        "table.txt",
        "images.txt",
        "margins.txt",
        "feeds.txt",
    ] {
        let text = fs::read_to_string(cases.join(file)).unwrap();
        for case in text.split("\ncase ").skip(1) {
            let (name, case) = case.split_once('\n').unwrap();
            let case = case.split("\nend").next().unwrap();
            let (mut words, mut input, mut records) = (vec!["--records"], vec![], String::new());
            let mut plain = true;
            for line in case.lines() {
                match line.split_once(' ').unwrap_or((line, "")) {
                    ("dots", dots) => words.extend(["--dots", dots]),
                    ("width", width) => words.extend(["--width", width]),
                    ("auto-feed", "on") => words.push("--auto-feed"),
                    ("auto-feed", _) => {}
                    ("input", bytes) => {
                        let byte = |word| u8::from_str_radix(word, 16).unwrap();
                        input.extend(bytes.split_whitespace().map(byte));
                    }
                    ("TX" | "IM" | "LN" | "CL" | "NO", _) => records += &format!("{line}\n"),
                    ("#", _) | ("", _) => {}
                    _ => plain = false,
                }
            }
            if plain {
                held += 1;
                let came = run(&words, &input).stdout;
                assert_eq!(String::from_utf8(came).unwrap(), records, "{file}: {name}");
            }
        }
    }
    assert!(held > 100, "{held}");
}

#[test]
fn json() {
    let input = b"\x1BR\x02[\"\x1BK\x01\x00\x80\x1B*\x27\x01\x00\x01\x02\x03\n\x1Bl\x00\x01";
    let said = "card: passed over: 1 unlisted (first at byte 22)\n";
    let tx = "\"record\":\"TX\",\"column\":";
    let lines = [
        &format!("{{{tx}0,\"row\":0,\"byte\":91,\"font\":0,\"style\":0,\"country\":2,\"advance\":360,\"rest\":0,\"character\":\"Ä\"}}"),
        &format!("{{{tx}30,\"row\":0,\"byte\":34,\"font\":0,\"style\":0,\"country\":2,\"advance\":360,\"rest\":0,\"character\":\"\\\"\"}}"),
        "{\"record\":\"IM\",\"column\":60,\"row\":0,\"byte\":128,\"part\":0,\"advance\":60,\"rest\":0}",
        "{\"record\":\"IM\",\"column\":65,\"row\":0,\"byte\":1,\"part\":1,\"advance\":20,\"rest\":0}",
        "{\"record\":\"IM\",\"column\":65,\"row\":0,\"byte\":2,\"part\":2,\"advance\":20,\"rest\":0}",
        "{\"record\":\"IM\",\"column\":65,\"row\":0,\"byte\":3,\"part\":3,\"advance\":20,\"rest\":0}",
        "{\"record\":\"LN\",\"row\":50,\"pages\":0}",
        "{\"record\":\"CL\"}",
        "{\"record\":\"NO\",\"byte\":1,\"reason\":1}\n",
    ];
    assert_eq!(prints_and_says(&["--json"], input, said), lines.join("\n"));
    let slots = b"\x1B$\x3C\x00HELD \"NOW\"";
    let came = prints(&["--json", "--slots", "10,20,30"], slots);
    let lines = [
        "{\"slot\":1,\"electricians\":0,\"text\":\"HELD \\\"NOW\\\"\",\"notes\":[]}",
        "{\"slot\":2,\"electricians\":1,\"text\":null,\"notes\":[]}",
        "{\"slot\":3,\"electricians\":2,\"text\":null,\"notes\":[]}\n",
    ];
    assert_eq!(came, lines.join("\n"));
    let came = prints(&["--json", "--slots=11"], slots);
    assert!(
        came.ends_with("\"notes\":[\"begins before the slot\"]}\n"),
        "{came}"
    );
    // Of several files each object has its own's name.
    let folder = Folder::new("card-json");
    let name = folder.0.join("one \"A\"");
    fs::write(&name, b"\n").unwrap();
    let came = prints(&["--json", name.to_str().unwrap(), "-"], b"\n");
    assert!(came.contains("one \\\"A\\\"\",\"record\":\"LN\""), "{came}");
    assert!(
        came.contains("\n{\"file\":\"standard input\",\"record\""),
        "{came}"
    );
}

/// Empty sheets are not shown, but count.
#[test]
fn empty_sheets() {
    assert_eq!(
        prints(&[], b"\x0C\x0CA\x0C\x0CB"),
        "---- page 3 ----\nA\n---- page 5 ----\nB\n"
    );
    // A new top of an empty page is the same sheet.
    assert_eq!(prints(&[], b"\x1B@\x1BC\x00\x0B\x1B@A"), "A\n");
    assert_eq!(prints(&[], b"A\x1B@\x1B@B"), "A\n---- page 2 ----\nB\n");
    let came = prints(&["--follow"], b"\x0CA\x0C");
    assert_eq!(came, "---- page 2, turned ----\nA\n\x0C\n");
}

/// Styles where they are asked for; an underlined blank of double width is
/// underlined whole.
#[test]
fn colors() {
    let input = b"\x1BEA\x1BF";
    assert_eq!(prints(&["--color=always"], input), "\x1B[0;1mA\x1B[0m\n");
    assert_eq!(prints(&["--color=auto"], input), "A\n");
    assert_eq!(prints(&["--color", "never"], input), "A\n");
    let wide = b"\x1BW\x01\x1B-\x01A B";
    let came = prints(&["--color=always"], wide);
    assert_eq!(came, "\x1B[0;4m\u{FF21}  \u{FF22}\x1B[0m\n");
}

/// A file is followed as it grows.
#[test]
fn a_file_that_grows() {
    let folder = Folder::new("card-grows");
    let name = folder.0.join("file");
    fs::write(&name, b"A").unwrap();
    let mut command = card(&["--follow", name.to_str().unwrap()]);
    let mut child = command.stdout(Stdio::piped()).spawn().unwrap();
    let _limit = Limit::new(&child);
    let mut lines = BufReader::new(child.stdout.take().unwrap()).lines();
    let mut until = |words: &str| {
        let found = lines.find(|line| line.as_ref().unwrap() == words);
        assert!(found.is_some(), "{words}");
    };
    until("A");
    let mut file = fs::OpenOptions::new().append(true).open(&name).unwrap();
    for (piece, words) in [("B", "AB"), ("C\x1B", "ABC"), ("ED", "ABCD")] {
        file.write_all(piece.as_bytes()).unwrap();
        until(words);
    }
    child.kill().unwrap();
    child.wait().unwrap();
}

/// A file that becomes shorter is another: it is read from its beginning, and nothing
/// of the old one stays, also where it is standard input.
#[test]
fn a_file_that_is_truncated() {
    let folder = Folder::new("card-truncated");
    let name = folder.0.join("file");
    for standard in [false, true] {
        // A wide letter, a page turned, and an escape that is cut off.
        fs::write(&name, b"FIRST\x0C\x1BW\x01OLD\x01\x1B").unwrap();
        let word = if standard {
            "-"
        } else {
            name.to_str().unwrap()
        };
        let mut command = card(&["--follow", word]);
        command.stdin(fs::File::open(&name).unwrap());
        command.stdout(Stdio::piped()).stderr(Stdio::piped());
        let mut child = command.spawn().unwrap();
        let _limit = Limit::new(&child);
        let mut out = BufReader::new(child.stdout.take().unwrap());
        let mut frame = || {
            let mut frame = Vec::new();
            out.read_until(b'\n', &mut frame).unwrap();
            while !frame.ends_with(b"\x0C\n") {
                assert!(out.read_until(b'\n', &mut frame).unwrap() > 0);
            }
            String::from_utf8(frame).unwrap()
        };
        let mut until = |words: &str| while frame() != words {};
        until("O L D\n(passed over: 1 unlisted (first at byte 12))\n\x0C\n");
        fs::write(&name, b"").unwrap();
        until("\x0C\n");
        for (piece, words) in [("E", "E\n\x0C\n"), ("NEW", "ENEW\n\x0C\n")] {
            let mut file = fs::OpenOptions::new().append(true).open(&name).unwrap();
            file.write_all(piece.as_bytes()).unwrap();
            until(words);
        }
        fs::write(&name, b"X").unwrap();
        until("X\n\x0C\n");
        child.kill().unwrap();
        let said = child.wait_with_output().unwrap().stderr;
        let said = String::from_utf8(said).unwrap();
        let truncated = "card: the file was truncated, and is read from its beginning\n";
        let passed = "card: passed over: 1 unlisted (first at byte 12)\n";
        assert_eq!(said, format!("{passed}{truncated}{truncated}"));
    }
}

/// The lines of the slots of which these words stand there.
fn slot_lines(words: &[&str]) -> String {
    let line = |(number, word)| format!("slot {} (electricians: {number})  {word}\n", number + 1);
    words.iter().enumerate().map(line).collect()
}

#[test]
fn slots_in_which_released_moves() {
    let input = fs::read(stored("moves.prn")).unwrap();
    // The line of the heading, and the next one, end here; then one is voided.
    let second = input.iter().enumerate().filter(|(_, &byte)| byte == b'\n');
    let second = second.map(|(at, _)| at + 1).nth(2).unwrap();
    let voided = second
        + input[second..]
            .windows(2)
            .position(|pair| pair == b"\x1Bl")
            .unwrap();
    let locked = "LOCKED";
    let mut words = [locked; 7];
    words[3] = "RELEASED";
    for options in [&SLOTS[..], &["--slot-stops"]] {
        for dots in ["300", "203"] {
            let asked = [options, &["--dots", dots]].concat();
            assert_eq!(prints(&asked, &input[..second]), slot_lines(&words));
            let mut sixth = [locked; 7];
            sixth[5] = "RELEASED";
            assert_eq!(prints(&asked, &input[..voided]), slot_lines(&sixth));
            assert_eq!(prints(&asked, &input[..voided + 3]), slot_lines(&words));
            let mut fifth = [locked; 7];
            fifth[4] = "RELEASED";
            assert_eq!(prints(&asked, &input), slot_lines(&fifth));
        }
    }
}

/// Asked for slots at the columns 10 and 20; the last word says whether the card is
/// out of step with them.
#[test]
fn slots_one_by_one() {
    let none = "(nothing)";
    let cases: [(&[u8], [&str; 2], bool); 34] = [
        (b"", [none, none], false),
        // The columns 9, 10, 19 and 20.
        (b"         X", [none, none], false),
        (b"          X", ["X", none], false),
        (
            b"                   X",
            ["X (begins after the first column)", none],
            true,
        ),
        (b"                    X", [none, "X"], false),
        // Two words.
        (b"\x1B$\x3C\x00NOT FREE", ["NOT FREE", none], false),
        // Text of which a part lies in a slot is whole in it, and marked.
        (
            b"\x1B$\x3C\x00NOT RELEASED",
            [
                "NOT RELEASED (runs past the slot)",
                "NOT RELEASED (begins before the slot)",
            ],
            false,
        ),
        (
            b"        UNRELEASED",
            ["UNRELEASED (begins before the slot)", none],
            false,
        ),
        (
            b"      SO UNRELEASED",
            ["SO UNRELEASED (begins before the slot)", none],
            false,
        ),
        (
            b"        NOT RELEASED-",
            [
                "NOT RELEASED- (begins before the slot, runs past the slot)",
                "NOT RELEASED- (begins before the slot)",
            ],
            false,
        ),
        (
            b"               LOCKED-OUT-NOW",
            [
                "LOCKED-OUT-NOW (begins after the first column, runs past the slot)",
                "LOCKED-OUT-NOW (begins before the slot)",
            ],
            true,
        ),
        // So it is where a newer line has something beside the slot.
        (
            b"                  UNRELEASED\r\n\x1B$\x3C\x00HELD      ",
            ["HELD", "UNRELEASED (begins before the slot)"],
            false,
        ),
        // Words one printed blank apart are one text, also where the second stands
        // at a slot's first column. One that comes there by a tab is the slot's own,
        // but not if text from within another slot leads to it.
        (
            b"\x1B$\x60\x00NOT RELEASED",
            [
                "NOT RELEASED (begins after the first column, runs past the slot)",
                "NOT RELEASED (begins before the slot)",
            ],
            true,
        ),
        (
            b"          DOOR SHUT RELEASED",
            [
                "DOOR SHUT RELEASED (runs past the slot)",
                "DOOR SHUT RELEASED (begins before the slot)",
            ],
            false,
        ),
        (
            b"\x1BD\x0A\x14\x00\tDOOR SHUT\tRELEASED",
            ["DOOR SHUT", "RELEASED"],
            false,
        ),
        (
            b"\x1B$\x60\x00NOT\x1B$\x78\x00RELEASED",
            [
                "NOT RELEASED (begins after the first column, runs past the slot, has a gap)",
                "NOT RELEASED (begins before the slot, has a gap)",
            ],
            true,
        ),
        (
            b"GATE1 NOT RELEASED",
            ["GATE1 NOT RELEASED (begins before the slot)", none],
            false,
        ),
        (
            b"\x1BD\x0A\x14\x00STATE NOT\tFREE\tHELD",
            ["FREE (follows other text)", "HELD"],
            false,
        ),
        // A blank between them may be wider than the letters.
        (
            b"\x1B$\x3C\x00NOT\x12 \x0FRELEASED",
            ["NOT RELEASED (out of step)", "(nothing) (out of step)"],
            true,
        ),
        // Rows a dot apart are one line.
        (
            b"          NOT\x1BJ\x01 RELEASED",
            [
                "NOT RELEASED (runs past the slot, printed in pieces)",
                "NOT RELEASED (begins before the slot, printed in pieces)",
            ],
            false,
        ),
        (
            b"     STATE   HELD  RELEASED ",
            [
                "HELD RELEASED (begins after the first column, runs past the slot, has a gap)",
                "RELEASED (begins before the slot)",
            ],
            true,
        ),
        (
            b"   STATE   HELD       FREE  ",
            [
                "HELD (begins after the first column)",
                "FREE (begins after the first column)",
            ],
            true,
        ),
        // Letters struck over each other: the newer one, but no blank, and no
        // underscore; what can no longer be read is marked, and so is text of which
        // a part is struck over itself.
        (
            b"\x1B$\x3C\x00HELD\x1B$\x3D\x00FREE",
            ["FREE (struck over other text)", none],
            false,
        ),
        (
            b"\x1B$\x3C\x00HELD\x1B$\x3C\x00____\x1B$\x3C\x00    ",
            ["HELD", none],
            false,
        ),
        (b"\x1B$\x3C\x00____\x1B$\x3C\x00HELD", ["HELD", none], false),
        (b"\x1B$\x3C\x00HELD\x1B$\x3C\x00HELD", ["HELD", none], false),
        (
            b"\x1B$\x3C\x00LOCKED OUT\x1B$\x3C\x00LOCKED",
            [
                "LOCKED OUT (printed in pieces, struck over other text)",
                none,
            ],
            false,
        ),
        (
            b"\x1B$\x3B\x00A\x1B$\x3C\x00B",
            ["B (struck over other text)", none],
            false,
        ),
        // Words, or letters, that came one by one.
        (
            b"\x1B$\x3C\x00A\x1B$\x54\x00B",
            ["A B (has a gap)", none],
            false,
        ),
        (
            b"\x1B$\x42\x00EL\x1B$\x3C\x00H\x1B$\x4E\x00D",
            ["HELD (printed in pieces)", none],
            false,
        ),
        (
            b"\x1B$\x3C\x00H\x1B$\x42\x00E\x1B$\x48\x00L\x1B$\x4E\x00D",
            ["HELD", none],
            false,
        ),
        // A newer line, a page turned, a new top.
        (
            b"\x1B$\x3C\x00RELEASED\n\x1B$\x3C\x00HELD",
            ["HELD", none],
            false,
        ),
        (b"\x1B$\x3C\x00RELEASED\x0C", [none, none], false),
        (b"\x1B$\x3C\x00RELEASED\x1B@", [none, none], false),
    ];
    for (input, words, out_of_step) in cases {
        let said = if out_of_step { OUT_OF_STEP } else { "" };
        let came = prints_and_says(&["--slots", "10,20"], input, said);
        assert_eq!(came, slot_lines(&words), "{}", input.escape_ascii());
    }
    assert_eq!(prints(&["--slots", "0"], b"AB C"), slot_lines(&["AB C"]));
    let narrow = ["--slots", "10,30", "--width", "7200"];
    assert_eq!(prints(&narrow, b""), slot_lines(&[none, none]));
}

/// Text that goes up to the right margin may go on in the next line.
#[test]
fn slots_at_the_right_margin() {
    let cases: [(&[u8], [&str; 2]); 5] = [
        (b"\x1B$\x3C\x00INHIBITED", ["(nothing)", "INHIBITED"]),
        (
            b"\x1B$\x3C\x00UNRELEASED",
            ["(nothing)", "UNRELEASED (goes on in the line below)"],
        ),
        (
            b"\x1B$\x3C\x00DOORS NOT RELEASED",
            [
                "RELEASED (goes on from the line above)",
                "DOORS NOT (goes on in the line below)",
            ],
        ),
        (
            b"\x1B$\x3C\x00NOW UNRELEASED",
            [
                "ASED (goes on from the line above)",
                "NOW UNRELE (goes on in the line below)",
            ],
        ),
        // The rest of the word is voided.
        (
            b"\x1B$\x3C\x00NOW UNRELEASED\x1Bl\x00",
            ["(nothing)", "NOW UNRELE (goes on in the line below)"],
        ),
    ];
    for (input, words) in cases {
        for dots in ["300", "203"] {
            let asked = ["--slots", "0,10", "--width", "7200", "--dots", dots];
            assert_eq!(
                prints(&asked, input),
                slot_lines(&words),
                "{}",
                input.escape_ascii()
            );
        }
    }
}

/// A card of 12 to the inch, asked for columns of 10 to the inch: every slot is
/// marked. Named as its own, none is.
#[test]
fn slots_of_another_pitch() {
    let card = |begin: &[u8]| {
        let heading = b"\x1BD\x0A\x14\x1E\x28\x32\x3C\x46\x00SLOT\t1\t2\t3\t4\t5\t6\t7\r\n";
        let state = b"STATE\tLOCKED\tLOCKED\tLOCKED\tRELEASED\tLOCKED\tLOCKED\tLOCKED\r\n";
        [begin, heading, state].concat()
    };
    let mut words = ["LOCKED"; 7];
    words[3] = "RELEASED";
    // How the pitch is chosen, and the slots' names.
    let pitches: [(&[u8], &[&str]); 6] = [
        (
            b"",
            &["10,20,30,40,50,60,70", "1in,2in,3in,4in,5in,6in,7in"],
        ),
        (
            b"\x1BM",
            &[
                "10,20,30,40,50,60,70@12",
                "0.833in,1.667in,2.5in,3.333in,4.167in,5in,5.833in",
                "3000u,6000u,2.5in,12000u,15000u,5in,21000u",
            ],
        ),
        (b"\x1Bg", &["10,20,30,40,50,60,70@15"]),
        (b"\x0F", &["10,20,30,40,50,60,70@17"]),
        (b"\x1BM\x0F", &["10,20,30,40,50,60,70@20"]),
        (
            b"\x1BM\x1B \x01",
            &["3200u,6400u,9600u,12800u,16000u,19200u,22400u"],
        ),
    ];
    for (begin, names) in pitches {
        for dots in ["300", "203"] {
            for slots in names {
                let came = prints(&["--slots", slots, "--dots", dots], &card(begin));
                assert_eq!(came, slot_lines(&words), "{slots}");
            }
            if !begin.is_empty() {
                let asked = [&SLOTS[..], &["--dots", dots]].concat();
                let came = prints_and_says(&asked, &card(begin), OUT_OF_STEP);
                let marked = |line: &str| line.ends_with("out of step)");
                assert!(came.lines().all(marked), "{came}");
            }
        }
    }
    // With 12 to the inch the sixth slot is where the fifth is named, and a line may
    // have nothing else: its pitch and the stops tell.
    let sixth = b"\x1BM\x1BD\x0A\x14\x1E\x28\x32\x3C\x46\x00STATE\t\t\t\t\t\tRELEASED\r\n";
    let came = prints_and_says(&SLOTS, sixth, OUT_OF_STEP);
    assert!(
        came.contains("slot 5 (electricians: 4)  RELEASED (out of step)\n"),
        "{came}"
    );
    // With a margin every slot is where the next is named.
    let margin = card(b"\x1Bl\x0A");
    let came = prints_and_says(&SLOTS, &margin, OUT_OF_STEP);
    assert!(
        came.contains("slot 5 (electricians: 4)  RELEASED (out of step)\n"),
        "{came}"
    );
    // Frames say it too.
    let came = prints(&[&SLOTS[..], &["--follow"]].concat(), sixth);
    let said = OUT_OF_STEP.strip_prefix("card: ").unwrap().trim_end();
    assert!(came.contains(&format!("\n({said})\n")), "{came}");
}

/// A word that begins before its slot is whole in both.
#[test]
fn a_word_across_two_slots() {
    let input = [&[b' '; 38][..], b"UNRELEASED"].concat();
    for dots in ["300", "203"] {
        let asked = [&SLOTS[..], &["--dots", dots]].concat();
        let mut words = ["(nothing)"; 7];
        (words[2], words[3]) = (
            "UNRELEASED (begins after the first column, runs past the slot)",
            "UNRELEASED (begins before the slot)",
        );
        let came = prints_and_says(&asked, &input, OUT_OF_STEP);
        assert_eq!(came, slot_lines(&words));
    }
}

/// A value after `=` is taken byte by byte, as a file's name is.
#[test]
fn a_name_that_is_no_text() {
    let folder = Folder::new("card-bytes");
    let name = OsStr::from_bytes(b"page\xFF-1.svg");
    let mut word = b"--svg=".to_vec();
    word.extend_from_slice(folder.0.as_os_str().as_bytes());
    word.extend_from_slice(b"/page\xFF");
    let mut command = card(&[]);
    command.arg(OsStr::from_bytes(&word));
    command.stdin(fs::File::open(stored("moves.prn")).unwrap());
    let child = command.spawn().unwrap();
    let _limit = Limit::new(&child);
    assert_eq!(child.wait_with_output().unwrap().status.code(), Some(0));
    assert!(folder.0.join(name).is_file());
}

#[test]
fn stops_in_force() {
    let nine = slot_lines(&["A", "(nothing)", "(nothing)", "(nothing)"]);
    let came = prints(&["--slot-stops"], b"\tA");
    assert!(came.starts_with(&nine), "{came}");
    assert_eq!(came.lines().count(), 9);
    // With 12 to the inch, and a left margin, the stop is elsewhere.
    let input = b"\x1BM\x1Bl\x02\x1BD\x04\x08\x00\tA\tB";
    assert_eq!(prints(&["--slot-stops"], input), slot_lines(&["A", "B"]));
    // Stops past the margin are not reached: 8 and 16 of 20 columns are.
    let came = prints(&["--slot-stops", "--width", "7200"], b"");
    assert_eq!(came, slot_lines(&["(nothing)"; 2]));
    // A word that is not at its stop.
    let came = prints(&["--slot-stops"], b"\x1BD\x0A\x14\x00\x1B$\x48\x00HELD");
    let after = slot_lines(&["HELD (begins after the stop)", "(nothing)"]);
    assert_eq!(came, after);
    let came = prints(&["--slot-stops"], b"\x1BD\x00");
    assert_eq!(came, "no tab stop is in force, so there are no slots\n");
}

/// Stops that have moved since a card was printed may be where other words stand:
/// each slot says so.
#[test]
fn stops_that_have_moved() {
    let card = b"\x1BD\x0A\x14\x1E\x28\x32\x3C\x46\x00STATE\tA\tB\tC\tRELEASED\tE\r\n";
    // What comes after the card, and the slot that RELEASED is in by the stops
    // then in force.
    let moved: [(&[u8], usize); 5] = [
        (b"\x1BM", 4),
        (b"\x1B \x12", 1),
        (b"\x0E", 1),
        (b"\x1Bl\x0A", 2),
        (b"\x1BD\x14\x28\x3C\x00", 1),
    ];
    for (after, slot) in moved {
        let came = prints(&["--slot-stops"], &[&card[..], after].concat());
        let line = came.lines().nth(slot).unwrap();
        assert!(line.contains("RELEASED"), "{came}");
        assert!(line.contains("the stops have moved since"), "{came}");
    }
    // Where they are as before, nothing is said.
    let mut words = vec!["A", "B", "C", "RELEASED", "E"];
    words.resize(7, "(nothing)");
    for after in [
        &b""[..],
        b"\x0Fnote\x12",
        b"\x1BMnote\x1BP",
        b"\x0Etitle\r\n",
    ] {
        let input = [&card[..], after].concat();
        assert_eq!(prints(&["--slot-stops"], &input), slot_lines(&words));
    }
    // A margin that was in force only while the card was printed.
    let shifted = [b"\x1Bl\x0A", &card[..], b"\x1Bl\x00"].concat();
    let came = prints(&["--slot-stops"], &shifted);
    assert!(
        came.contains("RELEASED (the stops have moved since"),
        "{came}"
    );
}

/// Places in a picture are the exact ones, in 1/3600 inch, and not those of dots:
/// the same at both resolutions.
#[test]
fn exact_places_in_pictures() {
    let folder = Folder::new("card-exact");
    for dots in ["300", "203"] {
        let prefix = folder.0.join(dots);
        let words = ["--dots", dots, "--svg", prefix.to_str().unwrap()];
        let input = b"A\x1B\\\x01\x00B\x1BJ\x01C\x1B*\x27\x02\x00\x80\x00\x00\x80\x00\x00D";
        assert_eq!(prints(&words, input), "");
        let picture = fs::read_to_string(folder.0.join(format!("{dots}-1.svg"))).unwrap();
        for place in [
            "x=\"0\" y=\"400\"",
            // 300 of 360 units: the whole is stretched.
            "scale(1.2 1)\" x=\"316.667\" y=\"400\"",
            "x=\"616.667\" y=\"420\"",
            "M1100 20h20v20h-20zM1120 20h20v20h-20z",
            "x=\"950\" y=\"420\"",
        ] {
            assert!(picture.contains(place), "{place}: {picture}");
        }
    }
}

/// A word is one text with its letters' places, so that it can be found; letters
/// keep their shape under ESC SP; the paper has a border, and is one sheet.
#[test]
fn words_in_pictures() {
    let input =
        b"STATE\x1B$\xF0\x00RELEASED NOW   OFF\r\n\x1BM\x1B \x05AB\x1BW\x01C\x1BW\x00\x1B-\x01 D ";
    let picture = prints(&["--svg", "-"], input);
    for part in [
        "<title>standard input, page 1</title>",
        "width=\"8.2in\" height=\"11.2in\" viewBox=\"-360 -360 29520 40320\"",
        "@page{size:8.2in 11.2in;margin:0}",
        "<rect width=\"28800\" height=\"39600\" fill=\"white\" stroke=",
        "x=\"0 300 600 900 1200\" y=\"400\">STATE</text>",
        "x=\"12000 12300 12600 12900 13200 13500 13800 14100 14400 14700 15000 15300\" \
         y=\"400\">RELEASED NOW</text>",
        ">OFF</text>",
        // 300 wide, and 100 between; twice as wide, and 200.
        "<text x=\"0 400\" y=\"1000\" letter-spacing=\"100\">AB</text>",
        "<text transform=\"scale(2 1)\" x=\"400\" y=\"1000\" letter-spacing=\"100\">C</text>",
        "text-decoration=\"underline\">\u{a0}D\u{a0}</text>",
    ] {
        assert!(picture.contains(part), "{part}: {picture}");
    }
}

/// A name, a folder, standard output; pages of an earlier run do not stay, and other
/// files do.
#[test]
fn names_of_pictures() {
    let folder = Folder::new("card-names");
    let path = |name: &str| folder.0.join(name).to_str().unwrap().to_string();
    let three = b"A\x0CB\x0C\x0CC";
    for (kind, end) in [("--svg", ".svg"), ("--png", ".png")] {
        let names = |list: &[&str]| -> Vec<String> {
            list.iter().map(|name| format!("{name}{end}")).collect()
        };
        fs::write(path(&format!("x-7{end}")), b"not ours").unwrap();
        prints(&[kind, &path("x")], three);
        assert_eq!(folder.names(), names(&["x-1", "x-2", "x-4", "x-7"]));
        prints(&[kind, &path("x")], b"A");
        assert_eq!(folder.names(), names(&["x-1", "x-7"]));
        fs::remove_file(path(&format!("x-7{end}"))).unwrap();
        prints(&[kind, &path(&format!("x{end}"))], three);
        let mut plain = names(&["x-2", "x-4", "x"]);
        plain.sort();
        assert_eq!(folder.names(), plain);
        prints(&[kind, &path(&format!("x{end}"))], b"A");
        assert_eq!(folder.names(), names(&["x"]));
        fs::remove_file(path(&format!("x{end}"))).unwrap();
        prints(&[kind, &path("")], b"A\x0CB");
        assert_eq!(folder.names(), names(&["page-1", "page-2"]));
        fs::remove_file(path(&format!("page-1{end}"))).unwrap();
        fs::remove_file(path(&format!("page-2{end}"))).unwrap();
        assert!(!run(&[kind, "-"], b"A").stdout.is_empty());
    }
    // Several captures.
    fs::write(path("one"), b"A").unwrap();
    prints(&["--svg", &path("y"), &path("one"), "-"], b"A\x0CB");
    let names = ["one", "y-1-1.svg", "y-2-1.svg", "y-2-2.svg"];
    assert_eq!(folder.names(), names);
}

/// A run removes only what a run by the same word has written, though other words
/// have the same names.
#[test]
fn pictures_of_other_words() {
    let folder = Folder::new("card-words");
    let path = |name: &str| folder.0.join(name).to_str().unwrap().to_string();
    for (kind, end) in [("--svg", ".svg"), ("--png", ".png")] {
        let has = |list: &[&str]| {
            let names: Vec<String> = list.iter().map(|name| format!("{name}{end}")).collect();
            assert_eq!(folder.names(), names, "{kind}");
        };
        prints(&[kind, &path("page-2")], b"A");
        prints(&[kind, &path("page-3"), "-", "/dev/null"], b"A");
        prints(&[kind, &path(&format!("page-4{end}"))], b"\x0C\x0C\x0CA");
        let own = ["page-2-1", "page-3-1-1", "page-4"];
        has(&own);
        let standard = run(&[kind, "-"], b"\x0C\x0C\x0C\x0CA").stdout;
        fs::write(path(&format!("page-5{end}")), standard).unwrap();
        for word in ["page", "", &format!("page{end}")] {
            prints(&[kind, &path(word), "-", "/dev/null"], b"A\x0CB");
            prints(&[kind, &path(word)], b"A");
            let first = if word.ends_with(end) {
                "page"
            } else {
                "page-1"
            };
            let first = format!("{first}{end}");
            assert_eq!(folder.names().len(), own.len() + 2, "{:?}", folder.names());
            fs::remove_file(path(&first)).unwrap();
        }
        fs::remove_file(path(&format!("page-5{end}"))).unwrap();
        has(&own);
        // By its own word each goes.
        prints(&[kind, &path("page-2")], b"");
        prints(&[kind, &path("page-3")], b"");
        has(&["page-4"]);
        fs::remove_file(path(&format!("page-4{end}"))).unwrap();
    }
}

/// A picture appears whole or not at all.
#[test]
fn pictures_that_fail() {
    let folder = Folder::new("card-whole");
    let name = folder.0.join("page.svg");
    fs::create_dir(&name).unwrap();
    for kind in ["--svg", "--pdf"] {
        let words = [kind, name.to_str().unwrap()];
        failed(run(&words, b"A"), name.to_str().unwrap());
        assert_eq!(folder.names(), ["page.svg"], "{kind}");
    }
    // Input that cannot be read leaves the PDF as it was.
    let name = folder.0.join("old.pdf");
    fs::write(&name, b"old").unwrap();
    let words = [
        "--join",
        "--pdf",
        name.to_str().unwrap(),
        "-",
        folder.0.to_str().unwrap(),
    ];
    failed(run(&words, b"A"), folder.0.to_str().unwrap());
    assert_eq!(fs::read(&name).unwrap(), b"old");
    assert_eq!(folder.names(), ["old.pdf", "page.svg"]);
}

/// All pages in one PDF: its table of objects, the pages' sizes, words at their
/// exact places and widths, dots as masks.
#[test]
fn all_pages_in_a_pdf() {
    let input =
        b"\x1BC\x00\x02STATE\x1B$\xF0\x00RELEASED (A\\B)\x0C\x1BM\x1B \x05AB\r\n\x1BP\x1B \x00\
                  \x1B*\x27\x02\x00\x80\x00\x01\x40\x00\x02\x1BK\x01\x00\xF0\x1BR\x02[\xB3";
    let pdf = run(&["--pdf", "-"], input).stdout;
    let text = String::from_utf8_lossy(&pdf).into_owned();
    for part in [
        "/Count 2>>",
        "/MediaBox[0 0 576 144]",
        "/F0 10 Tf 120 Tz 0 Tc 1 0 0 1 288 136 Tm (RELEASED \\(A\\\\B\\)) Tj",
        // 300 wide and 100 between.
        "/F0 10 Tf 100 Tz 2 Tc 1 0 0 1 0 136 Tm (AB) Tj",
        // Two columns of 20 units, 480 high, whose first and last dots are set.
        "q 0.80 0 0 9.60 0 122.40 cm\nBI/W 2/H 24/IM true/BPC 1/D[1 0]/F/AHx\nID\n80\n40\n00\n",
        "00\n00\n40\n80\n>\nEI Q",
        "q 1.20 0 0 9.60 0.80 122.40 cm\nBI/W 1/H 8/",
        "(\\304) Tj",
        "/ActualText<FEFF2502>",
    ] {
        assert!(text.contains(part), "{part}: {text}");
    }
    let number = |at: usize| -> usize {
        let digits: String = text[at..]
            .chars()
            .take_while(char::is_ascii_digit)
            .collect();
        digits.parse().unwrap()
    };
    // Bytes that are no text are replaced by three each, so the table is looked for
    // in the bytes.
    let find = |words: &str| {
        let words = words.as_bytes();
        pdf.windows(words.len())
            .position(|part| part == words)
            .unwrap()
    };
    let begin = number(text.rfind("startxref\n").unwrap() + 10);
    assert_eq!(find("xref\n0 "), begin);
    let table = String::from_utf8_lossy(&pdf[begin..]).into_owned();
    let entries = table
        .lines()
        .skip(3)
        .take_while(|line| line.ends_with(" n "));
    let mut count = 0;
    for (entry, object) in entries.zip(1..) {
        let place: usize = entry[..10].parse().unwrap();
        assert_eq!(entry.len(), 19);
        assert!(pdf[place..].starts_with(format!("{object} 0 obj\n").as_bytes()));
        count = object;
    }
    assert!(table.contains(&format!("/Size {}/", count + 1)));
}

/// A PDF of nothing has an empty page, since viewers refuse one without any.
#[test]
fn nothing_in_a_pdf() {
    for input in [&b""[..], b"\x0C\x0C"] {
        let pdf = run(&["--pdf", "-", "--width=7200"], input).stdout;
        let text = String::from_utf8_lossy(&pdf);
        assert!(text.contains("/MediaBox[0 0 144 792]"), "{text}");
        assert!(text.contains("/Count 1>>"), "{text}");
    }
    let pdf = run(&["--pdf", "-"], b"\x0C\x0CA").stdout;
    assert!(String::from_utf8_lossy(&pdf).contains("/Count 1>>"));
}

/// Where poppler is there, it finds the words of a PDF at their places.
#[test]
fn a_pdf_as_others_read_it() {
    let folder = Folder::new("card-pdf");
    let name = folder.0.join("card.pdf");
    let name = name.to_str().unwrap();
    prints(
        &["--pdf", name, docs().join("card.prn").to_str().unwrap()],
        b"",
    );
    let read = |words: &[&str]| {
        let output = Command::new("pdftotext")
            .args(words)
            .arg(name)
            .arg("-")
            .output();
        output
            .ok()
            .map(|output| String::from_utf8(output.stdout).unwrap())
    };
    let (Some(text), Some(places)) = (read(&["-layout"]), read(&["-bbox"])) else {
        eprintln!("pdftotext is not there: the PDF's words are not read by another program");
        return;
    };
    let states: Vec<&str> = text.lines().nth(3).unwrap().split_whitespace().collect();
    let locked = "LOCKED";
    let released = "RELEASED";
    assert_eq!(
        states,
        ["STATE", locked, locked, locked, released, locked, locked, locked]
    );
    let word = places
        .lines()
        .find(|line| line.contains(">RELEASED<"))
        .unwrap();
    assert!(word.contains("xMin=\"288.000000\""), "{word}");
    assert!(word.contains("xMax=\"345.600000\""), "{word}");
}

/// The bytes of a stream of zlib with one block in fixed codes.
fn inflated(stream: &[u8]) -> Vec<u8> {
    let bits = stream[2..]
        .iter()
        .flat_map(|byte| (0..8).map(move |bit| byte >> bit & 1));
    let mut bits = bits.map(usize::from);
    let mut plain = |count: usize| {
        (0..count)
            .map(|bit| bits.next().unwrap() << bit)
            .sum::<usize>()
    };
    assert_eq!(plain(3), 0b011);
    let mut out: Vec<u8> = Vec::new();
    loop {
        let mut code = 0;
        let mut length = 0;
        let symbol = loop {
            code = 2 * code + plain(1);
            length += 1;
            match (length, code) {
                (7, 0..=0x17) => break 256 + code,
                (8, 0x30..=0xBF) => break code - 0x30,
                (8, 0xC0..=0xC7) => break 280 + code - 0xC0,
                (9, 0x190..=0x1FF) => break 144 + code - 0x190,
                _ => assert!(length < 9),
            }
        };
        match symbol {
            0..=255 => out.push(symbol as u8),
            256 => return out,
            _ => {
                let count = match symbol - 257 {
                    28 => 258,
                    part @ 0..=7 => 3 + part,
                    part => 3 + ((4 + part % 4) << (part / 4 - 1)) + plain(part / 4 - 1),
                };
                let part = (0..5).fold(0, |code, _| 2 * code + plain(1));
                let distance = match part {
                    0..=3 => 1 + part,
                    _ => 1 + ((2 + part % 2) << (part / 2 - 1)) + plain(part / 2 - 1),
                };
                for _ in 0..count {
                    out.push(out[out.len() - distance]);
                }
            }
        }
    }
}

/// A PNG has the printer's own dots: of images each, of letters a box.
#[test]
fn dots_in_a_png() {
    let input = b"\x1BC\x00\x01\x1B*\x27\x02\x00\x80\x00\x01\x40\x00\x02\x1B$\x3C\x00A";
    for (dots, width, height, size) in [("300", 600, 300, 2), ("203", 406, 200, 1)] {
        let png = run(&["--png", "-", "--width=7200", "--dots", dots], input).stdout;
        assert!(png.starts_with(b"\x89PNG\r\n\x1A\n\0\0\0\x0DIHDR"));
        let number = |at: usize| u32::from_be_bytes(png[at..at + 4].try_into().unwrap()) as usize;
        assert_eq!((number(16), number(20)), (width, height));
        let data = png.windows(4).position(|part| part == b"IDAT").unwrap();
        let rows = inflated(&png[data + 4..data + 4 + number(data - 4)]);
        let stride = 1 + width.div_ceil(8);
        assert_eq!(rows.len(), stride * height);
        let black = |column: usize, row: usize| {
            rows[row * stride + 1 + column / 8] & (0x80 >> (column % 8)) == 0
        };
        // Dots of 20 units: the first of the first column, the last but one of the
        // second; between them none.
        assert!(black(0, 0) && !black(size, 0) && !black(0, size));
        let last = (22 * 20 * height + 1_800) / 3_600;
        assert!(black(size, last) && !black(0, last), "{dots}");
        // The box of the letter at an inch, 288 units wide and 350 high.
        let inch = width / 2;
        let left = inch + (36 * inch + 1_800) / 3_600;
        let (top, base) = (50 * height / 3_600, (400 * height + 1_800) / 3_600);
        assert!((top..=top + 1).any(|row| black(left + 5, row)), "{dots}");
        assert!(black(left, base - 3) && black(left + 5, base) && !black(left + 5, base - 3));
    }
}

#[test]
fn help_and_version() {
    let help = prints(&["--help"], b"");
    assert!(help.starts_with("card [OPTION..] [FILE..]\n"));
    for option in [
        "--dots",
        "--width",
        "--auto-feed",
        "--cpi",
        "--svg",
        "--png",
        "--pdf",
        "--slots",
        "--slot-stops",
        "--records",
        "--json",
        "--follow",
        "--join",
        "--strict",
        "--color",
        "-h, --help",
        "-V, --version",
    ] {
        assert!(help.contains(&format!("\n  {option} ")), "{option}");
    }
    assert!(help.lines().all(|line| line.len() <= 90));
    let version = format!("card {}\n", env!("CARGO_PKG_VERSION"));
    assert_eq!(prints(&["--version", "--dots", "1"], b""), version);
    assert_eq!(prints(&["-V"], b""), version);
    assert_eq!(prints(&["-h"], b""), help);
}

#[test]
fn settings() {
    assert_eq!(prints(&[], b"A\rB"), "B\n");
    assert_eq!(prints(&["--auto-feed"], b"A\rB"), "A\nB\n");
    assert_eq!(prints(&[], b"\x1B$\x01\x00A\rB"), "B\n");
    assert_eq!(prints(&["--follow"], b"A\nB"), "A\nB\n\x0C\n");
    assert_eq!(prints(&["--cpi", "5"], b"A   B   C"), "A B C\n");
    assert_eq!(prints(&["--cpi=20"], b"AB C"), "AB    C\n");
    assert_eq!(prints(&["--dots=204", "--dots", "000000203"], b"A"), "A\n");
    assert_eq!(prints(&[], b""), "");
    assert_eq!(prints(&[], b" \x0C\x0C"), "\n");
}

/// Bad usage is one line on standard error, nothing on standard output, and
/// status 2.
fn refused(words: &[&str], problem: &str) {
    let output = run(words, b"A");
    assert_eq!(output.status.code(), Some(2), "{words:?}");
    assert_eq!(output.stdout, b"", "{words:?}");
    let came = String::from_utf8(output.stderr).unwrap();
    assert_eq!(came, format!("card: {problem}\n"), "{words:?}");
}

#[test]
fn bad_values() {
    let bad: [(&str, &str, &[&str]); 8] = [
        ("--png", "the beginning of the pictures' names", &[""]),
        ("--pdf", "the name of a file", &[""]),
        ("--color", "always, auto or never", &["", "yes", "ALWAYS"]),
        (
            "--dots",
            "203 or 300",
            &["0", "202", "301", "", "x", "-1", "+203", "0000000203"],
        ),
        (
            "--width",
            "7200 to 28800",
            &["0", "7199", "28801", "", "wide", "4294974496"],
        ),
        ("--cpi", "1 to 100", &["0", "101", "ten", ""]),
        (
            "--slots",
            "places on 8 inches of paper, ascending: columns as 10,20,30 or, of another pitch, \
             10,20,30@12 (10, 12, 15, 17, 20); 1in,2.5in; 3600u",
            &[
                "",
                "10,",
                ",10",
                "10,10",
                "20,10",
                "80",
                "10;20",
                "-1",
                "96@12",
                "10@",
                "10@11",
                "10@12,20@12",
                "@12",
                "10,1.5in",
                "1in,3600u",
                "8in",
                "28800u",
                "1.5u",
                "1.in",
                ".5in",
                "in",
                "u",
                "1in@12",
                "1000000000in",
                "99999999",
                "1IN",
                "-1in",
            ],
        ),
        ("--svg", "the beginning of the pictures' names", &[""]),
    ];
    for (name, taken, values) in bad {
        let problem = format!("{name} takes {taken}");
        refused(&[name], &problem);
        for value in values {
            refused(&[name, value], &problem);
            refused(&["--auto-feed", &format!("{name}={value}"), "-"], &problem);
        }
    }
    refused(&["--dots", "300", "--dots=204"], "--dots takes 203 or 300");
}

#[test]
fn bad_words() {
    for flag in [
        "--auto-feed",
        "--slot-stops",
        "--records",
        "--json",
        "--join",
        "--strict",
        "--follow",
        "--help",
        "--version",
    ] {
        refused(&[&format!("{flag}=1")], &format!("{flag} takes no value"));
    }
    for word in ["--dot", "-x", "---", "--Dots"] {
        let problem = format!("{word} is no option; see card --help");
        refused(&[word, "300"], &problem);
    }
    refused(&["-a\nb"], "-a\\nb is no option; see card --help");
    let problem = "--follow draws on the screen: no pictures, --records or --json";
    for words in [
        &["--svg", "x"][..],
        &["--pdf=x"],
        &["--png=x"],
        &["--records"],
        &["--json"],
    ] {
        refused(&[&["--follow"], words].concat(), problem);
    }
    let problem = "pictures are of pages: no --slots, --records or --json";
    for words in [
        &["--slots=1"][..],
        &["--slot-stops"],
        &["--records"],
        &["--json"],
    ] {
        refused(&[&["--svg", "x"], words].concat(), problem);
    }
    refused(&["--svg=x", "--pdf=x"], "one of --svg, --png and --pdf");
    refused(
        &["--records", "--slots=1"],
        "--records takes no slots; --json does",
    );
}

/// A failure is one line on standard error that begins so, and status 1.
fn failed(output: Output, problem: &str) {
    assert_eq!(output.status.code(), Some(1), "{problem}");
    let came = String::from_utf8(output.stderr).unwrap();
    assert!(came.starts_with(&format!("card: {problem}: ")), "{came}");
    assert_eq!(came.lines().count(), 1, "{came}");
}

#[test]
fn reading_and_writing_failed() {
    let folder = Folder::new("card-failed");
    let name = folder.0.to_str().unwrap();
    let missing = format!("{name}/missing");
    let output = run(&["-", &missing, "/dev/null"], b"A");
    assert_eq!(output.stdout, b"==== standard input ====\nA\n");
    failed(output, &missing);
    for words in [["--follow", "-"], ["--join", "-"], ["--slots", "0"]] {
        let output = run(&[&words[..], &[&missing]].concat(), b"A");
        assert_eq!(output.stdout, b"");
        failed(output, &missing);
    }
    failed(run(&[name], b""), name);
    failed(run(&["no\nsuch"], b""), "no\\nsuch");
    failed(run(&[""], b""), "''");
    // What was read before is shown.
    let output = run(&["--join", "-", name], b"A\x0CB");
    assert_eq!(output.stdout, b"A\n---- page 2 ----\nB\n");
    failed(output, name);
    let output = run(&["--join", "--slots", "0", "-", name], b"HELD");
    assert_eq!(output.stdout, slot_lines(&["HELD"]).as_bytes());
    failed(output, name);
    failed(run(&["--follow", name], b""), name);
    let prefix = format!("{name}/none/page");
    failed(run(&["--svg", &prefix], b"A"), &format!("{prefix}-1.svg"));
    for words in [&[][..], &["--help"], &["--follow"], &SLOTS] {
        let full = fs::OpenOptions::new()
            .write(true)
            .open("/dev/full")
            .unwrap();
        let mut command = card(words);
        command.stdin(fs::File::open(stored("moves.prn")).unwrap());
        let child = command.stdout(full).stderr(Stdio::piped()).spawn().unwrap();
        let _limit = Limit::new(&child);
        let output = child.wait_with_output().unwrap();
        failed(output, "standard output");
    }
}

/// Writes an input to a child over and over, up to so many bytes, or until it
/// has ended; the pipe is still open then.
fn feed(child: &mut Child, input: &[u8], bytes: usize) -> Option<std::process::ChildStdin> {
    let mut stdin = child.stdin.take().unwrap();
    let piece = input.repeat((1 << 20) / input.len() + 1);
    let mut written = 0;
    while written < bytes {
        stdin.write_all(&piece).ok()?;
        written += piece.len();
    }
    Some(stdin)
}

#[test]
fn a_broken_pipe() {
    for words in [&[][..], &["--follow"]] {
        let mut command = card(words);
        command.stdin(Stdio::piped());
        command.stdout(Stdio::piped()).stderr(Stdio::piped());
        let mut child = command.spawn().unwrap();
        let _limit = Limit::new(&child);
        let mut lines = BufReader::new(child.stdout.take().unwrap());
        let input: &[u8] = if words.is_empty() { b"A\n\x0C" } else { b"A\n" };
        let mut stdin = child.stdin.take().unwrap();
        stdin.write_all(b"A\n\x0C").unwrap();
        let mut line = String::new();
        while !line.ends_with("A\n") {
            assert!(lines.read_line(&mut line).unwrap() > 0);
        }
        drop(lines);
        // It goes on only until it writes again.
        child.stdin = Some(stdin);
        assert!(feed(&mut child, input, 1 << 30).is_none(), "{words:?}");
        let mut complaint = String::new();
        child
            .stderr
            .take()
            .unwrap()
            .read_to_string(&mut complaint)
            .unwrap();
        assert_eq!(complaint, "");
        assert_eq!(child.wait().unwrap().code(), Some(0), "{words:?}");
    }
}

/// The most memory that a program has taken, in KiB.
fn peak(child: &Child) -> u64 {
    let status = fs::read_to_string(format!("/proc/{}/status", child.id())).unwrap();
    let line = status.lines().find_map(|line| line.strip_prefix("VmHWM:"));
    let number = line.unwrap().trim().strip_suffix(" kB");
    number.unwrap().parse().unwrap()
}

/// A capture of so many bytes, of which this is repeated, takes at most this
/// much memory, in KiB.
fn long(words: &[&str], input: &[u8], bytes: usize, most: u64) {
    let mut command = card(words);
    command.stdin(Stdio::piped()).stdout(Stdio::null());
    let mut child = command.spawn().unwrap();
    let _limit = Limit::new(&child);
    let stdin = feed(&mut child, input, bytes).unwrap();
    let peak = peak(&child);
    assert!(peak > 0 && peak <= most, "{words:?}: {peak} KiB");
    drop(stdin);
    assert_eq!(child.wait().unwrap().code(), Some(0));
}

#[test]
fn a_hundred_megabytes() {
    let mut input = fs::read(stored("moves.prn")).unwrap();
    input.push(0x0C);
    long(&[], &input, 100_000_000, 16 << 10);
    long(&SLOTS, &input, 100_000_000, 16 << 10);
}

/// Pages of images: at 180 to the inch, a page of them.
#[test]
fn images_without_end() {
    let columns = 1_440_u16;
    let [low, high] = columns.to_le_bytes();
    let mut line = vec![0x1B, b'*', 39, low, high];
    line.extend((0..3 * columns).map(|place| place as u8));
    line.extend(b"\r\x1BJ\x18");
    let mut page = line.repeat(80);
    page.push(0x0C);
    long(&[], &page, 20_000_000, 16 << 10);
}

/// A page that never ends is no more than what can be seen of it.
#[test]
fn a_line_written_over_without_end() {
    let input = b"STATE  LOCKED  \x1BK\x03\x00\x01\x02\x03RELEASED\r";
    long(&[], input, 20_000_000, 16 << 10);
    // So are lines of which each is written over and over.
    let line = [&input.repeat(1_000)[..], b"\n"].concat();
    long(&[], &line, 20_000_000, 16 << 10);
    let came = prints(&["--slots", "5580u"], &input.repeat(100_000));
    assert_eq!(came, slot_lines(&["RELEASED"]));
}
