//! The present page redrawn as bytes come.
//!
//! On a terminal a frame is drawn from the top of the screen over the one
//! before. The terminal's modes are not touched, and each line ends without a
//! style, so that the program may be ended at any time. Elsewhere frames follow
//! each other, with a form feed at the end of each.

use crate::input::{self, Input};
use crate::options::Options;
use crate::page::Page;
use crate::reader::Reader;
use crate::text::Look;
use crate::{
    care, complain, inputs, look, slots, terminal, text, unwritten, Failure, Outcome, PIECE,
};
use ierbulosc::State;
use std::io::{self, Write};
use std::sync::mpsc::{sync_channel, Receiver, RecvTimeoutError, SyncSender};
use std::thread;
use std::time::{Duration, Instant};

/// The least time between two frames.
const PAUSE: Duration = Duration::from_millis(40);
/// The pieces of input that may wait to be read.
const WAITING: usize = 4;

/// How often a window is asked for its size, and a file for more.
const ASKED: Duration = Duration::from_millis(100);

/// What is said of a file that has become shorter than what was read of it.
const TRUNCATED: &str = "the file was truncated, and is read from its beginning";

/// What is drawn.
struct Screen {
    options: Options,
    look: Look,
    terminal: bool,
    /// The name of the capture, where there are several.
    name: Option<String>,
    /// The last page that was turned.
    turned: Option<String>,
    /// What was drawn last, when, and on how large a screen.
    frame: String,
    drawn: Instant,
    size: Option<(usize, usize)>,
    /// Whether something was passed over.
    passed: bool,
}

/// What the input sends.
enum Sent {
    /// A capture begins.
    Start(String),
    /// The file is shorter than it was, and is read from its beginning.
    Truncated,
    Bytes(Vec<u8>),
    Failed(Failure),
}

/// Reads all, and draws what is there whenever something has come, or the window
/// has another size.
pub fn run(options: Options) -> Outcome<()> {
    let (inputs, all) = inputs(&options);
    all?;
    let several = inputs.len() > 1;
    let (sender, pieces) = sync_channel(WAITING);
    thread::spawn(move || send_all(inputs, &sender));
    let mut reader = Reader::new(&options.settings, care(&options));
    let mut screen = Screen::new(options);
    screen.draw(&mut reader)?;
    // When the frame was drawn to which something has come since.
    let mut stale = None;
    loop {
        match next(&pieces, stale, screen.terminal) {
            Next::Sent(Sent::Start(name)) => {
                screen.begin(&mut reader);
                screen.name = several.then(|| input::shown(&name));
            }
            Next::Sent(Sent::Truncated) => {
                screen.begin(&mut reader);
                complain(TRUNCATED);
                stale = stale.or(Some(screen.drawn));
            }
            Next::Sent(Sent::Bytes(piece)) => {
                reader.read(&piece, &mut |page, state| screen.turn(page, state))?;
                stale = stale.or(Some(screen.drawn));
            }
            Next::Sent(Sent::Failed(failure)) => return Err(screen.end(&mut reader, failure)),
            Next::Pause if stale.is_none() && !screen.is_resized() => {}
            Next::Pause => {
                screen.draw(&mut reader)?;
                stale = None;
            }
            Next::End => return screen.close(&mut reader),
        }
    }
}

/// What comes next.
enum Next {
    Sent(Sent),
    /// Nothing, and a frame is due.
    Pause,
    /// The end of the input.
    End,
}

/// What comes next; a frame is due some time after one that is stale, and on a
/// terminal, whose window may have changed, now and then.
fn next(pieces: &Receiver<Sent>, stale: Option<Instant>, terminal: bool) -> Next {
    let rest = match stale {
        Some(drawn) => PAUSE.saturating_sub(drawn.elapsed()),
        None if terminal => ASKED,
        None => return pieces.recv().map_or(Next::End, Next::Sent),
    };
    if rest.is_zero() {
        return Next::Pause;
    }
    match pieces.recv_timeout(rest) {
        Ok(sent) => Next::Sent(sent),
        Err(RecvTimeoutError::Timeout) => Next::Pause,
        Err(RecvTimeoutError::Disconnected) => Next::End,
    }
}

/// Sends the captures on, one after the other. Those before the last end, so that it
/// is reached.
fn send_all(inputs: Vec<Input>, pieces: &SyncSender<Sent>) -> Option<()> {
    let last = inputs.len() - 1;
    for (place, mut input) in inputs.into_iter().enumerate() {
        input.may_grow &= place == last;
        send(input, pieces)?;
    }
    Some(())
}

/// Sends a capture on, in pieces as they come; none if it is not to go on. A file
/// that may grow does not end.
fn send(mut input: Input, pieces: &SyncSender<Sent>) -> Option<()> {
    let mut room = vec![0; PIECE];
    pieces.send(Sent::Start(input.name.clone())).ok()?;
    loop {
        let sent = match input.read(&mut room) {
            Ok(0) if input.may_grow => match input.is_truncated() {
                Ok(true) => Sent::Truncated,
                Ok(false) => {
                    thread::sleep(ASKED);
                    continue;
                }
                Err(failure) => Sent::Failed(failure),
            },
            Ok(0) => return Some(()),
            Ok(count) => Sent::Bytes(room[..count].to_vec()),
            Err(failure) => Sent::Failed(failure),
        };
        let last = matches!(sent, Sent::Failed(_));
        pieces.send(sent).ok().filter(|()| !last)?;
    }
}

impl Screen {
    fn new(options: Options) -> Screen {
        Screen {
            look: look(&options),
            options,
            terminal: terminal::is_able(&io::stdout()),
            name: None,
            turned: None,
            frame: String::new(),
            drawn: Instant::now(),
            size: None,
            passed: false,
        }
    }

    /// Another capture begins, or another file in its place.
    fn begin(&mut self, reader: &mut Reader) {
        self.tell(reader);
        *reader = Reader::new(&self.options.settings, care(&self.options));
        self.turned = None;
    }

    /// Tells what was passed over of a capture.
    fn tell(&mut self, reader: &Reader) {
        if let Some(words) = reader.passed().words() {
            self.passed = true;
            match &self.name {
                Some(name) => complain(&format!("{name}: {words}")),
                None => complain(&words),
            }
        }
    }

    /// Draws the last frame, and says what is to be said at the end.
    fn close(&mut self, reader: &mut Reader) -> Outcome<()> {
        self.draw(reader)?;
        self.tell(reader);
        match self.passed && self.options.strict {
            true => Err(Failure::Passed),
            false => Ok(()),
        }
    }

    /// The size of the screen, if it is one that has a size.
    fn size(&self) -> Option<(usize, usize)> {
        self.terminal.then(terminal::size).flatten()
    }

    /// Whether the screen has another size than when it was drawn last.
    fn is_resized(&self) -> bool {
        self.size() != self.size
    }

    /// A page is turned: it stays on the screen until the next has something on
    /// it.
    fn turn(&mut self, page: &Page, state: &State) -> Outcome<()> {
        let mut turned = format!("---- page {}, turned ----\n", page.number);
        self.lines(page, state, &mut turned);
        self.turned = Some(turned);
        Ok(())
    }

    /// Draws a last frame where the input could not be read; gives the failure.
    fn end(&mut self, reader: &mut Reader, failure: Failure) -> Failure {
        self.draw(reader).err().unwrap_or(failure)
    }

    /// Draws what is there now, if it is not what was drawn last.
    fn draw(&mut self, reader: &mut Reader) -> Outcome<()> {
        self.drawn = Instant::now();
        reader.settle();
        let size = self.size();
        self.look.columns = size.map(|(_, columns)| columns);
        let mut frame = self.frame(reader);
        if let Some((rows, columns)) = size {
            frame = fitting(&frame, rows - 1, columns);
        }
        let resized = size != self.size;
        if frame == self.frame && !resized {
            return Ok(());
        }
        self.size = size;
        let shown = if self.terminal {
            over(&frame, self.frame.is_empty() || resized)
        } else {
            format!("{frame}\x0C\n")
        };
        self.frame = frame;
        let mut out = io::stdout().lock();
        let written = out.write_all(shown.as_bytes());
        written.and_then(|()| out.flush()).map_err(unwritten)
    }

    /// Appends the lines of a page.
    fn lines(&self, page: &Page, state: &State, lines: &mut String) {
        if !text::draw(page, state, self.look, lines) {
            *lines += &format!("({})\n", text::CROWDED);
        }
    }

    /// The lines of a frame: the present page, or the last one if nothing is on
    /// it, the slots, and what was passed over, since Ctrl-C may be the end.
    fn frame(&self, reader: &Reader) -> String {
        let (page, state) = (reader.page(), reader.state());
        let mut lines = String::new();
        if let Some(name) = &self.name {
            lines += &format!("==== {name} ====\n");
        }
        match &self.turned {
            Some(turned) if page.is_empty() => lines.push_str(turned),
            _ => self.lines(page, state, &mut lines),
        }
        if let Some(asked) = &self.options.slots {
            let answers = slots::answers(page, state, asked);
            slots::draw(&answers, &mut lines);
            if !answers.in_step {
                lines += &format!("({})\n", slots::OUT_OF_STEP);
            }
        }
        if let Some(words) = reader.passed().words() {
            lines += &format!("({words})\n");
        }
        lines
    }
}

/// The last lines of a frame, each cut to so many cells: what has room on the
/// screen. Where there are more, the first line says so.
fn fitting(frame: &str, rows: usize, columns: usize) -> String {
    let mut above = frame.lines().count().saturating_sub(rows);
    let mut lines = String::new();
    if above > 0 && rows > 1 {
        above += 1;
        text::clip(&format!("… {above} lines above"), columns, &mut lines);
        lines.push('\n');
    }
    for line in frame.lines().skip(above) {
        text::clip(line, columns, &mut lines);
        lines.push('\n');
    }
    lines
}

/// What draws a frame over the one before, from the top of the screen; before
/// the first the screen is cleared. A line is erased before it is drawn: after
/// one as wide as the screen a terminal would erase its last cell.
fn over(frame: &str, first: bool) -> String {
    let clear = if first { "\x1B[2J" } else { "" };
    let lines = frame.lines().map(|line| format!("\x1B[K{line}\n"));
    format!("\x1B[0m{clear}\x1B[H{}\x1B[J", lines.collect::<String>())
}
