//! A page as a PNG at the printer's own resolution: dots of image bytes as they are
//! printed, letters as boxes of their size.

use crate::braille::down;
use crate::page::Page;
use crate::runs::runs;
use ierbulosc::{Record, State};

/// The page in dots, black ones set; each row begins with the byte of a PNG's
/// filter.
struct Dots {
    bytes: Vec<u8>,
    /// The bytes of a row.
    stride: usize,
    width: u32,
    height: u32,
    across: u32,
    down: u32,
}

impl Dots {
    fn new(state: &State) -> Dots {
        let (across, down) = (state.dots_across, state.dots_down);
        let (width, height) = (dot(state.paper_width, across), dot(state.page, down));
        let stride = 1 + width.div_ceil(8) as usize;
        Dots {
            bytes: vec![0; stride * height as usize],
            stride,
            width,
            height,
            across,
            down,
        }
    }

    /// Sets dots from one place to another, in units, at least one either way.
    fn fill(&mut self, (left, top): (u32, u32), (right, bottom): (u32, u32)) {
        let (first, up) = (dot(left, self.across), dot(top, self.down));
        let last = dot(right, self.across).max(first + 1).min(self.width);
        let low = dot(bottom, self.down).max(up + 1).min(self.height);
        for row in up..low {
            let begin = row as usize * self.stride + 1;
            for column in first..last {
                self.bytes[begin + column as usize / 8] |= 0x80 >> (column % 8);
            }
        }
    }

    /// A box, of lines as thick as a dot.
    fn frame(&mut self, (left, top): (u32, u32), (right, bottom): (u32, u32)) {
        self.fill((left, top), (right, top));
        self.fill((left, bottom), (right, bottom));
        self.fill((left, top), (left, bottom));
        self.fill((right, top), (right, bottom));
    }
}

/// The dot of a place.
fn dot(units: u32, dots: u32) -> u32 {
    (units * dots + 1_800) / 3_600
}

/// The picture of a page, of which these are the mark and the title.
pub fn picture(mark: &str, title: &str, page: &Page, state: &State) -> Vec<u8> {
    let mut dots = Dots::new(state);
    images(&mut dots, page);
    letters(&mut dots, page, state);
    let mut png = b"\x89PNG\r\n\x1A\n".to_vec();
    let mut head = [dots.width.to_be_bytes(), dots.height.to_be_bytes()].concat();
    // One bit a dot, grey, where 0 is black.
    head.extend([1, 0, 0, 0, 0]);
    chunk(&mut png, b"IHDR", &head);
    let meter = |dots: u32| ((dots * 10_000 + 127) / 254).to_be_bytes();
    let mut scale = [meter(dots.across), meter(dots.down)].concat();
    scale.push(1);
    chunk(&mut png, b"pHYs", &scale);
    chunk(&mut png, b"tEXt", format!("Software\0{mark}").as_bytes());
    let title = ["Title\0\0\0\0\0".as_bytes(), title.as_bytes()].concat();
    chunk(&mut png, b"iTXt", &title);
    let stride = dots.stride;
    for row in dots.bytes.chunks_mut(stride) {
        row[1..].iter_mut().for_each(|byte| *byte = !*byte);
    }
    chunk(&mut png, b"IDAT", &compressed(&dots.bytes, stride));
    chunk(&mut png, b"IEND", b"");
    png
}

/// The dots of the image bytes.
fn images(dots: &mut Dots, page: &Page) {
    for (record, place) in page.images.records().zip(&page.images.places) {
        if let Record::Im {
            byte,
            part,
            advance,
            ..
        } = record
        {
            let (below, height) = down(part);
            let right = place.across + u32::from(advance);
            for bit in (0..8).filter(|bit| byte & (0x80 >> bit) != 0) {
                let top = place.down + below + height * bit;
                dots.fill((place.across, top), (right, top + height));
            }
        }
    }
}

/// The letters as boxes: as wide as they are, and as high as a capital.
fn letters(dots: &mut Dots, page: &Page, state: &State) {
    for run in runs(page, state) {
        let (size, baseline) = run.hanging();
        let base = run.place.down + baseline;
        let signs = (0..).zip(run.text.chars());
        for (place, _) in signs.filter(|(_, sign)| *sign != ' ') {
            let left = run.place.across + place * run.advance;
            let (inner, outer) = (left + run.own / 10, left + run.own - run.own / 10);
            dots.frame((inner, base.saturating_sub(size * 7 / 10)), (outer, base));
        }
        if run.is_underlined() {
            let end = run.place.across + run.count * run.advance;
            dots.fill((run.place.across, base + 50), (end, base + 74));
        }
    }
}

/// Appends a chunk.
fn chunk(png: &mut Vec<u8>, name: &[u8; 4], data: &[u8]) {
    png.extend((data.len() as u32).to_be_bytes());
    let begin = png.len();
    png.extend(name);
    png.extend(data);
    let sum = crc(&png[begin..]);
    png.extend(sum.to_be_bytes());
}

/// The remainders of all bytes, for the check of a chunk.
const REMAINDERS: [u32; 256] = {
    let mut remainders = [0; 256];
    let mut byte = 0;
    while byte < 256 {
        let (mut rest, mut bit) = (byte as u32, 0);
        while bit < 8 {
            rest = if rest & 1 == 1 {
                0xEDB8_8320 ^ (rest >> 1)
            } else {
                rest >> 1
            };
            bit += 1;
        }
        remainders[byte] = rest;
        byte += 1;
    }
    remainders
};

fn crc(bytes: &[u8]) -> u32 {
    let step = |rest: u32, byte: &u8| REMAINDERS[usize::from(rest as u8 ^ byte)] ^ (rest >> 8);
    !bytes.iter().fold(!0, step)
}

fn adler(bytes: &[u8]) -> u32 {
    let (mut one, mut two) = (1_u32, 0_u32);
    // As many sums fit before they must be divided.
    for part in bytes.chunks(5_552) {
        for &byte in part {
            one += u32::from(byte);
            two += one;
        }
        (one, two) = (one % 65_521, two % 65_521);
    }
    two << 16 | one
}

/// Bits of a stream, the lowest first.
struct Bits {
    bytes: Vec<u8>,
    held: u32,
    count: u32,
}

impl Bits {
    /// Appends so many bits of a number, the lowest first.
    fn push(&mut self, bits: u32, count: u32) {
        self.held |= bits << self.count;
        self.count += count;
        while self.count >= 8 {
            self.bytes.push(self.held as u8);
            self.held >>= 8;
            self.count -= 8;
        }
    }

    /// Appends a code of so many bits, the highest first.
    fn code(&mut self, code: u32, count: u32) {
        self.push(code.reverse_bits() >> (32 - count), count);
    }

    /// Appends a literal or a length by its number, in the codes that are fixed.
    fn symbol(&mut self, symbol: u32) {
        match symbol {
            0..=143 => self.code(0x30 + symbol, 8),
            144..=255 => self.code(0x190 + symbol - 144, 9),
            256..=279 => self.code(symbol - 256, 7),
            _ => self.code(0xC0 + symbol - 280, 8),
        }
    }

    /// Appends the number of a range that begins with `first`, of which each doubling
    /// has `steps` parts, and the place within it.
    fn length(&mut self, length: u32) {
        if length == 258 {
            return self.symbol(285);
        }
        let (part, extra, rest) = parted(length - 3, 4);
        self.symbol(257 + part);
        self.push(rest, extra);
    }

    fn distance(&mut self, distance: u32) {
        let (part, extra, rest) = parted(distance - 1, 2);
        self.code(part, 5);
        self.push(rest, extra);
    }
}

/// The number of the part that a number lies in, the bits of the place within it,
/// and that place: every doubling is so many parts.
fn parted(number: u32, parts: u32) -> (u32, u32, u32) {
    if number < 2 * parts {
        return (number, 0, 0);
    }
    let extra = number.ilog2() - parts.ilog2();
    let part = extra * parts + (number >> extra);
    (part, extra, number & ((1 << extra) - 1))
}

/// The most bytes that are repeated at once.
const MOST: usize = 258;

/// How many bytes from here on repeat those so far before, at most.
fn repeated(bytes: &[u8], at: usize, distance: usize) -> usize {
    if distance > at {
        return 0;
    }
    let pairs = bytes[at..].iter().zip(&bytes[at - distance..]);
    pairs
        .take(MOST)
        .take_while(|(one, other)| one == other)
        .count()
}

/// The bytes of a stream of zlib: what repeats the byte before it, or the row above
/// it, is not written again.
fn compressed(bytes: &[u8], stride: usize) -> Vec<u8> {
    let mut bits = Bits {
        bytes: vec![0x78, 0x01],
        held: 0,
        count: 0,
    };
    // One block, the last, in the codes that are fixed.
    bits.push(0b011, 3);
    let mut at = 0;
    while at < bytes.len() {
        let (above, before) = (repeated(bytes, at, stride), repeated(bytes, at, 1));
        let (length, distance) = match above >= before {
            true => (above, stride),
            false => (before, 1),
        };
        if length < 3 {
            bits.symbol(bytes[at].into());
            at += 1;
        } else {
            bits.length(length as u32);
            bits.distance(distance as u32);
            at += length;
        }
    }
    bits.symbol(256);
    bits.push(0, 7);
    bits.bytes.extend(adler(bytes).to_be_bytes());
    bits.bytes
}
