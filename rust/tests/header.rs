//! The C header, the Rust declarations and the Rattle source say the same:
//! structs field by field, registers by name and place, functions parameter
//! by parameter, constants.

use ierbulosc::{Answer, Letter, Record, LETTER_SIZE, RECORD_SIZE};

const HEADER: &str = include_str!("../../include/escp.h");
const FUNCTIONS: &str = include_str!("../src/interface.rs");
const STRUCTS: &str = include_str!("../src/state.rs");
const LAYOUT: &str = include_str!("../../crates/registers/src/lib.rt");
const NUMBERS: &str = include_str!("../../crates/registers/specs/Register.antt");
const EXPORTS: &str = include_str!("../../crates/ierbulosc/src/lib.rt");

/// A field or a parameter: its name and its type, as C writes it.
type Named = (String, String);

/// The text between the first of these two and the next of the other.
fn between<'a>(text: &'a str, from: &str, to: &str) -> Option<&'a str> {
    let (_, rest) = text.split_once(from)?;
    Some(rest.split_once(to)?.0)
}

/// The header without its comments.
fn header() -> String {
    let parts = HEADER.split("/*");
    let code = |part: &str| match part.split_once("*/") {
        Some((_, code)) => code.to_string(),
        None => part.to_string(),
    };
    parts.map(code).collect()
}

/// A text with single spaces.
fn spaced(text: &str) -> String {
    text.split_whitespace().collect::<Vec<_>>().join(" ")
}

/// What C declares as `uint32_t stops[ESCP_TAB_STOPS]` or `const uint8_t *input`.
fn c_named(declared: &str) -> Named {
    let declared = spaced(declared);
    let at = declared.rfind([' ', '*']).unwrap() + 1;
    let (kind, name) = declared.split_at(at);
    match name.split_once('[') {
        None => (name.to_string(), kind.trim().to_string()),
        Some((name, room)) => (name.to_string(), format!("{}[{room}", kind.trim())),
    }
}

/// The structs of the header, in order.
fn c_structs() -> Vec<(String, Vec<Named>)> {
    let header = header();
    let parts = header.split("typedef struct ").skip(1);
    let parts = parts.map(|part| part.split_once(" {").unwrap());
    parts
        .map(|(name, rest)| {
            let (fields, _) = rest.split_once('}').unwrap();
            let fields = fields.split(';').filter(|field| !field.trim().is_empty());
            (name.to_string(), fields.map(c_named).collect())
        })
        .collect()
}

fn c_struct(name: &str) -> Vec<Named> {
    let found = c_structs().into_iter().find(|(of, _)| of == name);
    found.unwrap_or_else(|| panic!("no struct {name}")).1
}

/// The name in C of a type in Rust.
fn c_type(rust: &str) -> String {
    if let Some(to) = rust.strip_prefix("*mut ") {
        return format!("{} *", c_type(to));
    }
    if let Some(to) = rust.strip_prefix("*const ") {
        return format!("const {} *", c_type(to));
    }
    if let Some((kind, room)) = rust.trim_matches(['[', ']']).split_once("; ") {
        return format!("{}[ESCP_{room}]", c_type(kind));
    }
    match rust {
        "u8" => "uint8_t".to_string(),
        "u16" => "uint16_t".to_string(),
        "u32" => "uint32_t".to_string(),
        "usize" => "size_t".to_string(),
        _ => format!("escp_{}", rust.to_lowercase()),
    }
}

/// What Rust or Rattle declares as `name: type`, with the type as it is.
fn named(declared: &str) -> Option<(&str, &str)> {
    let declared = declared.trim();
    let declared = declared.strip_prefix("pub ").unwrap_or(declared);
    declared.split_once(": ")
}

fn rust_structs() -> Vec<(String, Vec<Named>)> {
    let source = format!("{STRUCTS}\n{FUNCTIONS}");
    let parts = source.split("#[repr(C)]").skip(1);
    let field = |line: &str| {
        let line = line.trim();
        let declared = (!line.starts_with("//")).then(|| named(line))?;
        let (name, kind) = declared?;
        Some((name.to_string(), c_type(kind.trim_end_matches(','))))
    };
    parts
        .map(|part| {
            let name = between(part, "struct ", " {").unwrap();
            let fields = between(part, " {\n", "\n}").unwrap();
            (c_type(name), fields.lines().filter_map(field).collect())
        })
        .collect()
}

#[test]
fn structs_are_those_of_the_header() {
    let rust = rust_structs();
    for (name, fields) in &rust {
        assert_eq!(&c_struct(name), fields, "{name}");
    }
    let names: Vec<&str> = rust.iter().map(|(name, _)| name.as_str()).collect();
    let all = c_structs();
    let declared = all.iter().map(|(name, _)| name.as_str());
    let declared: Vec<&str> = declared.filter(|&name| name != "escp_record").collect();
    assert_eq!(names, declared);
}

/// The numbers of a C type, each with its name within it and its own type.
fn numbers(kind: &str, name: &str) -> Vec<Named> {
    if let Some((kind, room)) = kind.trim_end_matches(']').split_once("[ESCP_") {
        let one = |at| (format!("{name}[{at}]"), kind.to_string());
        return (0..c_constant(room)).map(one).collect();
    }
    if !kind.starts_with("escp_") {
        return vec![(name.to_string(), kind.to_string())];
    }
    let fields = c_struct(kind);
    let within = |(field, kind): &Named| match name {
        "" => numbers(kind, field),
        _ => numbers(kind, &format!("{name}.{field}")),
    };
    fields.iter().flat_map(within).collect()
}

/// The number of a sum of numerals, of names that have theirs, of the room for
/// stops, and of the channels.
fn sum(text: &str, known: &[(String, usize)]) -> usize {
    let term = |word: &str| match known.iter().find(|(name, _)| name == word) {
        Some((_, number)) => *number,
        None if word == "TabStops::ROOM" || word == "stop_room" => c_constant("TAB_STOPS"),
        None if word == "Channels::NUMBER" => c_constant("CHANNELS"),
        None => word.parse().unwrap_or_else(|_| panic!("{word} in {text}")),
    };
    text.split(" + ").map(term).sum()
}

/// Names with the numbers that these lines give them, each by those before it.
fn numbered<'a>(lines: impl Iterator<Item = (&'a str, &'a str)>) -> Vec<(String, usize)> {
    let mut all = Vec::new();
    for (name, text) in lines {
        let number = sum(text, &all);
        all.push((name.to_string(), number));
    }
    all
}

/// The constants of the layout in Rattle, with the numbers that they have.
fn layout() -> Vec<(String, usize)> {
    let constants = LAYOUT.lines().filter_map(|l| l.strip_prefix("pub const "));
    let line = |line: &'static str| line.strip_suffix(';')?.split_once(": usize = ");
    numbered(constants.map(|text| line(text).unwrap()))
}

/// The numbers of the registers in the definitions, by the names in the code:
/// `line_count_at` is LINE_COUNT, and `register_count` COUNT.
fn defined() -> Vec<(String, usize)> {
    let lines = NUMBERS.lines().filter(|line| !line.starts_with("--"));
    let mut all = numbered(lines.filter_map(|line| line.split_once(" = ")));
    for (name, _) in &mut all {
        let own = match name.as_str() {
            "register_count" => "count",
            name => name.strip_suffix("_at").unwrap(),
        };
        *name = own.to_uppercase();
    }
    all
}

/// The name in Rattle of a register of the state: `columns.count` is
/// COLUMN_COUNT, and `columns.stops[0]` COLUMN_STOPS.
fn register(name: &str) -> Option<String> {
    let name = match name.split_once('[') {
        None => name,
        Some((name, "0]")) => name,
        Some(_) => return None,
    };
    let name = match name.split_once('.') {
        None => name.to_string(),
        Some((list, part)) => format!("{}_{part}", list.trim_end_matches('s')),
    };
    Some(name.to_uppercase())
}

#[test]
fn registers_are_those_of_the_layout() {
    let state = numbers("escp_state", "");
    assert!(state.iter().all(|(_, kind)| kind == "uint32_t"));
    let mut named = vec![("COUNT".to_string(), state.len())];
    let places = state.iter().enumerate();
    named.extend(places.filter_map(|(at, (name, _))| Some((register(name)?, at))));
    assert_eq!(layout(), named);
    assert_eq!(c_constant("REGISTERS"), state.len());
}

#[test]
fn definitions_number_the_registers_as_the_code_does() {
    let (mut code, mut definitions) = (layout(), defined());
    code.sort();
    definitions.sort();
    assert_eq!(definitions, code);
}

/// The parameters between a function's brackets, and what it gives.
type Function = (String, Vec<Named>, String);

fn parameters(list: &str, of_one: impl Fn(&str) -> Vec<Named>) -> Vec<Named> {
    let list = list.split(',').filter(|one| !one.trim().is_empty());
    list.flat_map(of_one).collect()
}

fn c_functions() -> Vec<Function> {
    let header = header();
    let lines = header.split(';').map(spaced);
    // no lines of the functions that the header has whole
    let lines = lines.filter(|line| !line.contains(['{', '}', '=']));
    let declared = lines.filter_map(|line| {
        let (result, rest) = line.split_once(" escp_")?;
        let (name, list) = rest.strip_suffix(')')?.split_once('(')?;
        Some((
            format!("escp_{name}"),
            parameters(list, |one| vec![c_named(one)]),
            result.rsplit(' ').next()?.to_string(),
        ))
    });
    declared.collect()
}

fn rust_functions() -> Vec<Function> {
    let block = between(FUNCTIONS, "extern \"C\" {", "\n}").unwrap();
    let declared = block.split(';').map(spaced).filter_map(|line| {
        let (name, rest) = line.split_once("pub fn ")?.1.split_once('(')?;
        let (list, result) = rest.split_once(") -> ")?;
        let one = |one: &str| {
            let (name, kind) = named(one).unwrap();
            vec![(name.to_string(), c_type(kind))]
        };
        Some((name.to_string(), parameters(list, one), c_type(result)))
    });
    declared.collect()
}

/// A number in Rattle: itself, or the constant of this name.
fn rattle_number(word: &str) -> usize {
    let own = between(EXPORTS, &format!("const {word}: usize = "), ";");
    let of_layout = || layout().into_iter().find(|(name, _)| name == word);
    match own.unwrap_or(word).parse() {
        Ok(number) => number,
        Err(_) => of_layout().unwrap_or_else(|| panic!("{word}")).1,
    }
}

/// The parameters in C of one in Rattle: a slice is a pointer and a length,
/// named by it unless it is the call's only one; an array behind a reference is
/// a struct of as many numbers, and a number behind one a pointer.
fn exported(name: &str, kind: &str, only_slice: bool) -> Vec<Named> {
    let (constant, behind) = match (kind.strip_prefix("&mut "), kind.strip_prefix('&')) {
        (Some(behind), _) => ("", behind),
        (None, Some(behind)) => ("const ", behind),
        (None, None) => return vec![(name.to_string(), c_type(kind))],
    };
    if !behind.starts_with('[') {
        let pointer = format!("{constant}{} *", c_type(behind));
        return vec![(name.to_string(), pointer)];
    }
    let behind = behind.trim_matches(['[', ']']);
    let Some((each, count)) = behind.split_once("; ") else {
        let slice = format!("{constant}{} *", c_type(behind));
        let length = match only_slice {
            true => "length".to_string(),
            false => format!("{name}_length"),
        };
        return vec![(name.to_string(), slice), (length, c_type("usize"))];
    };
    let all = numbers(&format!("escp_{name}"), "");
    assert_eq!(all.len(), rattle_number(count), "{name}");
    assert!(all.iter().all(|(_, kind)| *kind == c_type(each)), "{name}");
    vec![(name.to_string(), format!("{constant}escp_{name} *"))]
}

fn rattle_functions() -> Vec<Function> {
    let declared = EXPORTS.split("#[unsafe(no_mangle)]\n").skip(1);
    let declared = declared.map(|part| {
        let rest = part.strip_prefix("pub extern \"C\" fn ").unwrap();
        let (name, rest) = rest.split_once('(').unwrap();
        let (list, rest) = rest.split_once(") -> ").unwrap();
        let result = rest.split_whitespace().next().unwrap();
        let only_slice = list.matches("[u8]").count() == 1;
        let one = |one: &str| {
            let (name, kind) = named(one).unwrap();
            exported(name, kind, only_slice)
        };
        (name.to_string(), parameters(list, one), c_type(result))
    });
    declared.collect()
}

#[test]
fn functions_are_those_exported() {
    assert_eq!(c_functions().len(), 4);
    assert_eq!(rust_functions(), c_functions());
    assert_eq!(rattle_functions(), c_functions());
}

/// The constants of the header, with what they are set to.
fn c_constants() -> Vec<(String, String)> {
    let header = header();
    let blocks = header.split("enum {").skip(1);
    let lines = blocks.flat_map(|block| block.split('}').next().unwrap().split(','));
    let lines = lines.filter_map(|line| line.trim().split_once(" = "));
    lines
        .map(|(name, number)| (name.to_string(), number.to_string()))
        .collect()
}

/// The number of a constant, without its ESCP_.
fn c_constant(name: &str) -> usize {
    let full = format!("ESCP_{name}");
    let mut all = c_constants().into_iter().filter(|(name, _)| *name == full);
    let (_, value) = all.next().unwrap_or_else(|| panic!("no constant {name}"));
    assert_eq!(all.next(), None, "{name}");
    let factor = |word: &str| {
        let word = word.trim();
        match (word.strip_prefix("ESCP_"), word.strip_prefix("0x")) {
            (Some(name), _) => c_constant(name),
            (_, Some(digits)) => usize::from_str_radix(digits, 16).unwrap(),
            _ => word.parse().unwrap(),
        }
    };
    value.split('*').map(factor).product()
}

/// The names of answers in C, and what they are in Rust.
fn answers() -> [(&'static str, Answer); 11] {
    [
        ("INPUT_USED", Answer::Done),
        ("ALLOWANCE_USED", Answer::AllowanceUsed),
        ("OUTPUT_FULL", Answer::OutputFull),
        ("SETTINGS_REFUSED", Answer::SettingsRefused),
        ("STATE_REFUSED", Answer::StateRefused),
        ("ANSWERED", Answer::Done),
        ("LENGTH_REFUSED", Answer::LengthRefused),
        ("WRITTEN", Answer::Done),
        ("BYTE_REFUSED", Answer::ByteRefused),
        ("PLACE_REFUSED", Answer::PlaceRefused),
        ("ROOM_REFUSED", Answer::RoomRefused),
    ]
}

#[test]
fn answers_are_those_of_the_header() {
    for (name, answer) in answers() {
        assert_eq!(c_constant(name), answer.number().into(), "{name}");
    }
    let named: Vec<Answer> = answers().into_iter().map(|(_, answer)| answer).collect();
    for number in 0..=u8::MAX {
        let answer = Answer::of(number);
        assert_eq!(answer.number(), number);
        assert_eq!(answer == Answer::Other(number), !named.contains(&answer));
    }
}

/// The names of the style bits and of an image's geometry.
fn names() -> [(&'static str, usize); 16] {
    use ierbulosc::{style, DOT_OF_ONE, DOT_OF_THREE};
    [
        ("BOLD", style::BOLD.into()),
        ("DOUBLE_STRIKE", style::DOUBLE_STRIKE.into()),
        ("ITALIC", style::ITALIC.into()),
        ("UNDERLINE", style::UNDERLINE.into()),
        ("SUPERSCRIPT", style::SUPERSCRIPT.into()),
        ("SUBSCRIPT", style::SUBSCRIPT.into()),
        ("DOUBLE_WIDTH", style::DOUBLE_WIDTH.into()),
        ("DOUBLE_HEIGHT", style::DOUBLE_HEIGHT.into()),
        ("OUTLINE", style::OUTLINE.into()),
        ("SHADOW", style::SHADOW.into()),
        ("PROPORTIONAL", style::PROPORTIONAL.into()),
        ("REDUCED", style::REDUCED.into()),
        ("ITALIC_TABLE", style::ITALIC_TABLE.into()),
        ("DOWNLOAD", style::DOWNLOAD.into()),
        ("DOT_OF_ONE", DOT_OF_ONE as usize),
        ("DOT_OF_THREE", DOT_OF_THREE as usize),
    ]
}

#[test]
fn names_are_those_of_the_header() {
    for (name, number) in names() {
        assert_eq!(c_constant(name), number, "{name}");
    }
}

#[test]
fn version_is_that_of_the_header() {
    let version = between(HEADER, "#define ESCP_VERSION \"", "\"\n");
    assert_eq!(version, Some(ierbulosc::VERSION));
    let parts = ierbulosc::VERSION.split('.').map(|part| part.parse());
    let parts: Vec<u32> = parts.map(Result::unwrap).collect();
    assert!(parts.len() == 3 && parts[1..].iter().all(|&part| part < 100));
    let number = parts.iter().fold(0, |number, part| 100 * number + part);
    let written = between(HEADER, "#define ESCP_VERSION_NUMBER ", "\n");
    assert_eq!(written, Some(number.to_string().as_str()));
}

/// The number of a mark.
fn mark(letters: &[u8; 2]) -> usize {
    u16::from_le_bytes(*letters).into()
}

#[test]
fn constants_are_those_of_the_header() {
    let constants: [(&str, usize); 30] = [
        ("LETTER_SIZE", ierbulosc::LETTER_SIZE),
        ("CARD_BEGIN", ierbulosc::CARD_BEGIN),
        ("LETTER_MOST", ierbulosc::LETTER_MOST),
        ("RECORD_SIZE", ierbulosc::RECORD_SIZE),
        ("ROOM", ierbulosc::ROOM),
        ("REGISTERS", ierbulosc::REGISTERS),
        ("TAB_STOPS", ierbulosc::TAB_STOPS),
        ("COLUMNS", ierbulosc::COLUMNS),
        ("LINES", ierbulosc::LINES),
        ("CHANNELS", ierbulosc::CHANNELS),
        ("CHANNEL_STOPS", ierbulosc::CHANNEL_STOPS),
        ("NOTHING", ierbulosc::NOTHING as usize),
        ("SECOND_BYTE", ierbulosc::SECOND_BYTE as usize),
        ("FIRST_ARGUMENT", ierbulosc::FIRST_ARGUMENT as usize),
        ("SECOND_ARGUMENT", ierbulosc::SECOND_ARGUMENT as usize),
        ("STOP_LIST", ierbulosc::STOP_LIST as usize),
        ("IMAGE_DATA", ierbulosc::IMAGE_DATA as usize),
        ("THIRD_ARGUMENT", ierbulosc::THIRD_ARGUMENT as usize),
        ("DROPPED_LIST", ierbulosc::DROPPED_LIST as usize),
        ("TX", mark(b"TX")),
        ("IM", mark(b"IM")),
        ("LN", mark(b"LN")),
        ("CL", mark(b"CL")),
        ("NO", mark(b"NO")),
        ("NEW_TOP", ierbulosc::NEW_TOP.into()),
        ("UNLISTED", ierbulosc::UNLISTED.into()),
        ("NOT_ALLOWED", ierbulosc::NOT_ALLOWED.into()),
        ("PAST_LIMITS", ierbulosc::PAST_LIMITS.into()),
        ("NO_FIT", ierbulosc::NO_FIT.into()),
        ("NO_STOP", ierbulosc::NO_STOP.into()),
    ];
    for (name, number) in constants {
        assert_eq!(c_constant(name), number, "{name}");
    }
    let others = names().len() + answers().len();
    assert_eq!(c_constants().len(), constants.len() + others);
}

/// The number that the header's function fills a field with, from these bytes:
/// its lines are such as `record->row = escp_two_bytes(bytes + 4);`.
fn filled(field: &str, bytes: &[u8; RECORD_SIZE]) -> u16 {
    let line = between(HEADER, &format!("    record->{field} = "), ";").unwrap();
    if let Some(at) = between(line, "bytes[", "]") {
        return bytes[at.parse::<usize>().unwrap()].into();
    }
    let at = match between(line, "escp_two_bytes(bytes + ", ")") {
        Some(at) => at.parse().unwrap(),
        None => 0,
    };
    assert_eq!(line.contains("escp_signed"), field == "rest");
    u16::from_le_bytes([bytes[at], bytes[at + 1]])
}

#[test]
fn records_are_filled_as_in_the_header() {
    // the last one makes the rest less than 0
    let mut bytes = std::array::from_fn(|at| 0x21 + 7 * at as u8);
    assert!(bytes[RECORD_SIZE - 1] >= 0x80);
    let mut of = |mark: &[u8; 2]| {
        bytes[..2].copy_from_slice(mark);
        assert_eq!(usize::from(filled("mark", &bytes)), self::mark(mark));
        (bytes, Record::from_bytes(&bytes).unwrap())
    };
    let one_byte = |field, bytes| u8::try_from(filled(field, bytes)).unwrap();
    let (b, tx) = of(b"TX");
    let expected = Record::Tx {
        column: filled("column", &b),
        row: filled("row", &b),
        byte: one_byte("byte", &b),
        font: one_byte("font", &b),
        style: filled("style", &b),
        country: one_byte("country", &b),
        advance: filled("advance", &b),
        rest: filled("rest", &b) as i16,
    };
    assert_eq!(tx, expected);
    let (b, im) = of(b"IM");
    let expected = Record::Im {
        column: filled("column", &b),
        row: filled("row", &b),
        byte: one_byte("byte", &b),
        part: one_byte("font", &b),
        advance: filled("advance", &b),
        rest: filled("rest", &b) as i16,
    };
    assert_eq!(im, expected);
    let (b, ln) = of(b"LN");
    let (row, pages) = (filled("row", &b), one_byte("byte", &b));
    assert_eq!(ln, Record::Ln { row, pages });
    assert_eq!(of(b"CL").1, Record::Cl);
    let (b, no) = of(b"NO");
    let (byte, reason) = (one_byte("byte", &b), filled("style", &b) as u8);
    assert_eq!(no, Record::No { byte, reason });
    assert_eq!(c_struct("escp_record").len(), 11);
}

/// The byte that the header's function lays down at a place: its lines are
/// such as `bytes[1] = (uint8_t)(across % 256u);`.
fn laid(at: usize, byte: u8, across: u16, down: u16) -> u8 {
    let line = between(HEADER, &format!("    bytes[{at}] = "), ";").unwrap();
    let [across, down] = [across, down].map(u16::to_le_bytes);
    match line {
        "byte" => byte,
        "(uint8_t)(across % 256u)" => across[0],
        "(uint8_t)(across / 256u)" => across[1],
        "(uint8_t)(down % 256u)" => down[0],
        "(uint8_t)(down / 256u)" => down[1],
        _ => panic!("{line}"),
    }
}

#[test]
fn letters_are_laid_down_as_in_the_header() {
    let (byte, across, down) = (0x41, 0x1234, 0x5678);
    let letter = Letter::new(byte, across, down);
    let header: [u8; LETTER_SIZE] = std::array::from_fn(|at| laid(at, byte, across, down));
    assert_eq!(letter.to_bytes(), header);
    assert_eq!(Letter::from_bytes(header), letter);
    let back = (letter.byte(), letter.across(), letter.down());
    assert_eq!(back, (byte, across, down));
}
