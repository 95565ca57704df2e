//! Where a record lies on the paper; include/escp.h, 'Geometry', has the whole.

/// How far apart the dots of an image byte lie down, in units, where a column
/// has one byte.
pub const DOT_OF_ONE: u32 = 60;
/// The same where a column has three bytes.
pub const DOT_OF_THREE: u32 = 20;

/// The dot nearest to a place in units, at so many dots to the inch; places up
/// to 14,000,000. Only places are rounded, never widths.
///
/// ```
/// use ierbulosc::dot;
///
/// let columns: [u32; 4] = std::array::from_fn(|letter| dot(360 * letter as u32, 203));
/// assert_eq!(columns, [0, 20, 41, 61]);
/// ```
pub const fn dot(units: u32, dots: u32) -> u32 {
    (units * dots + 1_800) / 3_600
}

/// The exact place across of a letter or an image byte, in units, from the dot
/// column and the rest of its record, at so many dots to the inch across.
///
/// ```
/// use ierbulosc::place;
///
/// assert_eq!(place(20, 1_080, 203), 360);
/// assert_eq!(place(41, -1_440, 203), 720);
/// ```
pub const fn place(column: u16, rest: i16, dots: u32) -> u32 {
    (3_600 * column as i32 + rest as i32) as u32 / dots
}

/// How far below its row a dot of an image byte begins, in units: of dots 0 to
/// 7 from the top, which is the highest bit, of a byte with this part of its
/// column (see [`Record::Im`](crate::Record::Im)).
///
/// ```
/// use ierbulosc::dot_below;
///
/// assert_eq!(dot_below(0, 7), 420);
/// assert_eq!((dot_below(1, 0), dot_below(2, 0), dot_below(3, 7)), (0, 160, 460));
/// ```
pub const fn dot_below(part: u8, dot: u32) -> u32 {
    match part {
        0 => dot * DOT_OF_ONE,
        _ => ((part as u32 - 1) * 8 + dot) * DOT_OF_THREE,
    }
}
