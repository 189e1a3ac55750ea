//! The library's C functions (include/sgf.h) over slices: the only unsafe code. `compare/` takes this file in too, so that they are
//! declared once. Each call lends slices that are valid for its length, and those lent to be written do not overlap, for they are
//! borrowed as mutable.

/// Used rows of each table.
#[repr(C)]
#[derive(Debug, Clone, Copy, Default, PartialEq, Eq)]
pub struct Counts {
    pub trees: usize,
    pub nodes: usize,
    pub properties: usize,
    pub values: usize,
}

/// The answer of a reading.
#[repr(C)]
#[derive(Debug, Clone, Copy, PartialEq, Eq)]
pub struct Reading {
    pub number: u32,
    pub ignored: u32,
    pub place: usize,
    pub counts: Counts,
}

/// A number and a span.
#[repr(C)]
#[derive(Debug, Clone, Copy, PartialEq, Eq)]
pub struct Span {
    pub number: u32,
    pub reserved: u32,
    pub from: usize,
    pub to: usize,
}

/// A number and how many bytes were written.
#[repr(C)]
#[derive(Debug, Clone, Copy, PartialEq, Eq)]
pub struct Length {
    pub number: u32,
    pub reserved: u32,
    pub length: usize,
}

/// A number and a Go value: point (x, y) of a set is marked, by 1 as C's `bool`, at 52 * x + y.
#[repr(C)]
#[derive(Debug, Clone, Copy, PartialEq, Eq)]
pub struct GoValue {
    pub number: u32,
    pub kind: u32,
    pub x: u32,
    pub y: u32,
    pub handicap: u64,
    pub marks: [u8; 2704],
}

/// A number; trees, nodes, moves of each colour without passes, passes.
#[repr(C)]
#[derive(Debug, Clone, Copy, PartialEq, Eq)]
pub struct Tally {
    pub number: u32,
    pub reserved: u32,
    pub trees: usize,
    pub nodes: usize,
    pub black: usize,
    pub white: usize,
    pub passes: usize,
}

/// A number; how many bytes were written; the tally; the tag of the writing.
#[repr(C)]
#[derive(Debug, Clone, Copy, PartialEq, Eq)]
pub struct Line {
    pub number: u32,
    pub reserved: u32,
    pub length: usize,
    pub trees: usize,
    pub nodes: usize,
    pub black: usize,
    pub white: usize,
    pub passes: usize,
    pub tag: u64,
}

/// A number; whether there is a board size, 0 none, 1 one, 2 a wrong one; columns and rows; the rule of the tree.
#[repr(C)]
#[derive(Debug, Clone, Copy, PartialEq, Eq)]
pub struct Size {
    pub number: u32,
    pub kind: u32,
    pub columns: u32,
    pub rows: u32,
    pub rule: u32,
}

/// A board: a number, the sides, stones put on and taken off, and what stands at 52 * x + y.
#[repr(C)]
#[derive(Debug, Clone, Copy, PartialEq, Eq)]
pub struct Board {
    pub number: u32,
    pub columns: u32,
    pub rows: u32,
    pub reserved: u32,
    pub black_on: u64,
    pub black_off: u64,
    pub white_on: u64,
    pub white_off: u64,
    pub stones: [u8; 2704],
}

/// The answer of an edit: number and place, used bytes, used rows.
#[repr(C)]
#[derive(Debug, Clone, Copy, PartialEq, Eq)]
pub struct Edit {
    pub number: u32,
    pub reserved: u32,
    pub place: usize,
    pub used: usize,
    pub counts: Counts,
}

/// Why a text is refused, by number, fact, place and the number in the fact; or the counts, and where reading ended.
#[repr(C)]
#[derive(Debug, Clone, Copy, PartialEq, Eq)]
pub struct Why {
    pub number: u32,
    pub fact: u32,
    pub place: usize,
    pub detail: usize,
    pub counts: Counts,
}

/// A number and a place; how many bytes and changes were written, and the counts of the tables.
#[repr(C)]
#[derive(Debug, Clone, Copy, PartialEq, Eq)]
pub struct Salvage {
    pub number: u32,
    pub reserved: u32,
    pub place: usize,
    pub length: usize,
    pub changes: usize,
    pub counts: Counts,
}

/// What trimming keeps: number 0 and first..last, or number 2 and the place of the first bad sequence.
#[repr(C)]
#[derive(Debug, Clone, Copy, PartialEq, Eq)]
pub struct Trimmed {
    pub number: u32,
    pub place: usize,
    pub first: usize,
    pub last: usize,
}

/// A token with its span, or the number of its fault; `opens` is a property's first `[`, else the start.
#[repr(C)]
#[derive(Debug, Clone, Copy, PartialEq, Eq)]
pub struct Token {
    pub kind: u32,
    pub number: u32,
    pub from: usize,
    pub opens: usize,
    pub to: usize,
}

/// A value's span between its brackets, and the place behind it; the place itself where there is none.
#[repr(C)]
#[derive(Debug, Clone, Copy, PartialEq, Eq)]
pub struct Value {
    pub kind: u32,
    pub from: usize,
    pub to: usize,
    pub next: usize,
}

/// Where a value's bytes stand, in the record (source 0) or in the feed (1); or the number of a refusal and its place.
#[repr(C)]
#[derive(Debug, Clone, Copy, PartialEq, Eq)]
pub struct Part {
    pub number: u32,
    pub source: u32,
    pub place: usize,
    pub from: usize,
    pub to: usize,
}

/// Number 0; or the number of a refusal and its place.
#[repr(C)]
#[derive(Debug, Clone, Copy, PartialEq, Eq)]
pub struct Check {
    pub number: u32,
    pub reserved: u32,
    pub place: usize,
}

/// What is known between two blocks; all zero is the start.
#[repr(C)]
#[derive(Debug, Clone, Copy, Default, PartialEq, Eq)]
pub struct Blocks {
    pub total: u32,
    pub utf: u32,
    pub utf_from: u32,
    pub code: u32,
    pub last: u32,
    pub now: u32,
    pub now_from: u32,
    pub count: u32,
    pub kept: u32,
    pub kept_from: u32,
    pub held: u32,
    pub closed: u32,
}

/// The answer to a block: number 0 or 20, and what is known then.
#[repr(C)]
#[derive(Debug, Clone, Copy, PartialEq, Eq)]
pub struct Block {
    pub number: u32,
    pub state: Blocks,
}

/// The answer to a close: number and place, how many tokens, and what is known then.
#[repr(C)]
#[derive(Debug, Clone, Copy, PartialEq, Eq)]
pub struct Close {
    pub number: u32,
    pub place: usize,
    pub tokens: usize,
    pub state: Blocks,
}

/// A text of which `used` bytes are the record's, the counts, and the tables of trees, nodes, properties and values.
#[derive(Debug, Clone, Copy)]
pub struct Held<'a> {
    pub text: &'a [u8],
    pub used: usize,
    pub counts: Counts,
    pub tables: [&'a [u32]; 4],
}

/// The same for an edit, which writes the text and the tables of properties and values.
pub struct Edited<'a> {
    pub text: &'a mut [u8],
    pub used: usize,
    pub counts: Counts,
    pub trees: &'a [u32],
    pub nodes: &'a [u32],
    pub properties: &'a mut [u32],
    pub values: &'a mut [u32],
}

/// Declares functions whose first arguments are a record, over pointers of this mutability to what an edit writes.
macro_rules! declare {
    ($($m:tt $f:ident($($name:ident: $t:ty),*) -> $r:ty;)*) => {
        unsafe extern "C" {
            $(fn $f(text: *$m u8, text_len: usize, used: usize, counts: Counts, trees: *const u32, trees_len: usize,
                nodes: *const u32, nodes_len: usize, properties: *$m u32, properties_len: usize,
                values: *$m u32, values_len: usize, $($name: $t),*) -> $r;)*
        }
    };
}

declare! {
    const sgf_fits() -> u32;
    const sgf_value(k: usize) -> Span;
    const sgf_display(k: usize, kind: u32, out: *mut u8, out_len: usize) -> Length;
    const sgf_go_value(p: usize) -> GoValue;
    const sgf_size(tree: usize) -> Size;
    const sgf_tally() -> Tally;
    const sgf_line(out: *mut u8, out_len: usize) -> Line;
    const sgf_board(node: usize) -> Board;
    const sgf_write(out: *mut u8, out_len: usize) -> Length;
    const sgf_write_length() -> Length;
    mut sgf_edit(k: usize, new: *const u8, new_len: usize) -> Edit;
    const sgf_corrected(feed: *const u8, feed_len: usize, k: usize) -> Part;
    const sgf_feed_check(feed: *const u8, feed_len: usize) -> Check;
    mut sgf_correct(feed: *const u8, feed_len: usize) -> Edit;
}

unsafe extern "C" {
    fn sgf_version() -> u32;
    fn sgf_tag(bytes: *const u8, bytes_len: usize) -> u64;
    fn sgf_board_next(
        board: Board,
        text: *const u8,
        text_len: usize,
        properties: *const u32,
        properties_len: usize,
        values: *const u32,
        values_len: usize,
        first: usize,
        count: usize,
    ) -> Board;
    fn sgf_feed_find(feed: *const u8, feed_len: usize, k: usize) -> Part;
    fn sgf_feed_begin(count: usize, out: *mut u8, out_len: usize) -> Length;
    fn sgf_feed_add(value: usize, bytes: *const u8, bytes_len: usize, out: *mut u8, out_len: usize) -> Length;
    fn sgf_display_value(kind: u32, raw: *const u8, raw_len: usize, out: *mut u8, out_len: usize) -> Length;
    fn sgf_escape(text: *const u8, text_len: usize, out: *mut u8, out_len: usize) -> Length;
    fn sgf_trim(text: *const u8, text_len: usize) -> Trimmed;
    fn sgf_token(text: *const u8, text_len: usize, at: usize) -> Token;
    fn sgf_next_value(text: *const u8, text_len: usize, at: usize) -> Value;
    fn sgf_block(state: Blocks, block: *const u8, block_len: usize, rows: *mut u32, rows_len: usize) -> Block;
    fn sgf_close(state: Blocks, rows: *mut u32, rows_len: usize) -> Close;
    fn sgf_count_strict(text: *const u8, text_len: usize) -> Reading;
    fn sgf_count_lenient(text: *const u8, text_len: usize) -> Reading;
    fn sgf_why_strict(text: *const u8, text_len: usize) -> Why;
    fn sgf_why_lenient(text: *const u8, text_len: usize) -> Why;
    fn sgf_salvage(
        text: *const u8,
        text_len: usize,
        trees: *mut u32,
        trees_len: usize,
        nodes: *mut u32,
        nodes_len: usize,
        properties: *mut u32,
        properties_len: usize,
        values: *mut u32,
        values_len: usize,
        changes: *mut u32,
        changes_len: usize,
        out: *mut u8,
        out_len: usize,
    ) -> Salvage;
    fn sgf_read_strict(
        text: *const u8,
        text_len: usize,
        settings: u32,
        trees: *mut u32,
        trees_len: usize,
        nodes: *mut u32,
        nodes_len: usize,
        properties: *mut u32,
        properties_len: usize,
        values: *mut u32,
        values_len: usize,
    ) -> Reading;
    fn sgf_read_lenient(
        text: *const u8,
        text_len: usize,
        settings: u32,
        trees: *mut u32,
        trees_len: usize,
        nodes: *mut u32,
        nodes_len: usize,
        properties: *mut u32,
        properties_len: usize,
        values: *mut u32,
        values_len: usize,
    ) -> Reading;
    fn sgf_tree_size(
        text: *const u8,
        text_len: usize,
        trees: *const u32,
        trees_len: usize,
        nodes: *const u32,
        nodes_len: usize,
        properties: *const u32,
        properties_len: usize,
        values: *const u32,
        values_len: usize,
        tree: usize,
    ) -> Size;
    fn sgf_go_by_rule(
        rule: u32,
        identifier: *const u8,
        identifier_len: usize,
        text: *const u8,
        text_len: usize,
        values: *const u32,
        values_len: usize,
        first: usize,
        count: usize,
    ) -> GoValue;
}

/// Calls a function over a record.
macro_rules! over {
    ($f:ident, $held:expr, $($more:expr),*) => {{
        let Held { text, used, counts, tables: [trees, nodes, properties, values] } = *$held;
        unsafe {
            $f(text.as_ptr(), text.len(), used, counts, trees.as_ptr(), trees.len(), nodes.as_ptr(), nodes.len(),
                properties.as_ptr(), properties.len(), values.as_ptr(), values.len(), $($more),*)
        }
    }};
}

pub fn version() -> u32 {
    unsafe { sgf_version() }
}

pub fn trim(text: &[u8]) -> Trimmed {
    unsafe { sgf_trim(text.as_ptr(), text.len()) }
}

pub fn count_strict(text: &[u8]) -> Reading {
    unsafe { sgf_count_strict(text.as_ptr(), text.len()) }
}

pub fn count_lenient(text: &[u8]) -> Reading {
    unsafe { sgf_count_lenient(text.as_ptr(), text.len()) }
}

pub fn why_strict(text: &[u8]) -> Why {
    unsafe { sgf_why_strict(text.as_ptr(), text.len()) }
}

pub fn why_lenient(text: &[u8]) -> Why {
    unsafe { sgf_why_lenient(text.as_ptr(), text.len()) }
}

pub fn token(text: &[u8], at: usize) -> Token {
    unsafe { sgf_token(text.as_ptr(), text.len(), at) }
}

pub fn next_value(text: &[u8], at: usize) -> Value {
    unsafe { sgf_next_value(text.as_ptr(), text.len(), at) }
}

pub fn block(state: Blocks, block: &[u8], rows: &mut [u32]) -> Block {
    unsafe { sgf_block(state, block.as_ptr(), block.len(), rows.as_mut_ptr(), rows.len()) }
}

pub fn close(state: Blocks, rows: &mut [u32]) -> Close {
    unsafe { sgf_close(state, rows.as_mut_ptr(), rows.len()) }
}

/// Calls one of the two readings.
macro_rules! reading {
    ($f:ident, $text:expr, $settings:expr, $tables:expr) => {{
        let (text, [trees, nodes, properties, values]) = ($text, $tables);
        unsafe {
            $f(
                text.as_ptr(),
                text.len(),
                $settings,
                trees.as_mut_ptr(),
                trees.len(),
                nodes.as_mut_ptr(),
                nodes.len(),
                properties.as_mut_ptr(),
                properties.len(),
                values.as_mut_ptr(),
                values.len(),
            )
        }
    }};
}

pub fn read_strict(text: &[u8], settings: u32, tables: [&mut [u32]; 4]) -> Reading {
    reading!(sgf_read_strict, text, settings, tables)
}

pub fn read_lenient(text: &[u8], settings: u32, tables: [&mut [u32]; 4]) -> Reading {
    reading!(sgf_read_lenient, text, settings, tables)
}

pub fn salvage(text: &[u8], tables: [&mut [u32]; 4], changes: &mut [u32], out: &mut [u8]) -> Salvage {
    let [trees, nodes, properties, values] = tables;
    unsafe {
        sgf_salvage(text.as_ptr(), text.len(), trees.as_mut_ptr(), trees.len(), nodes.as_mut_ptr(), nodes.len(),
            properties.as_mut_ptr(), properties.len(), values.as_mut_ptr(), values.len(),
            changes.as_mut_ptr(), changes.len(), out.as_mut_ptr(), out.len())
    }
}

pub fn fits(h: &Held) -> u32 {
    over!(sgf_fits, h,)
}

pub fn value(h: &Held, k: usize) -> Span {
    over!(sgf_value, h, k)
}

pub fn display(h: &Held, k: usize, kind: u32, out: &mut [u8]) -> Length {
    over!(sgf_display, h, k, kind, out.as_mut_ptr(), out.len())
}

pub fn display_value(kind: u32, raw: &[u8], out: &mut [u8]) -> Length {
    unsafe { sgf_display_value(kind, raw.as_ptr(), raw.len(), out.as_mut_ptr(), out.len()) }
}

/// Plain text as a raw value, in front of the output.
pub fn escape(text: &[u8], out: &mut [u8]) -> Length {
    unsafe { sgf_escape(text.as_ptr(), text.len(), out.as_mut_ptr(), out.len()) }
}

pub fn go_value(h: &Held, p: usize) -> GoValue {
    over!(sgf_go_value, h, p)
}

pub fn board(h: &Held, node: usize) -> Board {
    over!(sgf_board, h, node)
}

pub fn board_next(board: Board, text: &[u8], properties: &[u32], values: &[u32], first: usize, count: usize) -> Board {
    unsafe {
        sgf_board_next(
            board,
            text.as_ptr(),
            text.len(),
            properties.as_ptr(),
            properties.len(),
            values.as_ptr(),
            values.len(),
            first,
            count,
        )
    }
}

pub fn write(h: &Held, out: &mut [u8]) -> Length {
    over!(sgf_write, h, out.as_mut_ptr(), out.len())
}

pub fn write_length(h: &Held) -> Length {
    over!(sgf_write_length, h,)
}

pub fn size(h: &Held, tree: usize) -> Size {
    over!(sgf_size, h, tree)
}

pub fn tally(h: &Held) -> Tally {
    over!(sgf_tally, h,)
}

pub fn line(h: &Held, out: &mut [u8]) -> Line {
    over!(sgf_line, h, out.as_mut_ptr(), out.len())
}

pub fn tag(bytes: &[u8]) -> u64 {
    unsafe { sgf_tag(bytes.as_ptr(), bytes.len()) }
}

pub fn tree_size(text: &[u8], tables: [&[u32]; 4], tree: usize) -> Size {
    let [trees, nodes, properties, values] = tables;
    unsafe {
        sgf_tree_size(
            text.as_ptr(),
            text.len(),
            trees.as_ptr(),
            trees.len(),
            nodes.as_ptr(),
            nodes.len(),
            properties.as_ptr(),
            properties.len(),
            values.as_ptr(),
            values.len(),
            tree,
        )
    }
}

pub fn go_by_rule(rule: u32, identifier: &[u8], text: &[u8], values: &[u32], first: usize, count: usize) -> GoValue {
    unsafe {
        sgf_go_by_rule(
            rule,
            identifier.as_ptr(),
            identifier.len(),
            text.as_ptr(),
            text.len(),
            values.as_ptr(),
            values.len(),
            first,
            count,
        )
    }
}

pub fn edit(e: &mut Edited, k: usize, new: &[u8]) -> Edit {
    unsafe {
        sgf_edit(
            e.text.as_mut_ptr(),
            e.text.len(),
            e.used,
            e.counts,
            e.trees.as_ptr(),
            e.trees.len(),
            e.nodes.as_ptr(),
            e.nodes.len(),
            e.properties.as_mut_ptr(),
            e.properties.len(),
            e.values.as_mut_ptr(),
            e.values.len(),
            k,
            new.as_ptr(),
            new.len(),
        )
    }
}

/// What FF[4] lists of a property; all 0 where it does not list it.
#[repr(C)]
#[derive(Debug, Clone, Copy, PartialEq, Eq)]
pub struct Entry {
    pub kind: u32,
    pub property_type: u32,
    pub section: u32,
    pub reserved: u32,
}

/// A number and a simple value.
#[repr(C)]
#[derive(Debug, Clone, Copy, PartialEq, Eq)]
pub struct Simple {
    pub number: u32,
    pub kind: u32,
    pub negative: u32,
    pub reserved: u32,
    pub size: u64,
}

declare! {
    const sgf_simple_value(p: usize) -> Simple;
}

unsafe extern "C" {
    fn sgf_entry(identifier: *const u8, identifier_len: usize) -> Entry;
    fn sgf_is_named(identifier: *const u8, identifier_len: usize, name: *const u8, name_len: usize) -> u32;
    fn sgf_simple_property(
        rule: u32,
        identifier: *const u8,
        identifier_len: usize,
        text: *const u8,
        text_len: usize,
        values: *const u32,
        values_len: usize,
        first: usize,
        count: usize,
    ) -> Simple;
}

/// 1 where a raw identifier reads as a name, else 0.
pub fn is_named(identifier: &[u8], name: &[u8]) -> u32 {
    unsafe { sgf_is_named(identifier.as_ptr(), identifier.len(), name.as_ptr(), name.len()) }
}

pub fn entry(identifier: &[u8]) -> Entry {
    unsafe { sgf_entry(identifier.as_ptr(), identifier.len()) }
}

pub fn simple_value(h: &Held, p: usize) -> Simple {
    over!(sgf_simple_value, h, p)
}

pub fn simple_property(rule: u32, identifier: &[u8], text: &[u8], values: &[u32], first: usize, count: usize) -> Simple {
    unsafe {
        sgf_simple_property(
            rule,
            identifier.as_ptr(),
            identifier.len(),
            text.as_ptr(),
            text.len(),
            values.as_ptr(),
            values.len(),
            first,
            count,
        )
    }
}

pub fn corrected(h: &Held, feed: &[u8], k: usize) -> Part {
    over!(sgf_corrected, h, feed.as_ptr(), feed.len(), k)
}

pub fn feed_check(h: &Held, feed: &[u8]) -> Check {
    over!(sgf_feed_check, h, feed.as_ptr(), feed.len())
}

pub fn feed_find(feed: &[u8], k: usize) -> Part {
    unsafe { sgf_feed_find(feed.as_ptr(), feed.len(), k) }
}

pub fn feed_begin(count: usize, out: &mut [u8]) -> Length {
    unsafe { sgf_feed_begin(count, out.as_mut_ptr(), out.len()) }
}

pub fn feed_add(value: usize, bytes: &[u8], out: &mut [u8]) -> Length {
    unsafe { sgf_feed_add(value, bytes.as_ptr(), bytes.len(), out.as_mut_ptr(), out.len()) }
}

pub fn correct(e: &mut Edited, feed: &[u8]) -> Edit {
    unsafe {
        sgf_correct(
            e.text.as_mut_ptr(),
            e.text.len(),
            e.used,
            e.counts,
            e.trees.as_ptr(),
            e.trees.len(),
            e.nodes.as_ptr(),
            e.nodes.len(),
            e.properties.as_mut_ptr(),
            e.properties.len(),
            e.values.as_mut_ptr(),
            e.values.len(),
            feed.as_ptr(),
            feed.len(),
        )
    }
}
