//! The subjects that are compared, each on its families of texts, and how many of them.
use crate::report::Report;
use crate::rng::Rng;
use crate::{board, by_hand, display, edits, examples, fitting, go_values, index, library, limits, reader, size_texts, texts, tokens, value_texts, writing};

/// How many texts of each family to compare.
pub struct Scale {
    token_bytes: usize,
    placed_bytes: usize,
    token_records: usize,
    tree_bytes: usize,
    words: usize,
    tree_records: usize,
    copies: usize,
    real_copies: usize,
    limits: limits::Choice,
    edges_step: usize,
    pairs_step: usize,
    shown_bytes: usize,
    lists: usize,
    written_records: usize,
    damaged_records: usize,
    edited_records: usize,
    limits_step: usize,
    placed_runs_step: usize,
    damaged_runs_step: usize,
    size_symbols: usize,
    block_bytes: usize,
    block_step: usize,
    block_records: usize,
    board_moves: usize,
    board_step: usize,
    why_bytes: usize,
    why_words: usize,
    cuts_step: usize,
}

pub const SHORT: Scale = Scale {
    token_bytes: 6,
    placed_bytes: 5,
    token_records: 15_000,
    tree_bytes: 6,
    words: 5,
    tree_records: 2_500,
    copies: 9,
    real_copies: 2,
    limits: limits::Choice::Some,
    edges_step: 5,
    pairs_step: 9,
    shown_bytes: 5,
    lists: 10_000,
    written_records: 4_000,
    damaged_records: 60,
    edited_records: 1_500,
    limits_step: 13,
    placed_runs_step: 41,
    damaged_runs_step: 1_501,
    size_symbols: 4,
    block_bytes: 4,
    block_step: 41,
    block_records: 300,
    board_moves: 4,
    board_step: 1,
    why_bytes: 5,
    why_words: 4,
    cuts_step: 4_099,
};

pub const LONG: Scale = Scale {
    token_bytes: 7,
    placed_bytes: 6,
    token_records: 400_000,
    tree_bytes: 7,
    words: 6,
    tree_records: 100_000,
    copies: 9,
    real_copies: 30,
    limits: limits::Choice::All,
    edges_step: 1,
    pairs_step: 1,
    shown_bytes: 7,
    lists: 300_000,
    written_records: 150_000,
    damaged_records: 1_500,
    edited_records: 30_000,
    limits_step: 1,
    placed_runs_step: 1,
    damaged_runs_step: 31,
    size_symbols: 5,
    block_bytes: 6,
    block_step: 1,
    block_records: 20_000,
    board_moves: 6,
    board_step: 1,
    why_bytes: 7,
    why_words: 6,
    cuts_step: 1,
};

/// Compares the families of texts that tokens and readings share; of the edges of UTF-8 one in so many.
fn compare_shared(report: &mut Report, scale: &Scale, records: usize, edges_step: usize) {
    texts::white(&mut |text| report.text(text));
    report.group("white space");
    let mut edges = 0;
    texts::utf8_edges(&mut |text| {
        edges += 1;
        if edges % edges_step == 0 {
            report.text(text);
        }
    });
    report.group("edges of UTF-8");
    texts::made(1, records, scale.copies, &mut |text| report.text(text));
    report.group("made records and damaged copies");
    let mut rng = Rng::new(2);
    for text in texts::corpus() {
        report.text(&text);
        texts::damaged(&mut rng, &text, scale.real_copies, &mut |copy| report.text(copy));
    }
    report.group("real records and damaged copies");
}

fn compare_tokens(scale: &Scale) -> bool {
    let mut report = Report::new("tokens", tokens::compare);
    texts::sequences(texts::TOKEN_BYTES, scale.token_bytes, &mut |text| report.text(text));
    report.group("all short strings");
    texts::runs(1, &mut |text| report.text(text));
    report.group("runs");
    compare_shared(&mut report, scale, scale.token_records, 1);
    report.close()
}

fn compare_places(scale: &Scale) -> bool {
    let mut report = Report::new("places", tokens::compare_places);
    texts::sequences(texts::TOKEN_BYTES, scale.placed_bytes, &mut |text| report.text(text));
    report.group("all short strings");
    texts::runs(scale.placed_runs_step, &mut |text| report.text(text));
    report.group("runs");
    report.close()
}

fn compare_reader(scale: &Scale) -> bool {
    let mut report = Report::new("reader", reader::compare);
    texts::sequences(texts::TREE_BYTES, scale.tree_bytes, &mut |text| report.text(text));
    report.group("all short strings");
    texts::sequences(texts::WORDS, scale.words, &mut |text| report.text(text));
    report.group("all short sequences of words");
    texts::sequences(texts::TAB_WORDS, scale.words + 1, &mut |text| report.text(text));
    report.group("words and vertical tabs");
    compare_shared(&mut report, scale, scale.tree_records, scale.edges_step);
    for text in limits::texts(scale.limits) {
        report.text(&text);
    }
    report.group("limits");
    report.close()
}

/// The benchmark's reader by hand, so that it is one of the same answers.
fn compare_by_hand(scale: &Scale) -> bool {
    let mut report = Report::new("reader by hand", by_hand::compare);
    texts::sequences(texts::WORDS, scale.words, &mut |text| report.text(text));
    report.group("all short sequences of words");
    texts::sequences(texts::TAB_WORDS, scale.words + 1, &mut |text| report.text(text));
    report.group("words and vertical tabs");
    texts::made(6, scale.tree_records, scale.copies, &mut |text| report.text(text));
    texts::corpus().iter().for_each(|text| report.text(text));
    report.close()
}

fn compare_go_values(scale: &Scale) -> bool {
    let mut report = Report::new("Go values", go_values::compare);
    value_texts::two_bytes(scale.pairs_step, &mut |text| report.text(text));
    report.group("every two-byte value");
    value_texts::rectangles(scale.pairs_step, &mut |text| report.text(text));
    value_texts::decimals(&mut |text| report.text(text));
    value_texts::lists(4, scale.lists, &mut |text| report.text(text));
    report.group("rectangles, decimals, lists");
    size_texts::sizes(scale.size_symbols, &mut |text| report.text(text));
    report.group("board sizes");
    texts::corpus().iter().for_each(|text| report.text(text));
    report.close()
}

fn compare_board(scale: &Scale) -> bool {
    let mut report = Report::new("board", board::compare);
    let longest = scale.board_moves;
    for (columns, rows, moves) in [(1, 1, longest + 2), (2, 1, longest + 1), (1, 2, longest), (2, 2, longest)] {
        board::sequences(columns, rows, moves, &mut |text| report.text(text));
    }
    report.group("every sequence of moves on small boards");
    board::faults(&mut |text| report.text(text));
    report.group("faults at every place");
    let mut rng = Rng::new(8);
    for _ in 0..scale.tree_records {
        report.text(&board::made(&mut rng));
    }
    report.group("made records");
    let good = report.close();
    let mut real = Report::new("board at every node", board::compare_every);
    texts::corpus().iter().step_by(scale.board_step).for_each(|text| real.text(text));
    good & real.close()
}

fn compare_display(scale: &Scale) -> bool {
    let mut report = Report::new("display", display::compare);
    value_texts::shown(scale.shown_bytes, &mut |text| report.text(text));
    report.group("all short values");
    value_texts::shown_white(&mut |text| report.text(text));
    texts::corpus().iter().for_each(|text| report.text(text));
    report.close()
}

fn compare_fitting(scale: &Scale) -> bool {
    let mut report = Report::new("fitting", fitting::compare);
    for text in ["", "(;)", "(;C[])", "(;(;);)", "(;(;)(;(;))(;))(;)", "(;A[a]b[c][\\]d)[];C[\\]])", "(;GM[2]B[aa](;W[bb]C[x])(;))(;GM[1])"]
    {
        report.text(text.as_bytes());
    }
    texts::made(5, scale.damaged_records, 1, &mut |text| report.text(text));
    texts::corpus().iter().step_by(40).for_each(|text| report.text(text));
    report.group("examples, made and real records");
    texts::runs(scale.damaged_runs_step, &mut |text| report.text(text));
    report.group("runs");
    let good = report.close();
    let mut alone = Report::new("fitting of one value", fitting::compare_alone);
    texts::runs(1, &mut |text| alone.text(text));
    good & alone.close()
}

fn compare_writing(scale: &Scale) -> bool {
    let mut report = Report::new("writing", writing::compare);
    texts::sequences(texts::WORDS, scale.words, &mut |text| report.text(text));
    report.group("all short sequences of words");
    texts::sequences(texts::TAB_WORDS, scale.words + 1, &mut |text| report.text(text));
    report.group("words and vertical tabs");
    value_texts::alike(9, scale.written_records, &mut |text| report.text(text));
    report.group("records that the crate writes alike");
    size_texts::sizes(scale.size_symbols, &mut |text| report.text(text));
    report.group("board sizes");
    value_texts::lists(6, scale.lists / 2, &mut |text| report.text(text));
    texts::made(7, scale.written_records, 1, &mut |text| report.text(text));
    report.group("made records");
    texts::corpus().iter().for_each(|text| report.text(text));
    report.group("real records");
    limits::texts(scale.limits).iter().step_by(scale.limits_step).for_each(|text| report.text(text));
    report.close()
}

fn compare_edits(scale: &Scale) -> bool {
    let mut report = Report::new("edits", edits::compare);
    texts::sequences(texts::TAB_WORDS, scale.words + 1, &mut |text| report.text(text));
    report.group("words and vertical tabs");
    texts::made(8, scale.edited_records, 1, &mut |text| report.text(text));
    report.group("made records");
    texts::corpus().iter().for_each(|text| report.text(text));
    report.group("real records");
    limits::texts(scale.limits).iter().step_by(scale.limits_step).for_each(|text| report.text(text));
    report.close()
}

fn compare_index(scale: &Scale) -> bool {
    let mut entries = Report::new("property index", index::compare_entry);
    index::identifiers(scale.lists, &mut |text| entries.text(text));
    let good = entries.close();
    let mut values = Report::new("simple values", index::compare_value);
    index::values(scale.shown_bytes - 2, &mut |text| values.text(text));
    let good = good & values.close();
    let mut records = Report::new("simple values of records", index::compare_record);
    texts::made(11, scale.written_records, 1, &mut |text| records.text(text));
    texts::corpus().iter().for_each(|text| records.text(text));
    good & records.close()
}

#[cfg(not(stand_in))]
fn compare_feeds(scale: &Scale) -> bool {
    let mut report = Report::new("feeds", crate::feeds::compare);
    texts::sequences(texts::TAB_WORDS, scale.words + 1, &mut |text| report.text(text));
    report.group("words and vertical tabs");
    texts::made(9, scale.edited_records, 1, &mut |text| report.text(text));
    report.group("made records");
    texts::corpus().iter().for_each(|text| report.text(text));
    report.group("real records");
    limits::texts(scale.limits).iter().step_by(scale.limits_step).for_each(|text| report.text(text));
    report.close()
}

/// The stand-in has no feeds.
#[cfg(stand_in)]
fn compare_feeds(_: &Scale) -> bool {
    true
}

/// Texts in blocks; the stand-in has none.
#[cfg(stand_in)]
fn compare_blocks(_: &Scale) -> bool {
    true
}

#[cfg(not(stand_in))]
fn compare_blocks(scale: &Scale) -> bool {
    let mut report = Report::new("blocks", crate::blocks::compare);
    texts::sequences(texts::TOKEN_BYTES, scale.block_bytes, &mut |text| report.text(text));
    report.group("all short strings, cut in every way");
    texts::runs(scale.block_step, &mut |text| report.text(text));
    report.group("runs");
    compare_shared(&mut report, scale, scale.block_records, 1);
    let good = report.close();
    let mut forged = Report::new("forged states", crate::blocks::compare_forged);
    texts::sequences(texts::TOKEN_BYTES, scale.block_bytes, &mut |text| forged.text(text));
    good & forged.close()
}

/// Tags, tallies and lines; the stand-in has none.
#[cfg(stand_in)]
fn compare_season(_: &Scale) -> bool {
    true
}

#[cfg(not(stand_in))]
fn compare_season(scale: &Scale) -> bool {
    let mut tags = Report::new("tags", crate::season::compare_tag);
    crate::season::bytes(4_096, 1_000_000, &mut |bytes| tags.text(bytes));
    let good = tags.close();
    let mut report = Report::new("tallies and lines", crate::season::compare_tally);
    texts::sequences(texts::WORDS, scale.words, &mut |text| report.text(text));
    report.group("all short sequences of words");
    size_texts::sizes(scale.size_symbols, &mut |text| report.text(text));
    report.group("board sizes");
    texts::made(12, scale.written_records, 1, &mut |text| report.text(text));
    report.group("made records");
    texts::corpus().iter().for_each(|text| report.text(text));
    report.group("real records");
    good & report.close()
}

/// Explanations; the stand-in has none.
#[cfg(stand_in)]
fn compare_why(_: &Scale) -> bool {
    true
}

#[cfg(not(stand_in))]
fn compare_why(scale: &Scale) -> bool {
    let mut report = Report::new("explanations", crate::why::compare);
    texts::sequences(crate::why::BYTES, scale.why_bytes, &mut |text| report.text(text));
    report.group("all short strings");
    texts::sequences(crate::why::WORDS, scale.why_words, &mut |text| report.text(text));
    report.group("all short sequences of words");
    crate::why::deep(scale.copies, &mut |text| report.text(text));
    report.group("deep texts and damaged copies");
    compare_shared(&mut report, scale, scale.tree_records, scale.edges_step);
    limits::texts(scale.limits).iter().for_each(|text| report.text(text));
    report.group("limits");
    crate::why::facts() & report.close()
}

/// Salvage; the stand-in has none.
#[cfg(stand_in)]
fn compare_salvage(_: &Scale) -> bool {
    true
}

/// Every text cut at one in so many bytes; of bytes at such places, one dropped, doubled, and two exchanged.
#[cfg(not(stand_in))]
fn torn(text: &[u8], step: usize, visit: texts::Visitor) {
    for at in (text.len() % step..text.len()).step_by(step) {
        visit(&text[..at]);
        visit(&[&text[..at], &text[at + 1..]].concat());
        visit(&[&text[..=at], &text[at..]].concat());
        if at + 1 < text.len() {
            visit(&[&text[..at], &[text[at + 1], text[at]], &text[at + 2..]].concat());
        }
    }
}

#[cfg(not(stand_in))]
fn compare_salvage(scale: &Scale) -> bool {
    let mut report = Report::new("salvage", crate::salvage::compare);
    texts::sequences(texts::TREE_BYTES, scale.tree_bytes - 1, &mut |text| report.text(text));
    report.group("all short strings");
    texts::sequences(texts::SALVAGE_WORDS, scale.words, &mut |text| report.text(text));
    report.group("all short sequences of words");
    texts::made(14, scale.edited_records, scale.copies, &mut |text| report.text(text));
    report.group("made records and damaged copies");
    let made: Vec<Vec<u8>> = { let mut all = vec![]; texts::made(15, 40, 0, &mut |text| all.push(text.to_vec())); all };
    made.iter().for_each(|text| torn(text, 1 + scale.cuts_step / 500, &mut |text| report.text(text)));
    report.group("made records, torn");
    for text in texts::corpus() {
        report.text(&text);
        torn(&text, scale.cuts_step, &mut |text| report.text(text));
    }
    report.group("real records, torn");
    for n in [96, 97] {
        report.text(format!("(;SZ[52]{})", "AB[aa:ZZ]".repeat(n)).as_bytes());
    }
    for n in [1_023, 1_024] {
        report.text(format!("(;{})", "(;);".repeat(n)).as_bytes());
        report.text(format!("(;{}{})", "(;);".repeat(n), "AB[aa:ZZ]".repeat(97)).as_bytes());
    }
    limits::texts(scale.limits).iter().step_by(scale.limits_step).for_each(|text| report.text(text));
    report.group("limits");
    report.close()
}

type Subject = fn(&Scale) -> bool;

/// Compares one subject, or all; true if nothing differed.
pub fn compare(scale: &Scale, subject: Option<&str>) -> bool {
    println!("library: {}", library::NAME);
    let subjects: [(&str, Subject); 17] = [
        ("tokens", compare_tokens),
        ("places", compare_places),
        ("examples", |_| examples::hold()),
        ("reader", compare_reader),
        ("by_hand", compare_by_hand),
        ("go", compare_go_values),
        ("display", compare_display),
        ("fitting", compare_fitting),
        ("writing", compare_writing),
        ("edits", compare_edits),
        ("index", compare_index),
        ("board", compare_board),
        ("feeds", compare_feeds),
        ("blocks", compare_blocks),
        ("season", compare_season),
        ("why", compare_why),
        ("salvage", compare_salvage),
    ];
    let wanted: Vec<_> = subjects.iter().filter(|(name, _)| subject.is_none_or(|chosen| *name == chosen)).collect();
    wanted.iter().fold(!wanted.is_empty(), |good, (_, run)| run(scale) & good)
}
