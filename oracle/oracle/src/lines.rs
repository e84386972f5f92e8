//! Document 01's lines tried by hand, its misreadings, and lines for document 02's requests, as cases with
//! the papers' answers.
use crate::Done;
use check::answer;
use pack::corpus::Case;
use pack::layout::{
    ACTIONS, BINDINGS, DEADLINES, ENCLAVE, FEDERATE, MODES, PORTS, REACTIONS, REACTORS, ROUTES, SCOPES, TIMER,
};
use pack::row::{pack, Row};
use std::fs::File;
use std::io::{BufWriter, Write};

pub struct Line {
    pub name: &'static str,
    pub case: Case,
    pub expected: &'static str,
}

/// Rows and texts of a case that is being changed.
#[derive(Clone)]
struct Draft {
    rows: Vec<Row>,
    batch: Vec<u8>,
}

/// S, the smallest station.
fn smallest() -> Draft {
    let rows = vec![
        Row::new(ENCLAVE, &[0, 1, 1, 0, 0, 0, 0, 0]),
        Row::new(REACTORS, &[0; 8]),
        Row::new(SCOPES, &[0; 15]),
        Row::new(BINDINGS, &[1, 1]),
    ];
    Draft { rows, batch: b"ab".to_vec() }
}

impl Draft {
    /// Adds a row behind the last of its table or of a lower one.
    fn add(mut self, row: Row) -> Self {
        let at = self.rows.iter().position(|other| other.table > row.table).unwrap_or(self.rows.len());
        self.rows.insert(at, row);
        self
    }

    /// Sets number `at` of row `index` of a table.
    fn set(mut self, table: u8, index: usize, at: usize, value: u64) -> Self {
        self.row(table, index).numbers[at] = value;
        self
    }

    fn bits(mut self, table: u8, index: usize, bits: u8) -> Self {
        self.row(table, index).bits = bits;
        self
    }

    fn row(&mut self, table: u8, index: usize) -> &mut Row {
        self.rows.iter_mut().filter(|row| row.table == table).nth(index).expect("the row")
    }

    fn text(mut self, batch: &str) -> Self {
        self.batch = batch.into();
        self
    }

    /// The identity of the enclave is this text, placed behind the others.
    fn id(mut self, id: &str) -> Self {
        let start = self.batch.len() as u64;
        self.batch.extend(id.bytes());
        self.set(ENCLAVE, 0, 0, start).set(ENCLAVE, 0, 1, id.len() as u64)
    }

    /// In front a federate whose three identities are `f`, with a span from 0.
    fn line(mut self, stations: u64) -> Self {
        let f = self.batch.len() as u64;
        self.batch.push(b'f');
        self.rows.insert(0, Row::new(FEDERATE, &[f, 1, f, 1, f, 1, 0, stations]));
        self
    }

    fn station(self, name: &'static str, expected: &'static str) -> Line {
        self.line_of(0, name, expected)
    }

    fn federate(self, name: &'static str, expected: &'static str) -> Line {
        self.line_of(1, name, expected)
    }

    fn night(self, name: &'static str, expected: &'static str) -> Line {
        self.line_of(2, name, expected)
    }

    fn line_of(self, kind: u8, name: &'static str, expected: &'static str) -> Line {
        let case = Case { kind, pack: pack(&self.rows), batch: self.batch, ..Case::default() };
        Line { name, case, expected }
    }
}

pub fn all() -> Vec<Line> {
    [
        slots_and_parents(),
        spans_and_banks(),
        identities(),
        actions(),
        lines(),
        lengths(),
        misreadings(),
        missing_rows(),
        deadlines(),
        packed_deadlines(),
        deadlines_of_lines(),
        night(),
    ]
    .into_iter()
    .flatten()
    .collect()
}

fn slots_and_parents() -> Vec<Line> {
    let s = smallest;
    let mut without = s().set(ENCLAVE, 0, 1, 0);
    without.rows.retain(|row| row.table != REACTORS);
    let two = || s().add(Row::new(SCOPES, &[0; 15]).bits(1));
    vec![
        s().station("S", "accepted 0"),
        s().set(ENCLAVE, 0, 2, 0).station("S, state slots 0", "refused 23 2 0 0 0"),
        without.station("S without its reactor, identity empty", "refused 12 1 0 1 2 0 0"),
        s().bits(SCOPES, 0, 1).station("S, scope 0 its own parent", "refused 18 0"),
        two().station("S and scope 1 under scope 0", "accepted 1"),
        two().bits(SCOPES, 0, 1).set(SCOPES, 0, 0, 1).station("each the other's parent", "refused 18 0"),
    ]
}

fn spans_and_banks() -> Vec<Line> {
    let modes = smallest()
        .set(REACTORS, 0, 4, 1)
        .add(Row::new(REACTORS, &[0, 0, 1, 0, 0, 0, 0, 0]))
        .add(Row::new(MODES, &[0, 2]))
        .add(Row::new(SCOPES, &[0; 15]).bits(0))
        .set(SCOPES, 1, 1, 1)
        .add(Row::new(SCOPES, &[0; 15]).bits(2));
    let bank =
        |index, total| smallest().bits(REACTORS, 0, 2).set(REACTORS, 0, 6, index).set(REACTORS, 0, 7, total);
    vec![
        modes.station("modes 0+1, then 0+0", "refused 14 2 1 4 0 1"),
        bank(0, 0).station("bank index 0 of 0", "refused 22 0 0 0"),
        bank(3, 3).station("bank index 3 of 3", "refused 22 0 3 3"),
        bank(2, 3).station("bank index 2 of 3", "accepted 0"),
    ]
}

fn identities() -> Vec<Line> {
    let s = smallest;
    vec![
        s().id(" a").station("identity ` a`", "refused 19 4 0 0 2 2"),
        s().id("\u{a0}").station("identity U+00A0", "refused 19 4 0 0 2 2"),
        s().id("a b").station("identity `a b`", "accepted 0"),
        s().id("\u{200b}").station("identity U+200B", "accepted 0"),
        s().id("").station("identity of length 0 at the text's end", "refused 19 4 0 0 2 0"),
    ]
}

fn actions() -> Vec<Line> {
    let timer = || Row::new(ACTIONS, &[0; 6]).bits(1).second(TIMER);
    let standard = || Row::new(ACTIONS, &[0; 6]);
    let one = || smallest().set(ENCLAVE, 0, 3, 1);
    let both = one()
        .text("abcde")
        .add(Row::new(ACTIONS, &[0, 0, 1, 0, 0, 1]).bits(1))
        .add(Row::new(PORTS, &[2, 0, 0, 1]))
        .add(Row::new(REACTIONS, &[0, 0, 0, 3, 0, 0, 0, 0, 0, 0, 0, 0, 0]))
        .add(Row::new(8, &[0, 0]))
        .add(Row::new(BINDINGS, &[2, 1]).second(3))
        .add(Row::new(BINDINGS, &[3, 1]).second(2))
        .add(Row::new(BINDINGS, &[4, 1]).second(1));
    vec![
        one().add(timer()).station("a timer with a binding", "refused 25 3 0 7"),
        one().add(standard()).station("a standard action without", "refused 25 3 0 7"),
        smallest().add(timer()).station("the same, action slots 0", "refused 23 3 0 0 0"),
        smallest().add(standard()).station("the same, action slots 0, standard", "refused 23 3 0 0 0"),
        both.station("an action and a port with triggers 0+1", "accepted 0"),
    ]
}

/// S with a port bound to `c` and routes of boundary `d`, outbound where the bit says so.
fn with_routes(outbound: &[u8]) -> Draft {
    let mut draft = smallest()
        .text("abcd")
        .add(Row::new(PORTS, &[1, 0, 0, 0]))
        .add(Row::new(BINDINGS, &[2, 1]).second(2));
    for bit in outbound {
        draft = draft.add(Row::new(ROUTES, &[3, 1, 0, 0]).second(*bit));
    }
    draft
}

fn lines() -> Vec<Line> {
    let mut none = smallest().line(0);
    none.rows.truncate(1);
    vec![
        with_routes(&[0]).station("a lone route half, inbound", "accepted 0"),
        with_routes(&[1]).station("a lone route half, outbound", "accepted 0"),
        with_routes(&[1]).line(1).federate("a lone route half in a line", "accepted 1 0"),
        none.federate("a line with no station", "accepted 0 0"),
        smallest().line(2).federate("S in a line whose span length is 2", "refused 17 0 0 33"),
        smallest().line(1).federate("program: whole", "accepted 1 0"),
        smallest().set(ENCLAVE, 0, 2, 0).line(1).federate("program: state slots 0", "refused 23 2 0 0 0"),
    ]
}

fn lengths() -> Vec<Line> {
    let of_length = |name, length| {
        let mut line = smallest().station(name, "refused 1");
        line.case.pack.resize(length, 0);
        line
    };
    vec![of_length("63 bytes", 63), of_length("65 bytes", 65), of_length("no bytes", 0)]
}

fn misreadings() -> Vec<Line> {
    let mut second = smallest().line(2);
    second.rows.extend(smallest().set(ENCLAVE, 0, 1, 0).rows);
    vec![
        second.federate("a bad identity of the second station", "refused 19 4 0 0 0 0"),
        smallest()
            .add(Row::new(8, &[0, 0]))
            .station("an entry that no range covers", "refused 12 8 0 27 5 0 0"),
        with_routes(&[0, 1]).station("equal boundaries, inbound first", "accepted 0"),
        with_routes(&[1, 0]).station("equal boundaries, outbound first", "refused 15 23 1"),
    ]
}

/// Wish 1: 12 ends in the rows of its target table; in a line these are the faulty station's.
fn missing_rows() -> Vec<Line> {
    let root_scope = |draft: Draft, scope| draft.set(REACTORS, 0, 2, scope);
    let scopes =
        |draft: Draft, count| (1..count).fold(draft, |draft, _| draft.add(Row::new(SCOPES, &[0; 15])));
    let two = |first, second| two(first, second, 1);
    let s = smallest;
    let mut unbound = s();
    unbound.rows.retain(|row| row.table != BINDINGS);
    let mut portless = with_routes(&[0]);
    portless.rows.retain(|row| row.table != PORTS);
    vec![
        root_scope(scopes(s(), 3), 41).station("root scope 41 of three scopes", "refused 12 2 0 3 7 41 3"),
        root_scope(s(), 1).station("root scope 1 of one scope", "refused 12 2 0 3 7 1 1"),
        root_scope(scopes(s(), 2), 1).station("root scope 1 of two scopes", "accepted 0"),
        unbound.station("a state binding where there is none", "refused 12 2 0 2 24 0 0"),
        two(root_scope(s(), 41), scopes(s(), 3))
            .federate("the first station's scopes", "refused 12 2 0 3 7 41 1"),
        two(s(), root_scope(scopes(s(), 3), 41))
            .federate("the second station's scopes", "refused 12 2 0 3 7 41 3"),
        two(with_routes(&[0]), portless)
            .federate("the second station's ports, none", "refused 12 23 0 32 4 0 0"),
    ]
}

/// S with so many reactions, bound to `c`, and these deadlines: reaction and nanoseconds.
fn timed(reactions: u64, deadlines: &[[u64; 2]]) -> Draft {
    let mut draft = smallest().text("abc").add(Row::new(BINDINGS, &[2, 1]).second(1));
    for level in 0..reactions {
        draft = draft.add(Row::new(REACTIONS, &[0, 0, level, 1, 0, 0, 0, 0, 0, 0, 0, 0, 0]));
    }
    deadlines.iter().fold(draft, |draft, deadline| draft.add(Row::new(DEADLINES, deadline)))
}

/// Wish 12: the checks of deadlines, in their order.
fn deadlines() -> Vec<Line> {
    let most = u64::from(u32::MAX);
    let bad_binding = timed(1, &[[0, 0]]).set(BINDINGS, 1, 1, 0);
    let same_binding = timed(1, &[[5, 1]]).set(BINDINGS, 1, 0, 1);
    vec![
        timed(1, &[[0, 1]]).station("a deadline", "accepted 0"),
        timed(3, &[[0, 1], [2, u64::MAX]]).station("deadlines of two reactions of three", "accepted 0"),
        timed(0, &[[0, 1]]).station("a deadline where there is no reaction", "refused 12 25 0 27 5 0 0"),
        timed(1, &[[1, 1]]).station("a deadline of reaction 1 of one", "refused 12 25 0 27 5 1 1"),
        timed(2, &[[0, 1], [most, 1]])
            .station("a deadline of a reaction far off", "refused 12 25 1 27 5 4294967295 2"),
        timed(2, &[[1, 1], [1, 2]]).station("two deadlines of one reaction", "refused 16 25 1"),
        timed(2, &[[1, 1], [0, 1]]).station("deadlines whose reactions fall", "refused 15 25 1"),
        timed(3, &[[0, 1], [2, 1], [1, 1]]).station("the third falls", "refused 15 25 2"),
        timed(1, &[[0, 0]]).station("a deadline of zero nanoseconds", "refused 39 0"),
        timed(3, &[[0, 1], [1, 1], [2, 0]]).station("the last is zero", "refused 39 2"),
        timed(1, &[[0, 1 << 32]]).station("the low half of the nanoseconds is zero", "accepted 0"),
        timed(1, &[[1, 0]]).station("missing and zero", "refused 12 25 0 27 5 1 1"),
        timed(2, &[[1, 1], [1, 0]]).station("twice and zero", "refused 16 25 1"),
        timed(2, &[[1, 1], [0, 0]]).station("falling and zero", "refused 15 25 1"),
        timed(2, &[[0, 0], [2, 1]]).station("zero, then a missing one", "refused 39 0"),
        timed(2, &[[1, 1], [0, 1], [2, 1]]).station("falling, then a missing one", "refused 15 25 1"),
        timed(2, &[[2, 1], [0, 0]]).station("missing, then falling and zero", "refused 12 25 0 27 5 2 2"),
        bad_binding.station("an empty binding, and a deadline of zero", "refused 19 6 1 0 2 0"),
        same_binding.station("a binding twice, and a missing reaction", "refused 21 6 1 0 1 1"),
    ]
}

/// The packing rules of table 25, and of the numbers after it.
fn packed_deadlines() -> Vec<Line> {
    let changed = |at: usize, byte: u8, name, expected| {
        let mut line = timed(2, &[[0, 0], [1, 1]]).station(name, expected);
        line.case.pack[7 * 64 + at] = byte;
        line
    };
    let mut first = timed(1, &[[0, 1]]);
    first.rows.swap(5, 6);
    let mut line = timed(1, &[[0, 1]]).line(1);
    line.rows.swap(1, 7);
    vec![
        changed(0, 26, "a record of table 26", "refused 3 7"),
        changed(0, 255, "a record of table 255", "refused 3 7"),
        changed(1, 1, "a bit in byte 1 of a deadline", "refused 4 7"),
        changed(2, 1, "a kind in a deadline", "refused 4 7"),
        changed(3, 1, "byte 3 of a deadline", "refused 4 7"),
        changed(4, 1, "the first byte of a deadline's reaction", "refused 12 25 0 27 5 16777216 2"),
        changed(7, 2, "the last byte of a deadline's reaction", "refused 12 25 0 27 5 2 2"),
        changed(8, 1, "the first byte of a deadline's nanoseconds", "accepted 0"),
        changed(15, 1, "the last byte of a deadline's nanoseconds", "accepted 0"),
        changed(16, 1, "the first byte after a deadline", "refused 4 7"),
        changed(63, 1, "the last byte after a deadline", "refused 4 7"),
        first.station("a deadline before a binding", "refused 3 6"),
        line.federate("a deadline in the place of the station", "refused 3 1"),
    ]
}

/// A line of two stations; the second one's identity starts here.
fn two(first: Draft, second: Draft, id: u64) -> Draft {
    let mut both = first.line(2);
    both.rows.extend(second.set(ENCLAVE, 0, 0, id).rows);
    both
}

/// Wish 12: where in a line's order the deadlines of a station stand.
fn deadlines_of_lines() -> Vec<Line> {
    const GOOD: [u64; 2] = [0, 1];
    const ZERO: [u64; 2] = [0, 0];
    const FAR: [u64; 2] = [7, 0];
    let named = |first, second, id| two(timed(1, &[first]), timed(1, &[second]), id);
    let a_and_b = |first, second| named(first, second, 1);
    let a_twice = |first, second| named(first, second, 0);
    let b_and_a = |first, second| named(first, second, 0).set(ENCLAVE, 0, 0, 1);
    let bad_scope = |draft: Draft| draft.set(REACTORS, 1, 2, 9);
    let routed = |deadline: Option<Row>| {
        let second = with_routes(&[0]);
        two(with_routes(&[0]), deadline.into_iter().fold(second, Draft::add), 1)
    };
    vec![
        a_and_b(GOOD, GOOD).federate("a line with deadlines", "accepted 2 0"),
        a_and_b(GOOD, FAR).federate("a missing reaction of the second station", "refused 12 25 0 27 5 7 1"),
        a_and_b(ZERO, FAR).federate("deadlines at fault in both stations", "refused 39 0"),
        bad_scope(a_and_b(ZERO, GOOD)).federate("a deadline, then the second's scope", "refused 39 0"),
        bad_scope(a_and_b(GOOD, ZERO))
            .federate("the second's scope, then its deadline", "refused 12 2 0 3 7 9 1"),
        a_twice(GOOD, GOOD).federate("21 where the deadlines are good", "refused 21 4 1 0 0 1"),
        a_twice(GOOD, ZERO).federate("a deadline before 21 of its station", "refused 39 0"),
        a_twice(ZERO, GOOD).federate("a deadline before 21 of the next station", "refused 39 0"),
        b_and_a(GOOD, GOOD).federate("20 where the deadlines are good", "refused 20 4 1 0 0 1"),
        b_and_a(GOOD, ZERO).federate("a deadline before 20 of its station", "refused 39 0"),
        routed(None).federate("27 of two stations' routes", "refused 27 0 3 1 0"),
        routed(Some(Row::new(DEADLINES, &GOOD))).federate("a deadline before 27", "refused 12 25 0 27 5 0 0"),
        a_and_b(ZERO, GOOD)
            .set(FEDERATE, 0, 7, 3)
            .federate("the span's length before a deadline", "refused 17 0 0 33"),
    ]
}

/// Lines at night (Wish 2).
fn night() -> Vec<Line> {
    let scopes = |links: u64| {
        (0..links).fold(smallest(), |draft, under| {
            let mut numbers = [0; 15];
            numbers[0] = under;
            draft.add(Row::new(SCOPES, &numbers).bits(1))
        })
    };
    let reactors =
        |count: u64| (1..count).fold(smallest(), |draft, _| draft.add(Row::new(REACTORS, &[0; 8])));
    let roots = |draft: Draft, count: u64| {
        (1..count).fold(draft, |draft, reactor| {
            let mut numbers = [0; 15];
            numbers[1] = reactor;
            draft.add(Row::new(SCOPES, &numbers)).set(REACTORS, reactor as usize, 2, reactor)
        })
    };
    let physical = || with_routes(&[2, 3]);
    let wide = |count| roots(reactors(count), count);
    let mut wide_and_deep = wide(65);
    for under in 64..73 {
        let mut numbers = [0; 15];
        numbers[0] = under;
        wide_and_deep = wide_and_deep.add(Row::new(SCOPES, &numbers).bits(1));
    }
    vec![
        with_routes(&[0, 1]).line(1).night("both halves in one station", "accepted 1 0"),
        two(with_routes(&[1]), with_routes(&[0]), 1).night("in two stations", "accepted 2 0"),
        with_routes(&[1]).line(1).night("the outbound half alone", "refused 26 0 3 1 1"),
        with_routes(&[0]).line(1).night("the inbound half alone", "refused 26 0 3 1 0"),
        physical().line(1).night("a physical pair", "refused 29 0 0"),
        two(with_routes(&[0]), with_routes(&[3]), 1).night("halves of two domains", "refused 28 0 3 1 34"),
        two(smallest().text("abcd"), physical(), 1)
            .night("a physical pair of the second station", "refused 29 1 0"),
        two(with_routes(&[0]), smallest(), 1).night("a lone half of the first", "refused 26 0 3 1 0"),
        scopes(8).line(1).night("eight ancestors", "accepted 1 36"),
        scopes(9).line(1).night("nine ancestors", "refused 30 0 9"),
        scopes(9).line(1).federate("nine ancestors by day", "accepted 1 45"),
        wide(64).line(1).night("64 reactors", "accepted 1 0"),
        wide(65).line(1).night("65 reactors", "refused 31 0 65"),
        wide_and_deep.line(1).night("65 reactors, and scopes under the last", "refused 31 0 65"),
        two(scopes(9), wide(65), 1).night("too deep, then too many", "refused 30 0 9"),
        two(physical(), scopes(9), 1).night("a physical route, then too deep", "refused 29 0 0"),
        scopes(9).set(ENCLAVE, 0, 2, 0).line(1).night("an ordinary refusal first", "refused 23 2 0 0 0"),
    ]
}

/// Prints every line with its answer; false where one differs from the paper's.
pub fn print() -> Done {
    let mut good = true;
    for line in all() {
        let answer = answer(&line.case).to_string();
        let agrees = answer == line.expected;
        let remark = if agrees { String::new() } else { format!("  BUT by the papers: {}", line.expected) };
        println!("{:<45} {answer}{remark}", line.name);
        good &= agrees;
    }
    Ok(good)
}

/// The lines as a corpus, and the answers.
pub fn write(out: &str, answers: &str) -> Done {
    let mut out = BufWriter::new(File::create(out)?);
    let mut answers = BufWriter::new(File::create(answers)?);
    for line in all() {
        line.case.write(&mut out)?;
        writeln!(answers, "{}", answer(&line.case))?;
    }
    out.flush()?;
    answers.flush()?;
    Ok(true)
}

#[cfg(test)]
mod tests {
    #[test]
    fn the_rust_answers_as_the_paper_says() {
        for line in super::all() {
            assert_eq!(check::answer(&line.case).to_string(), line.expected, "{}", line.name);
        }
    }
}
