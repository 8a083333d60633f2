//! The calls of the crate, over the library.
use rbbi::{Change, Error, Files, Segment, Session, Table, Unit};
use std::thread;

const RULES: &str = "!!chain;
$Letter = [A-Za-z\u{e4}];
[0-9]+ {100};
$Letter+ {200};
$Letter+ ['] $Letter+ {200};
";

fn opened(text: &str, unit: Unit) -> Session {
    Table::compile(RULES).unwrap().session(text, unit).unwrap()
}

fn ends(session: &mut Session) -> Vec<u32> {
    session.segments().map(|segment| segment.end).collect()
}

#[test]
fn segments_have_the_greatest_status_of_their_end() {
    let segments: Vec<Segment> = opened("can't 32", Unit::Utf8).segments().collect();
    let wanted = [(0, 5, 200), (5, 6, 0), (6, 8, 100)];
    assert_eq!(
        segments,
        wanted.map(|(start, end, status)| Segment { start, end, status })
    );
}

#[test]
fn places_count_the_unit() {
    let cases = [
        (Unit::Chars, [1, 2, 3]),
        (Unit::Utf16, [1, 3, 4]),
        (Unit::Utf8, [2, 6, 7]),
    ];
    for (unit, places) in cases {
        let mut session = opened("\u{e4}\u{1f600}b", unit);
        assert_eq!(ends(&mut session), places);
        assert_eq!(session.length(), places[2]);
    }
}

#[test]
fn a_tally_counts_while_the_text_is_edited() {
    let table = Table::compile(RULES).unwrap();
    let mut tally = table.tally("can't 32 \u{e4}", Unit::Utf8).unwrap();
    assert_eq!(tally.counts(), Ok(vec![(0, 2), (100, 1), (200, 2)]));
    assert_eq!(tally.replace(10, 1, ""), Err(Error::Inside));
    assert_eq!(tally.replace(10, 2, ""), Err(Error::Outside));
    assert_eq!((tally.segments(), tally.count(0)), (5, 2));
    assert_eq!(tally.replace(5, 1, ""), Ok(()));
    assert_eq!(
        (tally.segments(), tally.count(0), tally.count(7)),
        (4, 1, 0)
    );
}

#[test]
fn each_question_moves_the_cursor() {
    let mut session = opened("ab 12", Unit::Chars);
    assert_eq!((session.first(), session.current()), (0, 0));
    assert_eq!((session.last(), session.current()), (5, 5));
    assert_eq!((session.status(), session.statuses()), (100, Ok(vec![100])));
    assert_eq!(
        (session.next(), session.previous(), session.next()),
        (None, Some(3), Some(5))
    );
    assert_eq!(
        (session.following(0), session.preceding(5)),
        (Some(2), Some(3))
    );
    assert_eq!(
        (session.preceding(0), session.following(u32::MAX)),
        (None, None)
    );
    assert!(session.is_boundary(2) && !session.is_boundary(1));
    assert_eq!(session.current(), 2);
}

#[test]
fn boundaries_are_those_that_next_gives() {
    let text = "can't \u{e4}32 \u{1f600}".repeat(3000);
    for unit in [Unit::Chars, Unit::Utf8, Unit::Utf16] {
        let mut session = opened(&text, unit);
        let segments: Vec<Segment> = session.segments().collect();
        session.following(7);
        let cursor = session.current();
        let (mut places, mut statuses) = (Vec::new(), Vec::new());
        for chunk in session.boundaries(0, u32::MAX) {
            let chunk = chunk.unwrap();
            places.extend(chunk.places);
            statuses.extend(chunk.statuses);
        }
        assert!(places
            .iter()
            .eq(segments.iter().map(|segment| &segment.end)));
        assert!(statuses
            .iter()
            .eq(segments.iter().map(|segment| &segment.status)));
        let back: Vec<u32> = session
            .boundaries_before(u32::MAX, 1)
            .flat_map(|chunk| chunk.unwrap().places)
            .collect();
        assert!(back.iter().eq(places.iter().rev()));
        assert_eq!(session.current(), cursor);
        assert_eq!(session.boundaries(5, 5).next(), None);
    }
}

#[test]
fn the_segment_at_a_place_leaves_the_cursor() {
    let mut session = opened("can't 32", Unit::Utf8);
    session.next();
    let word = Segment {
        start: 0,
        end: 5,
        status: 200,
    };
    assert_eq!(session.segment(4), Ok(Some(word)));
    assert_eq!((session.segment(8), session.current()), (Ok(None), 5));
}

#[test]
fn text_is_read_back() {
    let mut session = opened("a\u{1f600}b", Unit::Utf16);
    assert_eq!(session.text(1, 3).as_deref(), Ok("\u{1f600}"));
    assert_eq!(session.text(0, 5), Err(Error::Outside));
    assert_eq!(session.text(3, 1), Err(Error::Outside));
    assert_eq!(session.text(0, 2), Err(Error::Inside));
}

#[test]
fn utf16_is_taken_and_lone_surrogates_are_refused() {
    let table = Table::compile(RULES).unwrap();
    let units: Vec<u16> = "a\u{1f600}b".encode_utf16().collect();
    let mut session = table.session_utf16(&units, Unit::Utf16).unwrap();
    assert_eq!(
        (session.length(), session.text(0, 4).as_deref()),
        (4, Ok("a\u{1f600}b"))
    );
    session.replace_utf16(1, 2, &[0x63]).unwrap();
    assert_eq!(
        session.replace_utf16(0, 0, &[0x61, 0xdc00]),
        Err(Error::Lone(1))
    );
    assert_eq!(session.text(0, 3).as_deref(), Ok("acb"));
    let refused = table.session_utf16(&[0x61, 0xd83d, 0x63], Unit::Utf8);
    assert_eq!(refused.unwrap_err(), Error::Lone(1));
}

#[test]
fn edits_answer_as_a_new_session_over_the_new_text() {
    let mut text = "ab'c 12 \u{e4}\u{1f600}".repeat(20);
    let mut session = opened(&text, Unit::Utf8);
    for step in 0..60 {
        let places: Vec<usize> = text.char_indices().map(|(place, _)| place).collect();
        let first = step * 7 % places.len();
        let (at, end) = (
            places[first],
            places[(first + step % 3).min(places.len() - 1)],
        );
        let insert = ["", "x1'", "\u{e4}", "'"][step % 4];
        session
            .replace(at as u32, (end - at) as u32, insert)
            .unwrap();
        text.replace_range(at..end, insert);
        assert_eq!(ends(&mut session), ends(&mut opened(&text, Unit::Utf8)));
    }
}

#[test]
fn an_edit_tells_what_it_changed() {
    let mut session = opened("ab 12 cd", Unit::Utf8);
    let change = session.replace_changed(3, 2, "x'y").unwrap();
    let wanted = Change {
        from: 3,
        old_to: 5,
        new_to: 6,
    };
    assert_eq!((change, ends(&mut session)), (wanted, vec![2, 3, 6, 7, 9]));
    assert_eq!(session.redraw(&change), Ok(2..7));
    assert_eq!(session.replace_changed(9, 1, ""), Err(Error::Outside));
    assert_eq!(session.text(0, 9).as_deref(), Ok("ab x'y cd"));
}

#[test]
fn a_fork_has_a_text_and_a_cursor_of_its_own() {
    let mut session = opened("ab 12", Unit::Utf16);
    session.following(2);
    let mut copy = session.fork().unwrap();
    assert_eq!((copy.current(), copy.status()), (3, 0));
    copy.replace(0, 3, "").unwrap();
    assert_eq!((session.current(), session.length()), (3, 5));
    drop(session);
    assert_eq!(ends(&mut copy), [2]);
}

#[test]
fn refused_edits_change_nothing() {
    let mut session = opened("a\u{1f600}", Unit::Utf16);
    assert_eq!(session.replace(3, 1, "x"), Err(Error::Outside));
    assert_eq!(session.replace(2, 0, "x"), Err(Error::Inside));
    assert_eq!(session.length(), 3);
    assert!(Error::Inside.to_string().contains("inside of a character"));
}

#[test]
fn a_table_is_written_loaded_and_shared() {
    let table = Table::compile(RULES).unwrap();
    let file = table.write().unwrap();
    let loaded = Table::load(&file).unwrap();
    assert_eq!(loaded.write(), Ok(file));
    let mut session = loaded
        .share()
        .unwrap()
        .session("ab 12", Unit::Chars)
        .unwrap();
    assert_eq!(ends(&mut session), [2, 3, 5]);
}

#[test]
fn the_library_has_four_tables() {
    let cases: [(&str, &[u32]); 4] = [
        ("grapheme", &[1, 3, 4]),
        ("word", &[3, 4]),
        ("sentence", &[4]),
        ("line", &[4]),
    ];
    for (name, wanted) in cases {
        let mut session = Table::named(name)
            .unwrap()
            .session("ae\u{301}.", Unit::Chars)
            .unwrap();
        assert_eq!(ends(&mut session), wanted, "{name}");
    }
    assert_eq!(Table::named("words").unwrap_err(), Error::Name);
}

#[test]
fn filters_leave_boundaries_out_or_turn_characters() {
    let table = Table::named("sentence").unwrap();
    let mut session = table
        .session("I met Mr. Fox. He ran.", Unit::Chars)
        .unwrap();
    assert_eq!(session.next(), Some(10));
    session.suppress(b"# titles\nMr.\n").unwrap();
    assert_eq!(
        (session.next(), session.next(), session.next()),
        (Some(15), Some(22), None)
    );
    session.replace(15, 2, "\u{1f98a}").unwrap();
    assert_eq!((session.last(), session.length()), (21, 21));
    assert_eq!(session.fork().unwrap_err(), Error::Filtered);
    assert_eq!(session.segment(0), Err(Error::Filtered));
    let chunks: Vec<_> = session.boundaries(0, u32::MAX).collect();
    assert_eq!(chunks, [Err(Error::Filtered)]);
    let mut before = session.boundaries_before(u32::MAX, 0);
    assert_eq!(
        (before.next(), before.next()),
        (Some(Err(Error::Filtered)), None)
    );
    assert_eq!(session.current(), 21);
    let table = Table::compile("[a-z]+; .;").unwrap();
    let mut session = table.session("a\u{b7}b", Unit::Utf8).unwrap();
    let Err(Error::Fault(fault)) = session.tailor(b"00B7;61\n") else {
        panic!()
    };
    assert_eq!((fault.name.as_str(), fault.line), ("BadLine", Some(1)));
    session.tailor(b"00B7;0061\n").unwrap();
    assert_eq!(session.next(), Some(4));
}

#[test]
fn a_fault_has_a_name_and_a_place() {
    let Err(Error::Fault(fault)) = Table::compile("a;\n\u{e4} $;") else {
        panic!()
    };
    assert_eq!(fault.to_string(), "2:3: BadName: no name follows");
    assert_eq!(fault.byte, Some(6));
    let Err(Error::Fault(fault)) = Table::load(b"RBBI") else {
        panic!()
    };
    assert_eq!((fault.line, fault.column), (None, None));
}

#[test]
fn property_files_are_used_and_their_faults_told() {
    let mut files = Files::new().unwrap();
    files.add("X", b"0061..0063 ; Y\n").unwrap();
    let table = Table::compile_with(b"\\p{X=Y}+;", &mut files, false).unwrap();
    assert_eq!(table.session("abcd", Unit::Chars).unwrap().next(), Some(3));
    let Err(Error::Fault(fault)) = files.add("X", b"0061 ; Y\nno\n") else {
        panic!()
    };
    assert_eq!((fault.name.as_str(), fault.line), ("BadRow", Some(2)));
    assert_eq!(files.add("X\0", b""), Err(Error::Zero));
}

#[test]
fn a_text_that_nobody_edits_is_searched_where_it_is() {
    let table = Table::named("word").unwrap();
    let text = "can't 32.3, \u{e44}\u{e17} ".repeat(400);
    assert_eq!(table.segments(&text).collect::<String>(), text);
    assert!(table.boundaries(&text).eq(table
        .segment_indices(&text)
        .map(|(start, segment)| start + segment.len())));
    assert_eq!(
        table.words(&text).take(4).collect::<Vec<_>>(),
        ["can't", "32.3", "\u{e44}", "\u{e17}"]
    );
    assert_eq!(table.words(&text).count(), 1600);
    let mut session = table.session(&text, Unit::Utf8).unwrap();
    let wanted: Vec<_> = session
        .segments()
        .map(|found| (found.start as usize, found.end as usize, found.status))
        .collect();
    let found: Vec<_> = table
        .spans(text.as_bytes())
        .map(|span| span.unwrap())
        .map(|span| (span.start, span.end, span.status))
        .collect();
    assert_eq!(found, wanted);
    assert_eq!(table.segments("").count(), 0);
    let damaged: Vec<_> = table.word_spans(b"ab cd \xff ef").collect();
    assert_eq!(damaged.len(), 3);
    assert_eq!(
        damaged[1].as_ref().map(|span| (span.start, span.end)),
        Ok((3, 5))
    );
    assert!(damaged[2].is_err());
}

#[test]
fn threads_share_a_table() {
    let text = "can't 32.3. ".repeat(50);
    let table = Table::named("word").unwrap();
    let wanted = ends(&mut table.session(&text, Unit::Utf8).unwrap());
    thread::scope(|scope| {
        for _ in 0..4 {
            scope.spawn(|| {
                for _ in 0..20 {
                    let mut session = table.session(&text, Unit::Utf8).unwrap();
                    assert_eq!(ends(&mut session), wanted);
                }
            });
        }
    });
}

#[test]
fn the_crate_has_the_version_of_the_library() {
    assert_eq!(rbbi::version(), env!("CARGO_PKG_VERSION"));
    assert!(rbbi::unicode_version().starts_with("18."));
}
