//! The calls of the package, as a user makes them: of wholes, of streams in pieces, and where a writer fails.

use ansi_proved::{events, events_of, events_with_ends, strip, strip_lf, strip_safe, to_html, Converter, Event, SafeStripper, Sequence, Stripper, Styling};
use std::borrow::Cow;
use std::cell::Cell;
use std::convert::Infallible;
use std::error::Error;
use std::hash::Hash;

const STREAM: &[u8] = b"\x1b[31mhi\x1b[0m \xe2\x82\xac<b>\x07\n";
const LIGHT: &str = "<span style=\"color:#cf222e;\">hi</span> \u{20ac}&lt;b&gt;\n";

/// A writer that takes all.
fn into(all: &mut Vec<u8>) -> impl FnMut(&[u8]) -> Result<(), Infallible> + '_ {
    |part| {
        all.extend_from_slice(part);
        Ok(())
    }
}

/// A writer that takes nothing and is content.
#[allow(clippy::unnecessary_wraps, reason = "each writer answers so")]
fn nowhere(_: &[u8]) -> Result<(), Infallible> {
    Ok(())
}

/// In pieces of each size a stream becomes the same text, at the end of which a stream begins. (Both strippers have these calls, and no
/// trait has.)
macro_rules! assert_however_it_is_cut {
    ($stripper:expr, $stream:expr, $wanted:expr) => {
        for size in 1..=$stream.len() {
            let mut text = Vec::new();
            for piece in $stream.chunks(size) {
                $stripper.strip(piece, into(&mut text)).unwrap();
            }
            $stripper.end(into(&mut text)).unwrap();
            assert_eq!(text, $wanted.as_bytes(), "in pieces of {size}");
        }
    };
}

fn csi(parameters: &[&[u16]], action: u8) -> Event {
    Event::Csi(Sequence {
        parameters: parameters.iter().map(|group| group.to_vec()).collect(),
        intermediates: Vec::new(),
        ignored: false,
        action,
    })
}

#[test]
fn wholes() {
    assert_eq!(strip(STREAM), "hi \u{20ac}<b>\n");
    assert_eq!(strip("\x1b[1mplain"), "plain");
    assert_eq!(strip("a\x7fb\u{9b}1m\u{a0}"), "ab1m\u{a0}");
    assert_eq!(to_html(STREAM, Styling::Light), LIGHT);
    assert_eq!(strip_safe(STREAM), "hi \u{20ac}<b><U+0007>\n");
    assert_eq!(strip_safe("a\u{202e}b\r\n\u{9b}<U+0041>"), "a<U+202E>b\n<U+009B><U+003C>U+0041>");
    assert_eq!(strip_safe("a\x1b[8mb\nc"), "a<U+hidden>b<U+shown>\n<U+hidden>c<U+shown>");
    assert_eq!(strip_safe("a\x1b[30;40mb\x1b[42mc"), "a<U+hidden>b<U+shown>c");
}

/// What is its own text is borrowed: all of it, or the front of it that is followed by nothing that shows.
#[test]
fn clean_text_is_not_copied() {
    let long = "plain \u{20ac} text\r\n\t".repeat(5000);
    for text in ["", "plain", "a\u{e4}\u{20ac}\u{1f600}\n", &long] {
        assert!(matches!(strip(text), Cow::Borrowed(it) if it.as_ptr() == text.as_ptr() && it.len() == text.len()), "{text:?}");
    }
    assert!(matches!(strip("front\x1b[0m"), Cow::Borrowed("front")));
    assert!(matches!(strip_safe(long.trim_end()), Cow::Owned(_)));
    assert!(matches!(strip_safe("plain \u{20ac}\n"), Cow::Borrowed("plain \u{20ac}\n")));
    assert!(matches!(strip_lf("plain\n\r\u{20ac}\r"), Cow::Borrowed("plain\n\r\u{20ac}\r")));
    assert!(matches!(strip_lf("front\r\x1b[0m"), Cow::Borrowed("front\r")));
    assert!(matches!(strip_lf(&long), Cow::Owned(text) if text == long.replace("\r\n", "\n")));
    let (coloured, wanted) = (format!("{long}\x1b[31m{long}\x1b[0m\u{20ac}"), format!("{long}{long}\u{20ac}"));
    assert!(matches!(strip(&coloured), Cow::Owned(text) if text == wanted));
    assert_eq!(strip(b"a\xe2\x82"), "a\u{fffd}");
    assert_eq!(strip(b"a\xff\xff\xff"), "a\u{fffd}\u{fffd}\u{fffd}");
    assert_eq!(strip(&vec![b'a', 0x7f, b'a']), "aa");
}

/// Bytes of no character, a stamp that BEL ends, and half of a character at the end.
#[test]
fn logs() {
    let rows: [(&[u8], &str); 5] = [
        (b"M\xfcller \xa3 5\n", "M\u{fffd}ller \u{fffd} 5\n"),
        (b"\x93quoted\x94 \x80", "\u{fffd}quoted\u{fffd} \u{fffd}"),
        ("x\x1b_G\u{2713}y\x1b\\z".as_bytes(), "xz"),
        (b"\x1b_bk;t=17\x07$ make", "$ make"),
        (b"\xe2\x82\xff\xc3", "\u{fffd}\u{fffd}\u{fffd}"),
    ];
    for (stream, wanted) in rows {
        assert_eq!(strip(stream), wanted);
        assert_eq!(strip_safe(stream), wanted);
        assert_eq!(to_html(stream, Styling::Both), wanted);
    }
}

/// A carriage return that comes last waits for the next piece, or for the end, after which a stream begins.
#[test]
fn lines_however_they_are_cut() {
    let (stream, wanted) = (b"a\r\x1b[K\nb\r\r\n\rc\r\xe2", "a\nb\r\n\rc\r\u{fffd}");
    assert_eq!(strip_lf(stream), wanted);
    assert_eq!(strip_lf("a\r\n\r"), "a\n\r");
    assert_eq!(strip("a\r\n"), "a\r\n");
    let mut stripper = Stripper::lf();
    assert_however_it_is_cut!(stripper, stream, wanted);
    let mut text = Vec::new();
    stripper.strip(b"a\r", into(&mut text)).unwrap();
    assert_eq!(text, b"a");
    let mut clone = stripper.clone();
    clone.strip(b"\n", into(&mut text)).unwrap();
    stripper.end(into(&mut text)).unwrap();
    assert_eq!(text, b"a\n\r");
    let long = [b'x'; 9000];
    stripper.strip(&long, into(&mut text)).unwrap();
    assert!(text.ends_with(&long));
    assert!(stripper.strip(b"d", |_| Err(())).is_err() && stripper.end(nowhere).is_ok());
}

/// What waits for the next character comes with it, or at the end, after which a stream begins.
#[test]
fn safe_text_however_it_is_cut() {
    let (stream, wanted) = (
        "\u{1f468}\u{200d}\u{1f469}\u{200d}a<U+<U\r\n<U\r\x1b[8mb\x1b[mc\x1b[8md",
        "\u{1f468}\u{200d}\u{1f469}<U+200D>a<U+003C>U+<U\n<U<U+000D><U+hidden>b<U+shown>c<U+hidden>d<U+shown>",
    );
    let mut stripper = SafeStripper::default();
    assert_however_it_is_cut!(stripper, stream.as_bytes(), wanted);
    let mut text = Vec::new();
    stripper.strip(b"a<", into(&mut text)).unwrap();
    assert_eq!(text, b"a");
    let mut clone = stripper.clone();
    clone.strip(b"b", into(&mut text)).unwrap();
    stripper.strip(b"c", into(&mut text)).unwrap();
    assert_eq!(text, b"a<b<c");
    assert!(stripper.strip(b"d", |_| Err(())).is_err() && stripper.end(nowhere).is_ok());
}

#[test]
fn stylings_are_others() {
    let made = [Styling::Both, Styling::Light, Styling::Dark, Styling::Classes].map(|it| to_html("\x1b[31ma", it));
    assert_eq!(made[0], "<span style=\"color:#cf222e;color:light-dark(#cf222e,#ff7b72);\">a</span>");
    assert_eq!(made[1], "<span style=\"color:#cf222e;\">a</span>");
    assert!(made[2].contains("color:#ff7b72"), "{}", made[2]);
    assert!(made[3].contains("class="), "{}", made[3]);
}

#[test]
fn stylings_by_their_names() {
    let named = [("both", Styling::Both), ("light", Styling::Light), ("dark", Styling::Dark), ("classes", Styling::Classes)];
    for (name, styling) in named {
        assert_eq!(name.parse(), Ok(styling));
    }
    assert_eq!(Styling::default(), Styling::Both);
    for name in ["", "Dark", "dark ", "red"] {
        let error = name.parse::<Styling>().unwrap_err();
        assert_eq!(error.to_string(), "a styling is one of both, light, dark and classes");
    }
}

/// What a program that keeps stylings, events and errors of its own, or hands a stream to a thread, asks of these.
#[test]
fn types_go_into_those_of_a_user() {
    #[derive(Clone, Debug, PartialEq, Eq)]
    struct Kept(Event, Sequence);

    fn is_a_key<T: Copy + Eq + Hash>() {}
    fn goes_to_a_thread<T: Clone + std::fmt::Debug + Send + Sync + 'static>() {}

    let named = |name: &str| -> Result<Styling, Box<dyn Error + Send + Sync>> { Ok(name.parse()?) };
    assert!(named("red").unwrap_err().to_string().starts_with("a styling is one of"));
    is_a_key::<Styling>();
    goes_to_a_thread::<(Kept, Stripper, SafeStripper, Converter, ansi_proved::Events<std::vec::IntoIter<Vec<u8>>>)>();
}

/// A piece that counts how often its bytes are asked for.
struct Counted<'a>(Vec<u8>, &'a Cell<usize>);

impl AsRef<[u8]> for Counted<'_> {
    fn as_ref(&self) -> &[u8] {
        self.1.set(self.1.get() + 1);
        &self.0
    }
}

/// A call takes long for a few bytes: so each takes thousands of bytes, and hundreds of events.
#[test]
fn a_large_piece_takes_few_calls() {
    let (piece, counts) = (vec![b'a'; 1 << 20], Cell::new(0));
    let count = |_: &[u8]| {
        counts.set(counts.get() + 1);
        Ok::<(), Infallible>(())
    };
    Stripper::new().strip(&piece, count).unwrap();
    Stripper::lf().strip(&piece, count).unwrap();
    SafeStripper::new().strip(&piece, count).unwrap();
    Converter::new(Styling::Both).convert(&piece, count).unwrap();
    assert!(counts.get() < 4 * 1024, "{} calls", counts.get());
    counts.set(0);
    assert_eq!(events([Counted(b"\x1b[1m".repeat(10_000), &counts)]).count(), 10_000);
    assert!(counts.get() < 100, "{} calls", counts.get());
}

#[test]
fn pieces_are_one_stream() {
    for size in 1..STREAM.len() {
        let (mut text, mut page) = (Vec::new(), Vec::new());
        let (mut stripper, mut converter) = (Stripper::new(), Converter::new(Styling::Light));
        for piece in STREAM.chunks(size) {
            stripper.strip(piece, into(&mut text)).unwrap();
            converter.convert(piece, into(&mut page)).unwrap();
        }
        converter.end(into(&mut page)).unwrap();
        assert_eq!(text, "hi \u{20ac}<b>\n".as_bytes());
        assert_eq!(page, LIGHT.as_bytes());
    }
}

/// U+009B is C2 9B: cut between the two it is left out too, and a byte that follows C2 otherwise is a character.
#[test]
fn text_drives_no_terminal_however_it_is_cut() {
    for (stream, wanted) in [("\u{9b}31mred\x7f", "31mred"), ("\u{9f}\u{a0}", "\u{a0}")] {
        for size in 1..=stream.len() {
            let (mut stripper, mut text) = (Stripper::new(), Vec::new());
            for piece in stream.as_bytes().chunks(size) {
                stripper.strip(piece, into(&mut text)).unwrap();
            }
            assert_eq!(text, wanted.as_bytes(), "{stream:?} in pieces of {size}");
        }
    }
}

#[test]
fn behind_an_end_a_stream_begins_in_the_same_styling() {
    let mut converter = Converter::new(Styling::Light);
    for _ in 0..2 {
        let mut page = Vec::new();
        converter.convert(b"1m\x1b[31mhi\x1b[3", into(&mut page)).unwrap();
        converter.end(into(&mut page)).unwrap();
        assert_eq!(String::from_utf8(page).unwrap(), "1m<span style=\"color:#cf222e;\">hi</span>");
    }
}

#[test]
fn a_clone_goes_on_from_where_it_was_cloned() {
    let mut stripper = Stripper::default();
    stripper.strip(b"\x1b]0;ti", nowhere).unwrap();
    let (mut clone, mut text) = (stripper.clone(), Vec::new());
    stripper.strip(b"\x18\x1bP", nowhere).unwrap();
    clone.strip(b"tle\x07text", into(&mut text)).unwrap();
    assert_eq!(text, b"text");
}

#[test]
fn the_error_of_a_writer_comes_back_and_the_stream_goes_on() {
    let mut stripper = Stripper::new();
    assert_eq!(stripper.strip(b"lost\x1b[3", |_| Err("full")), Err("full"));
    let mut text = Vec::new();
    stripper.strip(b"1mkept", into(&mut text)).unwrap();
    assert_eq!(text, b"kept");
}

#[test]
fn events_of_each_kind() {
    let stream = b"a\n\x1b[38:2:9;1m\x1b(B\x1b]0;one;two\x07\x1bP1qx\x1b\\".as_slice();
    let sequence = |intermediates: &[u8], action| Sequence {
        parameters: Vec::new(),
        intermediates: intermediates.to_vec(),
        ignored: false,
        action,
    };
    let hook = Sequence { parameters: vec![vec![1]], ..sequence(b"", b'q') };
    let wanted = [
        Event::Text("a".into()),
        Event::Execute(b'\n'),
        csi(&[&[38, 2, 9], &[1]], b'm'),
        Event::Esc(sequence(b"(", b'B')),
        Event::Osc(vec![b"0".to_vec(), b"one".to_vec(), b"two".to_vec()], true),
        Event::Hook(hook),
        Event::Put(b'x'),
        Event::Unhook,
        Event::Esc(sequence(b"", b'\\')),
    ];
    assert_eq!(events([stream]).collect::<Vec<_>>(), wanted);
    assert_eq!(events(stream.chunks(1)).collect::<Vec<_>>(), wanted);
    assert_eq!(events_of(std::str::from_utf8(stream).unwrap()).collect::<Vec<_>>(), wanted);
    assert_eq!(events([b"\x1b[256;65535m"]).collect::<Vec<_>>(), [csi(&[&[256], &[65535]], b'm')]);
}

#[test]
fn events_end_where_they_are_whole() {
    fn ends(pieces: &[&[u8]]) -> Vec<usize> {
        events_with_ends(pieces).map(|(_, end)| end).collect()
    }
    assert_eq!(ends(&[b"a\x1b[1mb"]), [1, 5, 6]);
    assert_eq!(ends(&[b"a\xe2\x82", b"", b"\xacb\n", b"\x1b["]), [1, 5, 6]);
    assert_eq!(ends(&[b"\x1b]0;", b"t\x18a"]), [6, 6, 7]);
    let long = b"a\x1b[1m\n".repeat(10_000);
    let wanted: Vec<_> = (0..10_000).flat_map(|at| [6 * at + 1, 6 * at + 5, 6 * at + 6]).collect();
    assert_eq!(ends(&[&long]), wanted);
    let (found, ends): (Vec<_>, Vec<_>) = events_with_ends(long.chunks(999)).clone().unzip();
    assert_eq!(ends, wanted);
    assert!(found.into_iter().eq(events(long.chunks(999))));
    assert_eq!(format!("{:?}", events_with_ends([b"a"])), "EventsWithEnds { .. }");
}

#[test]
fn commands_with_all_that_is_kept_may_be_cut() {
    let may_be_cut = |text: &[u8]| events_of([b"\x1b]", text, b"\x07"].concat()).next().unwrap().may_be_cut();
    assert!(!may_be_cut(b"0;t") && !may_be_cut(&[b'x'; 1023]) && may_be_cut(&[b'x'; 1024]) && may_be_cut(&[b'x'; 1025]));
    assert!(!may_be_cut(&[b';'; 14]) && may_be_cut(&[b';'; 15]) && may_be_cut(&[b';'; 16]));
    assert!(!Event::Execute(7).may_be_cut());
}

#[test]
fn events_come_before_more_is_asked_for() {
    let mut asked = 0;
    let mut found = events([b"\x1b[1".as_slice(), b"mA", b"B"].into_iter().inspect(|_| asked += 1));
    assert_eq!(found.next(), Some(csi(&[&[1]], b'm')));
    assert_eq!(found.next(), Some(Event::Text("A".into())));
    drop(found);
    assert_eq!(asked, 2);
}

#[test]
fn a_clone_of_events_goes_on_from_where_it_was_cloned() {
    let mut found = events([b"a\x1b[1".to_vec(), b"mb\x1b[2m\x1b[3m".to_vec()]);
    assert_eq!(found.next(), Some(Event::Text("a".into())));
    assert_eq!(found.next(), Some(csi(&[&[1]], b'm')));
    let rest = [Event::Text("b".into()), csi(&[&[2]], b'm'), csi(&[&[3]], b'm')];
    assert_eq!(found.clone().collect::<Vec<_>>(), rest);
    assert_eq!(found.collect::<Vec<_>>(), rest);
    let mut many = events([b"\x1b[1m".repeat(5000)]);
    assert!(many.by_ref().take(10).all(|event| event == csi(&[&[1]], b'm')));
    assert_eq!((many.clone().count(), many.count()), (4990, 4990));
    assert_eq!(events([b"".as_slice(), b"", b"c", b""]).collect::<Vec<_>>(), [Event::Text("c".into())]);
    assert_eq!(format!("{:?}", events([b"a"])), "Events { .. }");
}
