//! Settings in TOML, held against the cases that say what the program answers, whose answers come from outside.

mod common;

use common::{new_folder, top};
use std::convert::Infallible;
use std::process::Command;
use std::time::Duration;
use std::{fs, io};
use zuphinka::{
    Abandoned, Builder, Journal, Manager, OpenError, Pool, Segment, SegmentSink, Segments,
    SettingsError,
};

/// Makes numbers.
struct Numbers;

impl Manager for Numbers {
    type Object = u64;
    type Error = Infallible;

    fn make(&self, id: u64) -> Result<u64, Infallible> {
        Ok(id)
    }
}

/// The settings of a pool that is opened with a text: all of them, in TOML.
fn settings_of(text: &str) -> Result<String, SettingsError> {
    let kept = Pool::builder().journal(Journal::Memory(None));
    match kept.settings(text)?.build(Numbers) {
        Ok(pool) => Ok(pool.settings()),
        Err(OpenError::Settings(error)) => Err(error),
        Err(error) => panic!("{error}"),
    }
}

/// What the program says of settings that it doesn't take, or `ok`.
fn line_of(settings: &Result<String, SettingsError>) -> String {
    match settings {
        Ok(_) => "ok\n".to_owned(),
        Err(SettingsError::NotToml(_)) => "pool: settings: not TOML\n".to_owned(),
        Err(error) => format!("pool: settings: {error}\n"),
    }
}

/// The settings and the answer of each case of settings. A script of the repository unpacks them.
fn cases() -> Vec<(Vec<u8>, String)> {
    let (tests, room) = (top().join("tests"), new_folder());
    let mut unpack = Command::new("python3");
    unpack.arg(tests.join("case_files.py"));
    let status = unpack.arg(tests.join("cases/settings")).arg(&room).status();
    assert!(status.unwrap().success());
    let files = fs::read_dir(room.join("settings")).unwrap();
    let folders = files.flat_map(|file| fs::read_dir(file.unwrap().path()).unwrap());
    let read = folders.map(|folder| {
        let folder = folder.unwrap().path();
        let settings = fs::read(folder.join("settings.toml")).unwrap();
        (settings, fs::read_to_string(folder.join("answer")).unwrap())
    });
    let cases = read.collect();
    fs::remove_dir_all(room).unwrap();
    cases
}

#[test]
fn settings_are_taken_and_refused_as_the_cases_say() {
    let (mut seen, mut no_text) = (0, 0);
    for (settings, wanted) in cases() {
        match String::from_utf8(settings) {
            Ok(text) => assert_eq!(line_of(&settings_of(&text)), wanted, "{text}"),
            // No text at all is handed to the crate then.
            Err(_) => no_text += usize::from(wanted == "pool: settings: not TOML\n"),
        }
        seen += 1;
    }
    assert!(
        seen > 50 && no_text < 10,
        "{seen} cases, of which {no_text} are no text"
    );
}

#[test]
fn the_example_with_all_settings_has_the_defaults() {
    let text = fs::read_to_string(top().join("examples/settings.toml")).unwrap();
    // The crate's own default of a wait is 30 seconds.
    let named = settings_of("maxWaitMillis = -1\n");
    assert_eq!(settings_of(&text), named);
    let limited = named
        .unwrap()
        .replace("maxWaitMillis = -1\n", "maxWaitMillis = 30000\n");
    assert_eq!(settings_of("").as_ref(), Ok(&limited));
    assert_eq!(
        settings_of("\u{feff}maxWaitMillis = 7\n").map(drop),
        settings_of("\u{feff}").map(drop)
    );
    let kept = Pool::builder().journal(Journal::Memory(None));
    assert_eq!(settings_of(""), Ok(kept.build(Numbers).unwrap().settings()));
}

const USUAL: &str = "\
blockWhenExhausted = false
journalLimit = 4096
lifo = true
maxIdle = -1
maxTotal = 1000
maxWaitMillis = 8
minEvictableIdleMillis = 1800000
minIdle = 5
numTestsPerEvictionRun = -2
softMinEvictableIdleMillis = -1
testOnBorrow = false
testOnCreate = false
testOnReturn = false
testWhileIdle = true
[abandoned]
removeAbandonedOnBorrow = true
removeAbandonedOnMaintenance = false
removeAbandonedTimeoutMillis = 15
";

#[test]
fn each_form_of_toml_is_read() {
    let first = "# a comment\r\n\tjournalLimit=0x1_000 # another\n\"maxTo\\u0074al\" = 1_000\n'maxIdle' = -1\n";
    let second = "maxWaitMillis = 0o10\nminIdle = 0b1_01\nnumTestsPerEvictionRun = -2\nblockWhenExhausted = false\n";
    let third = "testWhileIdle = true\n";
    let tables = [
        "[abandoned]\nremoveAbandonedOnBorrow = true\nremoveAbandonedTimeoutMillis = +15",
        "[ \"abandoned\" ] # a table\n\nremoveAbandonedTimeoutMillis = 0xF\nremoveAbandonedOnBorrow = true\n",
        "abandoned = { removeAbandonedOnBorrow = true , removeAbandonedTimeoutMillis = 15 }\n",
        "abandoned = { removeAbandonedOnBorrow = true, removeAbandonedTimeoutMillis = 15, }\n",
        "abandoned.removeAbandonedOnBorrow = true\nabandoned . 'removeAbandonedTimeoutMillis' = 15\n",
    ];
    for table in tables {
        let text = [first, second, third, table].concat();
        assert_eq!(settings_of(&text).as_deref(), Ok(USUAL), "{text}");
    }
}

#[test]
fn a_text_that_is_no_toml_is_told_with_its_line() {
    let cases = [
        ("maxTotal = 1\nmaxTotal = 2", 2),
        ("maxTotal = 1 maxIdle = 2", 1),
        ("\n\nmaxTotal", 3),
        ("maxTotal = 1_", 1),
        ("maxTotal = 99999999999999999999", 1),
        ("abandoned = {}\n[abandoned]", 2),
        ("[abandoned]\n[abandoned]", 2),
        ("abandoned.removeAbandonedOnBorrow = true\n[abandoned]", 2),
        ("lifo = tru", 1),
        ("lifo = true\rmaxIdle = 1", 1),
        ("\"maxTotal = 1", 1),
        ("abandoned = { removeAbandonedOnBorrow = true,, }", 1),
        ("maxTotal = 1\nx = [\n1,\n2\n]\nlifo = tru\n", 6),
        ("maxTotal = 1\nx = [\n1,\n2 3\n]\n", 2),
        ("x = \"\\q\"", 1),
        ("x = [1, 2", 1),
    ];
    for (text, line) in cases {
        assert_eq!(
            settings_of(text),
            Err(SettingsError::NotToml(line)),
            "{text}"
        );
    }
}

#[test]
fn a_key_of_any_length_is_told() {
    for length in [1, 127, 128, 129, 100_000] {
        let key = "k".repeat(length);
        let told = settings_of(&format!("{key} = 1"));
        assert_eq!(told, Err(SettingsError::UnknownKey(key)));
    }
    let text = "[abandoned]\n\"\\u00e9\" = 1\nremoveAbandonedTimeoutMillis = -1\n";
    let late = "abandoned.removeAbandonedTimeoutMillis".to_owned();
    assert_eq!(settings_of(text), Err(SettingsError::OutOfRange(late)));
    let unknown = SettingsError::UnknownKey("abandoned.\u{e9}".to_owned());
    assert_eq!(settings_of("abandoned.\"\\u00e9\" = 1"), Err(unknown));
}

#[test]
fn the_line_in_a_long_text_is_found_in_time() {
    let lines = "#\n".repeat(1 << 19);
    let text = &lines[..lines.len() - 1];
    let broken = text.replacen('#', "=", 1);
    assert_eq!(settings_of(&broken), Err(SettingsError::NotToml(1)));
    let last = text[..text.len() - 1].to_owned() + "=";
    assert_eq!(settings_of(&last), Err(SettingsError::NotToml(1_001)));
}

#[test]
fn a_text_that_is_too_long_is_refused() {
    let comment = "#".repeat((1 << 20) - 1) + "\n";
    assert!(settings_of(&comment).is_ok());
    assert_eq!(settings_of(&(comment + "\n")), Err(SettingsError::TooLong));
}

const MINUTE: Duration = Duration::from_secs(60);

/// What a builder sets, and whether a pool shows that.
type Setting = (
    fn(Builder<Numbers>) -> Builder<Numbers>,
    fn(&Pool<Numbers>) -> bool,
);

const ABANDONED: Abandoned = Abandoned::new().on_borrow(true).timeout(MINUTE);

/// Each setting, with a value that is not its default.
const SETTINGS: [Setting; 21] = [
    (|it| it.max_total(5), |it| it.max_total() == Some(5)),
    (|it| it.max_total(None), |it| it.max_total().is_none()),
    (|it| it.max_idle(3), |it| it.max_idle() == Some(3)),
    (|it| it.max_idle(None), |it| it.max_idle().is_none()),
    (|it| it.min_idle(2), |it| it.min_idle() == 2),
    (|it| it.lifo(false), |it| !it.lifo()),
    (
        |it| it.block_when_exhausted(false),
        |it| !it.block_when_exhausted(),
    ),
    (|it| it.max_wait(MINUTE), |it| it.max_wait() == Some(MINUTE)),
    (|it| it.max_wait(None), |it| it.max_wait().is_none()),
    (
        |it| it.overtake_time(MINUTE),
        |it| it.overtake_time() == MINUTE,
    ),
    (|it| it.max_overtakes(0), |it| it.max_overtakes() == 0),
    (|it| it.test_on_create(true), |it| it.test_on_create()),
    (|it| it.test_on_borrow(true), |it| it.test_on_borrow()),
    (|it| it.test_on_return(true), |it| it.test_on_return()),
    (|it| it.test_while_idle(true), |it| it.test_while_idle()),
    (
        |it| it.min_evictable_idle(None),
        |it| it.min_evictable_idle().is_none(),
    ),
    (
        |it| it.soft_min_evictable_idle(MINUTE),
        |it| it.soft_min_evictable_idle() == Some(MINUTE),
    ),
    (
        |it| it.tests_per_eviction_run(-2),
        |it| it.tests_per_eviction_run() == -2,
    ),
    (
        |it| it.journal(Journal::Memory(Some(300))),
        |it| it.journal_limit() == 300,
    ),
    (
        |it| it.abandoned(ABANDONED),
        |it| it.abandoned() == Some(ABANDONED),
    ),
    // The text of the settings says `testWhileIdle` then, for the core.
    (
        |it| it.max_lifetime(MINUTE),
        |it| it.max_lifetime() == Some(MINUTE) && !it.test_while_idle(),
    ),
];

#[test]
fn a_pool_shows_each_setting() {
    for (number, (set, _)) in SETTINGS.into_iter().enumerate() {
        let pool = set(Pool::builder()).build(Numbers).unwrap();
        for (other, (_, is_shown)) in SETTINGS.into_iter().enumerate() {
            assert_eq!(is_shown(&pool), number == other, "{number}, {other}");
        }
    }
}

/// A text that comes after a setting is refused, unless it leaves that one as it is.
#[test]
fn no_setting_is_lost_by_a_text() {
    let mut kept = 0;
    for (number, (set, is_shown)) in SETTINGS.into_iter().enumerate() {
        let first = set(Pool::builder().settings("").unwrap());
        assert!(is_shown(&first.build(Numbers).unwrap()), "{number}");
        match set(Pool::builder()).settings("") {
            Ok(builder) => {
                kept += 1;
                assert!(is_shown(&builder.build(Numbers).unwrap()), "{number}");
            }
            Err(error) => assert_eq!(error, SettingsError::NotFirst),
        }
    }
    // The journal, the overtakes and their time, and the lifetime.
    assert_eq!(kept, 4);
    let once: Builder<Numbers> = Pool::builder().settings("maxTotal = 5\n").unwrap();
    assert_eq!(once.settings("").map(drop), Err(SettingsError::NotFirst));
}

/// What a builder sets.
type Set = fn(Builder<Numbers>) -> Builder<Numbers>;

/// A time that is out of range.
const LONG: Duration = Duration::from_millis((1 << 53) + 1);

#[test]
fn a_value_out_of_range_is_told_by_its_method() {
    struct Nowhere;
    impl SegmentSink for Nowhere {
        fn store(&mut self, _: &Segment<'_>) -> io::Result<()> {
            Ok(())
        }
    }
    let cases: [(Set, &str); 11] = [
        (|it| it.max_total(1 << 31), "max_total"),
        (|it| it.max_idle(u32::MAX), "max_idle"),
        (|it| it.min_idle(1 << 31), "min_idle"),
        (|it| it.max_wait(LONG), "max_wait"),
        (
            |it| it.min_evictable_idle(Duration::MAX),
            "min_evictable_idle",
        ),
        (
            |it| it.soft_min_evictable_idle(LONG),
            "soft_min_evictable_idle",
        ),
        (|it| it.journal_limit(0), "journal_limit"),
        (|it| it.journal_limit(u64::MAX), "journal_limit"),
        (|it| it.journal(Journal::Memory(Some(0))), "Journal::Memory"),
        (
            |it| it.journal(Journal::Segments(Segments::new(Nowhere).limit(0))),
            "Segments::limit",
        ),
        (
            |it| it.abandoned(Abandoned::new().timeout(LONG)),
            "Abandoned::timeout",
        ),
    ];
    for (set, method) in cases {
        let refused = set(Pool::builder()).build(Numbers).map(drop).unwrap_err();
        assert_eq!(refused, OpenError::OutOfRange(method));
        let message = format!("settings: {method} is out of its range");
        assert_eq!(refused.to_string(), message);
    }
    let builder = Pool::builder().max_total(None).max_wait(None);
    assert!(builder.max_idle(None).build(Numbers).is_ok());
}

#[test]
fn a_fair_pool_lets_nobody_overtake() {
    for (is_fair, millis, overtakes) in [(true, 0, 0), (false, 5, 64)] {
        let builder = Pool::builder().overtake_time(MINUTE).max_overtakes(3);
        let pool = builder.fair(is_fair).build(Numbers).unwrap();
        assert_eq!(pool.overtake_time(), Duration::from_millis(millis));
        assert_eq!(pool.max_overtakes(), overtakes);
    }
}

#[test]
fn a_pool_shows_the_defaults() {
    let pool = Pool::new(Numbers).unwrap();
    assert_eq!((pool.max_total(), pool.max_idle()), (Some(8), Some(8)));
    assert_eq!(pool.min_idle(), 0);
    assert!(pool.lifo() && pool.block_when_exhausted());
    assert_eq!(pool.max_wait(), Some(MINUTE / 2));
    assert_eq!(pool.overtake_time(), Duration::from_millis(5));
    assert_eq!(pool.max_overtakes(), 64);
    assert_eq!(pool.min_evictable_idle(), Some(30 * MINUTE));
    assert_eq!(pool.tests_per_eviction_run(), 3);
    assert_eq!(pool.journal_limit(), 1 << 32);
    assert_eq!((pool.abandoned(), pool.max_lifetime()), (None, None));
}
