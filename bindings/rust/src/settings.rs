//! The settings of a pool, with the keys of a settings file.

use crate::error::SettingsError;
use crate::proved_core::settings_of;
use crate::sys;
use std::fmt;
use std::sync::Arc;
use std::time::Duration;

/// The size of the longest text that is read, in bytes.
const LONGEST: usize = 1 << 20;

/// How many lines and bytes of a text that is not TOML are searched for the line of the error.
const MOST_LINES: usize = 1_000;
const MOST_BYTES: usize = 1 << 16;

/// The limit of a wait if nothing else is set: that of r2d2.
pub(crate) const DEFAULT_WAIT_MILLIS: i64 = 30_000;

/// The settings. `docs/settings.md` explains each.
#[derive(Clone, Debug, PartialEq, Eq)]
pub(crate) struct Settings {
    pub block_when_exhausted: bool,
    pub journal_limit: i64,
    pub lifo: bool,
    pub max_idle: i64,
    pub max_total: i64,
    pub max_wait_millis: i64,
    pub min_evictable_idle_millis: i64,
    pub min_idle: i64,
    pub num_tests_per_eviction_run: i64,
    pub soft_min_evictable_idle_millis: i64,
    pub test_on_borrow: bool,
    pub test_on_create: bool,
    pub test_on_return: bool,
    pub test_while_idle: bool,
    pub abandoned: Option<Abandoned>,
}

/// The settings that a pool has now.
#[derive(Clone, Debug)]
pub(crate) struct Setup {
    /// As the core has them.
    pub settings: Settings,
    /// The same in TOML.
    pub text: Arc<str>,
    /// Whether eviction runs validate idle objects, and do not only look at their age.
    pub tests_idle: bool,
}

/// When lent objects count as abandoned, for [`Builder::abandoned`](crate::Builder::abandoned).
///
/// ```
/// # use std::time::Duration;
/// # use zuphinka::Abandoned;
/// let abandoned = Abandoned::new().on_maintenance(true);
/// assert_eq!(abandoned.timeout, Duration::from_secs(300));
/// ```
#[derive(Clone, Copy, Debug, PartialEq, Eq)]
#[must_use = "it does nothing until a builder has it"]
#[non_exhaustive]
pub struct Abandoned {
    /// Whether each borrow first reclaims abandoned objects, if few objects and places are left (`removeAbandonedOnBorrow`, false).
    pub on_borrow: bool,
    /// Whether maintenance reclaims abandoned objects (`removeAbandonedOnMaintenance`, false).
    pub on_maintenance: bool,
    /// How long an object is lent and not used before it counts as abandoned, up to 2^53 milliseconds. It is rounded up to whole milliseconds
    /// (`removeAbandonedTimeoutMillis`, 5 minutes).
    pub timeout: Duration,
}

impl Abandoned {
    /// Returns the defaults, with which no object is reclaimed.
    pub const fn new() -> Abandoned {
        Abandoned {
            on_borrow: false,
            on_maintenance: false,
            timeout: Duration::from_secs(300),
        }
    }

    /// Sets whether each borrow first reclaims abandoned objects.
    pub const fn on_borrow(mut self, is_set: bool) -> Abandoned {
        self.on_borrow = is_set;
        self
    }

    /// Sets whether maintenance reclaims abandoned objects.
    pub const fn on_maintenance(mut self, is_set: bool) -> Abandoned {
        self.on_maintenance = is_set;
        self
    }

    /// Sets how long an object is lent and not used before it counts as abandoned.
    pub const fn timeout(mut self, time: Duration) -> Abandoned {
        self.timeout = time;
        self
    }
}

impl Default for Abandoned {
    fn default() -> Abandoned {
        Abandoned::new()
    }
}

impl Default for Settings {
    fn default() -> Settings {
        Settings {
            block_when_exhausted: true,
            journal_limit: 1_000_000,
            lifo: true,
            max_idle: 8,
            max_total: 8,
            max_wait_millis: -1,
            min_evictable_idle_millis: 1_800_000,
            min_idle: 0,
            num_tests_per_eviction_run: 3,
            soft_min_evictable_idle_millis: -1,
            test_on_borrow: false,
            test_on_create: false,
            test_on_return: false,
            test_while_idle: false,
            abandoned: None,
        }
    }
}

/// Returns a time in milliseconds, rounded up. One that is out of range stays out of range.
pub(crate) fn millis(time: Duration) -> i64 {
    let millis = time.as_nanos().div_ceil(1_000_000);
    i64::try_from(millis).unwrap_or(i64::MAX)
}

/// Returns the number of the first line that makes a text invalid: the text before it is TOML.
fn line_of_fault(text: &str) -> u64 {
    let ends = text.match_indices('\n').map(|(at, _)| at).enumerate();
    let looked_at = ends
        .take(MOST_LINES)
        .take_while(|&(_, end)| end < MOST_BYTES);
    let is_toml = |end| match settings_of(&text[..=end]) {
        Ok(_) => true,
        Err((status, _)) => status != sys::STATUS_NOT_TOML && status != sys::STATUS_OUT_OF_MEMORY,
    };
    let last = looked_at.filter(|&(_, end)| is_toml(end)).last();
    last.map_or(1, |(lines, _)| lines as u64 + 2)
}

impl From<sys::Settings> for Settings {
    fn from(told: sys::Settings) -> Settings {
        let abandoned = Abandoned {
            on_borrow: told.remove_abandoned_on_borrow,
            on_maintenance: told.remove_abandoned_on_maintenance,
            timeout: Duration::from_millis(told.remove_abandoned_timeout_millis.unsigned_abs()),
        };
        Settings {
            block_when_exhausted: told.block_when_exhausted,
            journal_limit: i64::try_from(told.journal_limit).unwrap_or(i64::MAX),
            lifo: told.lifo,
            max_idle: told.max_idle.into(),
            max_total: told.max_total.into(),
            max_wait_millis: told.max_wait_millis,
            min_evictable_idle_millis: told.min_evictable_idle_millis,
            min_idle: told.min_idle.into(),
            num_tests_per_eviction_run: told.num_tests_per_eviction_run.into(),
            soft_min_evictable_idle_millis: told.soft_min_evictable_idle_millis,
            test_on_borrow: told.test_on_borrow,
            test_on_create: told.test_on_create,
            test_on_return: told.test_on_return,
            test_while_idle: told.test_while_idle,
            abandoned: told.abandoned.then_some(abandoned),
        }
    }
}

impl Settings {
    /// Returns the settings of a TOML text, as the core reads them. A key that the text leaves out has its default.
    pub fn from_toml(text: &str) -> Result<Settings, SettingsError> {
        if text.len() > LONGEST {
            return Err(SettingsError::TooLong);
        }
        settings_of(text)
            .map(Settings::from)
            .map_err(|(status, key)| match status {
                sys::STATUS_OUT_OF_MEMORY => SettingsError::OutOfMemory,
                sys::STATUS_NOT_TEXT | sys::STATUS_NOT_TOML => {
                    SettingsError::NotToml(line_of_fault(text))
                }
                sys::STATUS_UNKNOWN_KEY => SettingsError::UnknownKey(key),
                sys::STATUS_WRONG_TYPE => SettingsError::WrongType(key),
                sys::STATUS_OUT_OF_RANGE => SettingsError::OutOfRange(key),
                status => unreachable!("settings came to status {status}"),
            })
    }

    /// Returns the settings that a pool has by a TOML text. A wait has the crate's own limit unless the text names one.
    pub fn of_pool(text: &str) -> Result<Settings, SettingsError> {
        let mut settings = Settings::from_toml(text)?;
        if !Settings::names_max_wait(text)? {
            settings.max_wait_millis = DEFAULT_WAIT_MILLIS;
        }
        Ok(settings)
    }

    /// Returns whether a valid text names `maxWaitMillis`: with the key once more before it, it is not TOML.
    fn names_max_wait(text: &str) -> Result<bool, SettingsError> {
        let text = text.strip_prefix('\u{feff}').unwrap_or(text);
        match settings_of(&["maxWaitMillis = 0\n", text].concat()) {
            Ok(_) => Ok(false),
            Err((sys::STATUS_OUT_OF_MEMORY, _)) => Err(SettingsError::OutOfMemory),
            Err(_) => Ok(true),
        }
    }

    /// Returns whether a borrow first reclaims abandoned objects.
    pub fn removes_on_borrow(&self) -> bool {
        self.abandoned.is_some_and(|abandoned| abandoned.on_borrow)
    }

    /// Returns the journal room that is enough for any borrow: one entry that makes an object, five that may be needed until this is destroyed,
    /// and one more if the borrow first reclaims.
    pub fn least_room(&self) -> u64 {
        6 + u64::from(self.removes_on_borrow())
    }
}

/// Writes a settings file with each key, and with the table `abandoned` if it is set.
impl fmt::Display for Settings {
    fn fmt(&self, f: &mut fmt::Formatter<'_>) -> fmt::Result {
        writeln!(f, "blockWhenExhausted = {}", self.block_when_exhausted)?;
        writeln!(f, "journalLimit = {}", self.journal_limit)?;
        writeln!(f, "lifo = {}", self.lifo)?;
        writeln!(f, "maxIdle = {}", self.max_idle)?;
        writeln!(f, "maxTotal = {}", self.max_total)?;
        writeln!(f, "maxWaitMillis = {}", self.max_wait_millis)?;
        writeln!(
            f,
            "minEvictableIdleMillis = {}",
            self.min_evictable_idle_millis
        )?;
        writeln!(f, "minIdle = {}", self.min_idle)?;
        writeln!(
            f,
            "numTestsPerEvictionRun = {}",
            self.num_tests_per_eviction_run
        )?;
        writeln!(
            f,
            "softMinEvictableIdleMillis = {}",
            self.soft_min_evictable_idle_millis
        )?;
        writeln!(f, "testOnBorrow = {}", self.test_on_borrow)?;
        writeln!(f, "testOnCreate = {}", self.test_on_create)?;
        writeln!(f, "testOnReturn = {}", self.test_on_return)?;
        writeln!(f, "testWhileIdle = {}", self.test_while_idle)?;
        match self.abandoned {
            Some(abandoned) => write!(f, "{abandoned}"),
            None => Ok(()),
        }
    }
}

impl fmt::Display for Abandoned {
    fn fmt(&self, f: &mut fmt::Formatter<'_>) -> fmt::Result {
        writeln!(f, "[abandoned]")?;
        writeln!(f, "removeAbandonedOnBorrow = {}", self.on_borrow)?;
        writeln!(f, "removeAbandonedOnMaintenance = {}", self.on_maintenance)?;
        writeln!(f, "removeAbandonedTimeoutMillis = {}", millis(self.timeout))
    }
}
