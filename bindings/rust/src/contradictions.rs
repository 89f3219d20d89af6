//! Settings of a builder that contradict each other.

use crate::error::Contradiction;
use crate::settings::Settings;
use crate::stored_journal::Mode;

/// Which settings were set by the builder's own methods. Only these are held against others.
#[derive(Clone, Copy, Debug, Default)]
pub(crate) struct Chosen {
    pub abandoned: bool,
    pub blocking: bool,
    pub journal_limit: bool,
    pub max_idle: bool,
    pub max_total: bool,
    pub max_wait: bool,
    pub min_idle: bool,
}

/// Whether a number is above a limit; a negative limit is none.
fn is_above(number: i64, limit: i64) -> bool {
    limit >= 0 && number > limit
}

impl Chosen {
    /// Returns the first contradiction of valid settings, of a pool with a journal of a kind.
    pub fn contradiction(self, settings: &Settings, mode: Mode) -> Option<Contradiction> {
        let waits_for_ever = settings.block_when_exhausted && settings.max_wait_millis < 0;
        let reclaims = settings.abandoned.map_or(true, |abandoned| {
            abandoned.on_borrow || abandoned.on_maintenance
        });
        let found = [
            (
                (self.max_total || self.max_wait || self.blocking)
                    && settings.max_total == 0
                    && waits_for_ever,
                Contradiction::NothingToWaitFor,
            ),
            (
                (self.min_idle || self.max_total)
                    && is_above(settings.min_idle, settings.max_total),
                Contradiction::MinIdleAboveMaxTotal,
            ),
            (
                (self.min_idle || self.max_idle) && is_above(settings.min_idle, settings.max_idle),
                Contradiction::MinIdleAboveMaxIdle,
            ),
            (
                self.max_wait && settings.max_wait_millis >= 0 && !settings.block_when_exhausted,
                Contradiction::WaitWithoutBlocking,
            ),
            (self.abandoned && !reclaims, Contradiction::NeverReclaimed),
            (
                (self.journal_limit || self.max_total) && lends_too_few(settings, mode),
                Contradiction::JournalTooSmall,
            ),
        ];
        found
            .into_iter()
            .find_map(|(is_so, contradiction)| is_so.then_some(contradiction))
    }
}

/// The outstanding entries of a lent object.
const OUTSTANDING: u64 = 4;

/// Returns whether a journal that is kept is full before all objects are lent at a time, or before one is if there may be any number.
fn lends_too_few(settings: &Settings, mode: Mode) -> bool {
    let wanted = u64::try_from(settings.max_total).unwrap_or(1);
    let first = settings.least_room();
    let each = match mode {
        Mode::Off => return false,
        Mode::Memory => first,
        // The entries of one loan are handed to the sink before the next.
        Mode::Segments => OUTSTANDING,
    };
    // One more entry is that of the close.
    let most = settings.journal_limit.unsigned_abs();
    wanted > 0 && first + (wanted - 1) * each + 1 > most
}
