//! Changes of the settings of a pool that is open.

use crate::contradictions::Chosen;
use crate::error::ReconfigureError;
use crate::failure::Failure;
use crate::manager::Manager;
use crate::settings::{Settings, Setup};
use crate::shared::Shared;
use crate::stored_journal::Mode;

impl<M: Manager> Shared<M> {
    /// Goes on with settings in TOML. Returns the position of the first entry with them.
    pub fn reconfigure(&self, toml: &str) -> Result<u64, ReconfigureError> {
        let change = self.policy.setup(Settings::of_pool(toml)?);
        let mode = self.lock().journal.mode();
        self.check(&change, mode)?;
        match mode {
            Mode::Off => self.change_at_once(change),
            Mode::Memory | Mode::Segments => self.cut_and_change(change),
        }
    }

    /// Fails if the settings contradict a limit that the journal has of its own.
    fn check(&self, change: &Setup, mode: Mode) -> Result<(), ReconfigureError> {
        let chosen = Chosen {
            journal_limit: self.policy.journal_limit.is_some(),
            ..Chosen::default()
        };
        match chosen.contradiction(&change.settings, mode) {
            Some(contradiction) => Err(ReconfigureError::Contradiction(contradiction)),
            None => Ok(()),
        }
    }

    /// Changes the settings of a pool that drops its entries.
    fn change_at_once(&self, change: Setup) -> Result<u64, ReconfigureError> {
        let mut state = self.lock();
        state.reconfigure(change)?;
        let first = state.end_of_stored();
        self.leave_after_change(state);
        Ok(first)
    }

    /// Stores the segment that is unwritten, and changes the settings after the entries that are stored. These are a segment, which is handed to the
    /// sink, or else is unwritten until the next cut.
    fn cut_and_change(&self, change: Setup) -> Result<u64, ReconfigureError> {
        let state = self.lock();
        let turn = self.take_turn(state);
        let mut turn = turn.ok_or(ReconfigureError::FromWriter)?;
        if let Some(outlet) = &self.outlet {
            let stored = self.hand_over(&mut turn, outlet);
            stored.map_err(ReconfigureError::Sink)?;
        }
        if turn.unwritten.is_some() {
            return Err(ReconfigureError::Unwritten);
        }
        let first = self.cut_off(&mut turn, Some(change))?;
        if let Some(outlet) = &self.outlet {
            let stored = self.hand_over(&mut turn, outlet);
            self.plan_next_try(&stored);
            drop(turn);
            if let Err(error) = stored {
                self.report(Failure::Sink(error));
            }
        }
        Ok(first)
    }
}
