//! The values of objects, by their tokens.

use std::collections::TryReserveError;
use std::mem;

/// A lent object, with its id and its token.
#[derive(Debug)]
pub(crate) struct Loan<T> {
    pub id: u64,
    pub token: u64,
    pub object: T,
}

/// A place of the table.
#[derive(Debug)]
enum Place<T> {
    /// It has the value of an idle object.
    Value(T),
    /// It is that of an object whose value a call or a holder has.
    Away,
    /// No object has it. After this one comes that one.
    Free(Option<usize>),
}

/// Places, one for each object from its making to its end, whose number is its token. They have the values of the idle objects.
#[derive(Debug)]
pub(crate) struct Values<T> {
    places: Vec<Place<T>>,
    first_free: Option<usize>,
    /// How many values there are.
    len: usize,
}

const KEPT: &str = "the core names tokens of values that are kept";

impl<T> Values<T> {
    pub fn new() -> Values<T> {
        Values {
            places: Vec::new(),
            first_free: None,
            len: 0,
        }
    }

    /// Returns the number of values.
    #[inline]
    pub fn len(&self) -> usize {
        self.len
    }

    /// Sets memory aside for one more place.
    pub fn reserve(&mut self) -> Result<(), TryReserveError> {
        match self.first_free {
            Some(_) => Ok(()),
            None => self.places.try_reserve(1),
        }
    }

    /// Takes a place for an object. Returns its token.
    pub fn claim(&mut self) -> Result<u64, TryReserveError> {
        self.reserve()?;
        let Some(place) = self.first_free else {
            self.places.push(Place::Away);
            return Ok(self.places.len() as u64 - 1);
        };
        match mem::replace(&mut self.places[place], Place::Away) {
            Place::Free(next) => self.first_free = next,
            Place::Value(_) | Place::Away => unreachable!("a free place has no object"),
        }
        Ok(place as u64)
    }

    /// Puts the value of an object in.
    ///
    /// # Panics
    ///
    /// If its place has one, or is free.
    #[inline]
    pub fn put(&mut self, token: u64, value: T) {
        let place = &mut self.places[token as usize];
        assert!(matches!(place, Place::Away), "a value has its own place");
        *place = Place::Value(value);
        self.len += 1;
    }

    /// Takes the value of an object out.
    ///
    /// # Panics
    ///
    /// If there is none.
    #[inline]
    pub fn take(&mut self, token: u64) -> T {
        match mem::replace(&mut self.places[token as usize], Place::Away) {
            Place::Value(value) => {
                self.len -= 1;
                value
            }
            Place::Away | Place::Free(_) => panic!("{KEPT}"),
        }
    }

    /// Frees the place of an object that has ended, or is its holder's.
    ///
    /// # Panics
    ///
    /// If it has a value, or is free.
    pub fn free(&mut self, token: u64) {
        let place = &mut self.places[token as usize];
        assert!(matches!(place, Place::Away), "an object ends once");
        *place = Place::Free(self.first_free);
        self.first_free = Some(token as usize);
    }

    /// Takes all values out. No place is used any more.
    pub fn take_all(&mut self) -> Values<T> {
        mem::replace(self, Values::new())
    }
}

#[cfg(test)]
mod tests {
    use super::Values;

    fn with<T>(values: &mut Values<T>, value: T) -> u64 {
        let token = values.claim().unwrap();
        values.put(token, value);
        token
    }

    #[test]
    fn values_come_out_by_their_tokens() {
        let mut values = Values::new();
        let (a, b) = (with(&mut values, "a"), with(&mut values, "b"));
        assert_ne!(a, b);
        assert_eq!(values.take(a), "a");
        assert_eq!(values.len(), 1);
        let c = with(&mut values, "c");
        assert_ne!(c, a);
        values.put(a, "d");
        let taken = [a, b, c].map(|token| values.take(token));
        assert_eq!((taken, values.len()), (["d", "b", "c"], 0));
    }

    #[test]
    fn places_are_used_again_once_they_are_free() {
        let mut values = Values::new();
        let tokens: Vec<_> = (0..3).map(|value| with(&mut values, value)).collect();
        for _ in 0..10 {
            for &token in &tokens {
                values.take(token);
                values.free(token);
            }
            assert_eq!(values.len(), 0);
            let mut again: Vec<_> = (0..3).map(|value| with(&mut values, value)).collect();
            again.sort();
            assert_eq!(again, tokens);
        }
    }

    #[test]
    fn memory_is_set_aside_for_one_more_place() {
        let mut values = Values::new();
        values.reserve().unwrap();
        assert!(values.places.capacity() > 0);
        let token = with(&mut values, 0);
        values.take(token);
        values.free(token);
        let before = values.places.capacity();
        values.reserve().unwrap();
        assert_eq!(values.places.capacity(), before);
    }

    #[test]
    #[should_panic(expected = "values that are kept")]
    fn a_value_is_taken_once() {
        let mut values = Values::new();
        let token = with(&mut values, 0);
        values.take(token);
        values.take(token);
    }

    #[test]
    #[should_panic(expected = "its own place")]
    fn a_place_has_one_value() {
        let mut values = Values::new();
        let token = with(&mut values, 0);
        values.put(token, 1);
    }

    #[test]
    #[should_panic(expected = "ends once")]
    fn an_object_that_is_idle_has_not_ended() {
        let mut values = Values::new();
        let token = with(&mut values, 0);
        values.free(token);
    }
}
