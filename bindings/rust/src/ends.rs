//! Events, each with where it ends.
use crate::{ansi_events_ends, events, Event, Events};
use alloc::vec::Vec;
use core::fmt;

/// The events of a stream in pieces, each with where it ends.
pub struct EventsWithEnds<I: Iterator> {
    events: Events<I>,
    /// How many bytes of the stream came before those that the library read last, how many these were, and where among them
    /// their events end.
    before: usize,
    taken: usize,
    ends: Vec<usize>,
}

/// The events of a stream in pieces, as [`events`] gives them, each with how many bytes of the stream had come when it was
/// whole. An event ends with the byte that ends its sequence, or with that which breaks it off; two may end with one byte. The
/// library reads the bytes once more for that.
pub fn events_with_ends<I: IntoIterator<Item = impl AsRef<[u8]>>>(pieces: I) -> EventsWithEnds<I::IntoIter> {
    EventsWithEnds {
        events: events(pieces),
        before: 0,
        taken: 0,
        ends: Vec::new(),
    }
}

impl<I: Iterator<Item = impl AsRef<[u8]>>> EventsWithEnds<I> {
    /// Reads on, and finds the ends of what was read.
    fn read_on(&mut self) -> Option<()> {
        let (state, read) = (self.events.state.clone(), self.events.read);
        self.events.read_on()?;
        let piece = self.events.piece.as_ref().map_or(&[][..], AsRef::as_ref);
        let bytes = piece.get(read..self.events.read).unwrap_or_default(); // (nothing where the next piece is there)
        self.before += self.taken;
        self.taken = bytes.len();
        self.ends.resize(self.events.waiting.len(), 0);
        // The references are to memory of their own, and none of them is kept.
        let found = unsafe {
            ansi_events_ends(
                &raw const state,
                bytes.as_ptr(),
                bytes.len(),
                self.ends.as_mut_ptr(),
                self.ends.len(),
            )
        };
        assert_eq!(found, self.ends.len(), "each event has an end");
        Some(())
    }
}

impl<I: Iterator<Item = impl AsRef<[u8]>>> Iterator for EventsWithEnds<I> {
    type Item = (Event, usize);

    fn next(&mut self) -> Option<(Event, usize)> {
        while self.events.waiting.is_empty() {
            self.read_on()?;
        }
        let end = self.before + self.ends[self.events.waiting.start];
        Some((self.events.next()?, end))
    }
}

impl<I: Iterator<Item: Clone> + Clone> Clone for EventsWithEnds<I> {
    fn clone(&self) -> EventsWithEnds<I> {
        EventsWithEnds {
            events: self.events.clone(),
            before: self.before,
            taken: self.taken,
            ends: self.ends.clone(),
        }
    }
}

impl<I: Iterator> fmt::Debug for EventsWithEnds<I> {
    fn fmt(&self, formatter: &mut fmt::Formatter<'_>) -> fmt::Result {
        formatter.debug_struct("EventsWithEnds").finish_non_exhaustive()
    }
}
