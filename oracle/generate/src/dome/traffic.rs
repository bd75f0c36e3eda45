//! Workers' steps, and their requests and replies under way.

use wire::Message;

use super::{Dome, Flight, unhex};
use crate::damage;

impl Dome {
    pub(super) fn step(&mut self) {
        if self.workers.is_empty() {
            return;
        }
        let place = self.rng.below(self.workers.len());
        // A worker that waits for a reply rarely gives it up.
        if self.flights.iter().any(|f| f.worker == place) && !self.rng.once_in(8) {
            return self.deliver();
        }
        let w = &self.workers[place];
        let answer = self.stream.step(w.slot, &w.key, w.epoch, w.peer, w.metric);
        let (word, hex) = answer.trim().split_once(' ').unwrap_or((answer.trim(), ""));
        let step = match word {
            "align" => 0,
            "replicate" => 1,
            "copy" => 2,
            "stop" => {
                let busy = self.flights.iter().any(|f| f.worker == place);
                if !busy && !(self.wild && self.rng.once_in(3)) {
                    self.retire(place);
                }
                return;
            }
            _ => return,
        };
        self.workers[place].sent += 1;
        self.flights.push(Flight {
            worker: place,
            sent: self.workers[place].sent,
            step,
            bytes: unhex(hex),
            back: false,
        });
    }

    /// A worker that stopped is not stepped again.
    pub(super) fn retire(&mut self, place: usize) {
        let last = self.workers.len() - 1;
        self.workers.swap_remove(place);
        for flight in self.flights.iter_mut().filter(|f| f.worker == last) {
            flight.worker = place;
        }
    }

    /// The next flight to arrive: often the oldest of its link, else one that overtakes. One in six
    /// stays under way, and so arrives again.
    pub(super) fn arriving(&mut self) -> Option<Flight> {
        if self.flights.is_empty() {
            return None;
        }
        let any = self.rng.below(self.flights.len());
        let link = |f: &Flight| {
            let w = &self.workers[f.worker];
            (w.slot, w.peer, f.back)
        };
        let place = if self.rng.once_in(3) {
            any
        } else {
            let chosen = link(&self.flights[any]);
            let oldest = self.flights.iter().position(|f| link(f) == chosen);
            oldest.expect("it is there")
        };
        if self.rng.once_in(6) {
            return Some(self.flights[place].clone());
        }
        Some(self.flights.remove(place))
    }

    pub(super) fn deliver(&mut self) {
        let Some(flight) = self.arriving() else {
            return;
        };
        if self.rng.once_in(12) {
            return;
        }
        if flight.back {
            self.deliver_reply(flight);
        } else {
            self.deliver_request(flight);
        }
    }

    pub(super) fn deliver_request(&mut self, flight: Flight) {
        let Some(slot) = self.slot_of(self.workers[flight.worker].peer) else {
            return;
        };
        let mut bytes = flight.bytes.clone();
        if self.wild && self.rng.once_in(12) {
            bytes = damage::damaged(&mut self.rng, &bytes);
        }
        let answer = self.stream.bytes(slot, bytes);
        let (word, number) = answer.trim().split_once(' ').unwrap_or(("", ""));
        let number = number.parse().unwrap_or(0);
        let reply = match word {
            "stored" => Message::Stored(number),
            "gap" => Message::Gap(number),
            "stale" => Message::StaleEpoch(number),
            "adopted" => Message::Adopted(number),
            _ => return,
        };
        self.flights.push(Flight {
            bytes: wire::write(&reply),
            back: true,
            ..flight
        });
    }

    pub(super) fn deliver_reply(&mut self, flight: Flight) {
        let w = &self.workers[flight.worker];
        if flight.sent != w.sent && !self.wild {
            return;
        }
        let reply = wire::read(&flight.bytes).expect("a reply");
        let (slot, key, epoch, peer) = (w.slot, w.key.clone(), w.epoch, w.peer);
        let answer = self
            .stream
            .ack(slot, &key, epoch, peer, flight.step, &reply);
        if answer == "expand\n" {
            self.propose(slot, key, epoch, peer, 0x18);
        }
    }
}
