//! Each step with each reply to it.

use wire::Message;

use super::{ONE, Script, put};
use crate::stream::Stream;

/// Each step with each reply to it: to the worker that waits, and again when none does.
pub fn replies() -> Stream {
    let (mut t, a) = Script::pair(1);
    (1..=4).for_each(|n| drop(t.s.write(1, &a, 1, put(n, ONE))));
    let stale = [0, 1, 2].map(Message::StaleEpoch);
    let kinds = [
        Message::Adopted(2),
        Message::Stored(2),
        Message::Stored(4),
        Message::Gap(1),
        Message::Gap(4),
        Message::Gap(5),
    ];
    // How many entries the peer lacks decides the step: all and unaligned, one, several.
    for (before, step) in [(None, 0), (Some(3), 1), (Some(1), 2)] {
        for reply in kinds.iter().chain(&stale) {
            for waits in [true, false] {
                t.s.ack(1, &a, 1, 2, 1, &Message::StaleEpoch(2));
                t.s.shown(1, 0);
                if let Some(through) = before {
                    t.s.ack(1, &a, 1, 2, 0, &Message::Adopted(through));
                }
                if waits {
                    t.s.step(1, &a, 1, 2, 0);
                }
                t.s.ack(1, &a, 1, 2, step, reply);
                t.s.step(1, &a, 1, 2, 0);
            }
        }
    }
    t.s.held(1, &a);
    t.s
}

#[cfg(test)]
mod tests {
    use super::*;
    use front::replay::call;

    /// A worker that waits treats a reply as the functions do that `late` calls for it.
    #[test]
    fn a_reply_is_the_same_whether_a_worker_waits_or_not() {
        let stream = replies();
        let shown = |n: &usize| stream.records[*n].call == call::SHOWN;
        let starts: Vec<usize> = (0..stream.records.len()).filter(shown).skip(2).collect();
        // The last record of a block begins the next one.
        let ends = starts.iter().skip(1).map(|n| n - 1);
        let blocks: Vec<&[String]> = ends.map(|end| &stream.answers[end - 2..end]).collect();
        assert_eq!(blocks.len(), 53);
        for pair in blocks.chunks_exact(2) {
            assert_eq!(pair[0], pair[1]);
        }
    }
}
