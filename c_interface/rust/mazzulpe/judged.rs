//! What a handle finds out by looks: whether a request undoes, why a reply is refused, and what is counted.

use super::{DEPOSED, DIVERGED, Handle, Refusal, Reply, STRANGER, Said, call};

impl Handle {
    /// The last event from `low` to before `high` that gave a number out: whether it undoes, the number, and its place.
    fn giver_before(&mut self, low: u64, high: u64) -> Option<(bool, u64, u64)> {
        for at in (low..high).rev() {
            self.frame().place = at;
            self.call(call::LOG_BYTES).ok()?;
            let bytes = &self.frame().bytes;
            let number = u64::from_le_bytes(bytes[16..24].try_into().expect("8 bytes"));
            if bytes[0] == 2 || bytes[0] == 4 {
                return Some((bytes[0] == 4, number, at));
            }
        }
        None
    }

    /// Whether this open request undoes a write, by its event in the log, where numbers rise.
    pub(super) fn is_undo(&mut self, number: u64) -> bool {
        let (mut low, mut high) = (0, self.counted(call::LOG_LENGTH));
        while low < high {
            let middle = low + (high - low) / 2;
            match self.giver_before(low, middle + 1) {
                Some((undoes, found, _)) if found == number => return undoes,
                Some((_, found, at)) if found > number => high = at,
                _ => low = middle + 1,
            }
        }
        false
    }

    pub(super) fn count_request(&mut self, again: bool) {
        self.counts.resent += u64::from(again);
        self.counts.wires += u64::from(!again);
        self.counts.waiting += u64::from(!again);
    }

    /// Behind a way back: how many wait.
    pub(super) fn count_waiting(&mut self) {
        (self.counts.waiting, self.frame().place) = (0, 0);
        while self.call(call::OPEN_FROM).is_ok() {
            self.counts.waiting += u64::from(self.frame().kind != 3);
            self.frame().place += 1;
        }
    }

    /// Keeps in mind a reply that the data component can't give, and says which refusal that is.
    pub(super) fn refused_as(&mut self, dc: u16, reply: &Reply) -> Refusal {
        self.refused = Some((dc, *reply));
        if matches!(reply.said, Said::Old) { DEPOSED } else { DIVERGED }
    }

    /// Of a reply that was no answer to the open request: [`STRANGER`] where it is another's, too.
    pub(super) fn why_no_answer(&mut self, txn: u64, reply: &Reply) -> Refusal {
        self.frame().txn = txn;
        self.counts.refused += 1;
        let is_open = self.call(call::WIRE).is_ok();
        let f = self.frame();
        let (same, dc) = ((f.number, f.incarnation) == (reply.number, reply.incarnation), f.dc);
        if is_open && same { self.refused_as(dc, reply) } else { STRANGER }
    }

    /// The same of the operation under redo: the one behind the number that was redone last.
    pub(super) fn why_not_redone(&mut self, dc: u16, reply: &Reply) -> Refusal {
        self.counts.refused += 1;
        self.frame().dc = dc;
        let is_down = self.call(call::SITE).is_ok() && self.frame().kind == 2;
        if !is_down || self.frame().incarnation != reply.incarnation {
            return STRANGER;
        }
        self.frame().dc = dc;
        let is_left = self.call(call::REDO_BEHIND).is_ok() && self.frame().kind == 1;
        if is_left && self.frame().number == reply.number { self.refused_as(dc, reply) } else { STRANGER }
    }
}
