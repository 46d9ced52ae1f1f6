//! Queues brought to their full 256 entries by not reading them, and played with there.

use super::driver::Driver;
use crate::draft::{Draft, ACK_PKT, DST_NODE, DST_SLOT, INCARNATION, USE_MSG_SIZE};
use crate::engine::layout::{ListIndex, QUEUE_ENTRIES};
use crate::engine::{Ram, Reply};

const DO_ACKS: u32 = 1 << 13;
const NOTIFY: u32 = 1 << 12;

/// More steps than any queue needs to be filled.
const PATIENCE: u32 = 700;

impl Driver<'_> {
    /// A packet of 20 zero bytes: its header check is wrong, whatever the state.
    fn cheap_fault(&mut self) -> Reply {
        self.receive(vec![0; 20]).reply
    }

    /// List 0 with a head and blocks to go on with; with enqueue if asked.
    fn prepare_faults(&mut self, enqueue: bool) {
        let list = ListIndex::FAULTS;
        if self.machine.head(list) == 0 {
            let block = self.fresh_block();
            self.put(Ram::Receive, list.head_word(), block);
        }
        let token = self.rng.word() & !1 | 2 | u32::from(enqueue);
        self.put(Ram::Receive, list.token_word(), token);
        self.enable();
        let blocks = self.rng.pick(&[3, 20, 60]);
        self.hand_blocks(blocks);
    }

    /// Makes a slot without a buffer, on list 0, that does acks or notifies; returns a packet that
    /// completes a message there at once.
    fn slot_for_empty_messages(&mut self, slot: u32, does: u32) -> Draft {
        let control = 1 << 15 | does;
        self.put_run(Ram::Receive, 16 * slot as usize, &[0, 0, control]);
        self.put(Ram::Receive, 16 * slot as usize + 6, 0);
        Draft::default()
            .with(DST_NODE, self.machine.saved.node())
            .with(DST_SLOT, slot)
            .with(INCARNATION, self.machine.saved.incarnation())
            .with(USE_MSG_SIZE, 1)
    }

    /// NQR: faults enqueue the token of list 0; its notices are taken, NQR is not read.
    pub fn flood_nqr(&mut self) {
        self.prepare_faults(true);
        let slot = self.rng.pick(&self.slots);
        let does = self.rng.pick(&[NOTIFY, NOTIFY | DO_ACKS]);
        let notifying = self.slot_for_empty_messages(slot, does).encode();
        for _ in 0..PATIENCE {
            if self.machine.saved.nqr.length >= QUEUE_ENTRIES - 1 || self.is_over() {
                break;
            }
            if self.machine.saved.nbqr.is_empty() {
                self.take_several(0);
            }
            if self.cheap_fault() == Reply::Stalled {
                self.hand_blocks(2);
            }
        }
        self.play(|driver| {
            driver.hand_block();
            driver.cheap_fault();
            driver.receive(notifying.clone());
            driver.take_some();
        });
        self.drain(0x014);
        self.take_all(0);
    }

    /// AQR: empty messages complete at once and do nothing but acks; AQR is not read.
    pub fn flood_aqr(&mut self) {
        let enqueue = self.rng.chance(50);
        self.prepare_faults(enqueue);
        self.write(0x00C, 64);
        let slot = self.rng.pick(&self.slots);
        let completing = self.slot_for_empty_messages(slot, DO_ACKS);
        let both = self.slot_for_empty_messages((slot + 1) % 64, DO_ACKS | NOTIFY);
        let (acking, both) = (completing.encode(), both.encode());
        let ack = completing.with(ACK_PKT, 1).encode();
        for _ in 0..PATIENCE {
            if self.machine.saved.aqr.length >= QUEUE_ENTRIES - 2 || self.is_over() {
                break;
            }
            self.receive(acking.clone());
        }
        self.play(|driver| {
            let packet = driver.rng.pick(&[&acking, &both, &ack]).clone();
            driver.receive(packet);
            if driver.rng.chance(40) {
                driver.hand_block();
                driver.cheap_fault();
            }
            driver.take_some();
        });
        self.drain(0x018);
        self.take_all(0);
    }

    /// NBQR: blocks handed over again and again, with notices left to take.
    pub fn flood_nbqr(&mut self) {
        self.prepare_faults(false);
        for _ in 0..self.rng.range(1, 6) {
            self.cheap_fault();
            self.hand_blocks(1);
        }
        for _ in 0..PATIENCE {
            if self.machine.saved.nbqr.length >= QUEUE_ENTRIES - 1 || self.is_over() {
                break;
            }
            self.hand_blocks(1);
        }
        self.play(|driver| {
            driver.hand_block();
            driver.take_some();
            if driver.rng.chance(30) {
                driver.cheap_fault();
            }
        });
    }

    /// At the brim: the flood's own calls mixed with everything else.
    fn play(&mut self, flood: impl Fn(&mut Self)) {
        for _ in 0..self.rng.range(20, 60) {
            match self.rng.below(20) {
                0..=4 => self.forge(),
                5..=6 => self.program(),
                7..=8 => self.send(),
                9 => self.look(),
                10 => self.read_queues(),
                11..=12 => self.take_some(),
                13 => self.write_list(),
                _ => flood(self),
            }
        }
    }

    fn take_several(&mut self, list: u32) {
        for _ in 0..self.rng.range(1, 20) {
            if self.take(list).reply != Reply::Done {
                break;
            }
        }
    }

    /// Takes a list's notices to the last, and tries once more.
    fn take_all(&mut self, list: u32) {
        for _ in 0..PATIENCE {
            if self.take(list).reply != Reply::Done || self.is_over() {
                break;
            }
        }
        self.take(list);
    }

    /// Reads a queue, not always to its end.
    fn drain(&mut self, register: u32) {
        for _ in 0..self.rng.pick(&[3, 40, 200, 258]) {
            if self.is_over() {
                break;
            }
            self.read(register);
        }
    }
}
