//! Episodes: settings, then calls chosen by a mood, then perhaps a flood or an audit.

use super::driver::Driver;
use super::settings::Wealth;

/// Something to do next; most do several calls.
type Action = for<'a, 'b> fn(&'a mut Driver<'b>);

/// What is done how often, and how rich the episode starts.
struct Mood {
    wealth: Wealth,
    actions: &'static [(u32, Action)],
}

const RICH: Wealth = Wealth {
    blocks: 40,
    heads: 92,
};
const POOR: Wealth = Wealth {
    blocks: 3,
    heads: 70,
};

/// Messages sent and delivered, notices taken, queues read.
const TRAFFIC: Mood = Mood {
    wealth: RICH,
    actions: &[
        (14, |driver| driver.program()),
        (30, |driver| driver.send()),
        (22, |driver| driver.deliver()),
        (6, |driver| driver.forge()),
        (12, |driver| driver.take_some()),
        (4, |driver| driver.read_queues()),
        (3, |driver| driver.settle()),
        (4, |driver| driver.hand_block()),
        (3, |driver| driver.write_dio()),
        (2, |driver| driver.pcsr1()),
        (2, |driver| driver.write_some_slot()),
        (1, |driver| driver.power()),
        (1, |driver| driver.stop_descriptor()),
        (2, |driver| driver.touch_descriptor()),
        (2, |driver| driver.look()),
    ],
};

/// Packets of every kind, good and bad.
const RECEIPTS: Mood = Mood {
    wealth: RICH,
    actions: &[
        (40, |driver| driver.forge()),
        (16, |driver| driver.forge_defective()),
        (4, |driver| driver.garbage()),
        (1, |driver| driver.overlong()),
        (20, |driver| driver.take_some()),
        (4, |driver| driver.read_queues()),
        (4, |driver| driver.settle()),
        (6, |driver| driver.hand_block()),
        (5, |driver| driver.write_some_slot()),
        (2, |driver| driver.write_slot_count()),
        (2, |driver| driver.write_list()),
        (3, |driver| driver.pcsr1()),
        (1, |driver| driver.power()),
        (4, |driver| driver.look()),
    ],
};

/// Few blocks, few heads: much stalls.
const SCARCE: Mood = Mood {
    wealth: POOR,
    actions: &[
        (22, |driver| driver.forge()),
        (6, |driver| driver.deliver()),
        (12, |driver| driver.program()),
        (22, |driver| driver.send()),
        (7, |driver| driver.take_some()),
        (5, |driver| driver.hand_block()),
        (3, |driver| driver.write_list()),
        (3, |driver| driver.write_some_slot()),
        (5, |driver| driver.settle()),
        (2, |driver| driver.pcsr1()),
        (3, |driver| driver.look()),
    ],
};

/// Registers, pointers, pages, words of every region.
const REGISTERS: Mood = Mood {
    wealth: POOR,
    actions: &[
        (10, |driver| driver.pointers()),
        (10, |driver| driver.poke()),
        (10, |driver| driver.any_register()),
        (6, |driver| driver.write_list()),
        (5, |driver| driver.write_some_slot()),
        (3, |driver| driver.write_slot_count()),
        (5, |driver| driver.hand_block()),
        (5, |driver| driver.touch_descriptor()),
        (4, |driver| driver.pcsr1()),
        (3, |driver| driver.power()),
        (3, |driver| driver.write_dio()),
        (2, |driver| driver.unknown_kind()),
        (1, |driver| driver.restart()),
        (6, |driver| driver.forge()),
        (4, |driver| driver.program()),
        (4, |driver| driver.send()),
        (4, |driver| driver.take_some()),
        (4, |driver| driver.look()),
    ],
};

/// Every edge of the go rule, stops and touches of active descriptors.
const EDGES: Mood = Mood {
    wealth: RICH,
    actions: &[
        (20, |driver| driver.program_edge()),
        (20, |driver| driver.send()),
        (6, |driver| driver.deliver()),
        (8, |driver| driver.touch_descriptor()),
        (5, |driver| driver.stop_descriptor()),
        (5, |driver| driver.take_some()),
        (2, |driver| driver.hand_block()),
        (2, |driver| driver.read_queues()),
        (2, |driver| driver.look()),
    ],
};

const MOODS: [(u32, &Mood); 5] = [
    (3, &TRAFFIC),
    (5, &RECEIPTS),
    (2, &SCARCE),
    (2, &REGISTERS),
    (2, &EDGES),
];

impl Driver<'_> {
    /// One to five scenes of different moods, then perhaps a flood or an audit.
    pub fn station_episode(&mut self) {
        let scenes = self.rng.range(1, 5);
        self.live(scenes, 150);
        match self.rng.below(24) {
            0..=3 => self.flood_nqr(),
            4..=6 => self.flood_aqr(),
            7..=9 => self.flood_nbqr(),
            10 if self.rng.chance(50) => self.audit(),
            _ => {}
        }
    }

    /// Short, so that the states differ.
    pub fn raw_episode(&mut self) {
        let scenes = self.rng.range(1, 2);
        self.live(scenes, 50);
    }

    fn live(&mut self, scenes: u32, longest: u32) {
        let mut mood = self.rng.weighted(&MOODS);
        self.set_up(mood.wealth);
        for _ in 0..scenes {
            for _ in 0..self.rng.range(10, longest) {
                if self.is_over() {
                    return;
                }
                let action = self.rng.weighted(mood.actions);
                action(self);
            }
            mood = self.rng.weighted(&MOODS);
        }
    }
}
