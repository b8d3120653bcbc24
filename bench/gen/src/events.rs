use crate::length;
use crate::plan::{Plan, word};
use crate::rng::Rng;

/// What a trace does often and what seldom, each in percent.
struct Habits {
    /// Submissions before the first turn.
    fill: u64,
    /// A submission beside a turn.
    submit: u64,
    give_up: u64,
    /// A call at a wrong time.
    stray: u64,
    /// A submission that is refused.
    bad: u64,
    /// Pulses in a turn, at most.
    pulses: u64,
    /// Submissions go to few leaves.
    few: bool,
}

impl Habits {
    fn new(rng: &mut Rng, plan: &Plan) -> Self {
        let draws = plan.costs.most().div_ceil(plan.rate).min(6);
        Habits {
            fill: rng.pick(&[0, 2, 20, 80, 300]),
            submit: rng.pick(&[30, 80, 100, 110, 150]),
            give_up: rng.pick(&[0, 5, 20, 60]),
            stray: rng.pick(&[0, 0, 3, 25]),
            bad: rng.pick(&[0, 4, 25]),
            pulses: u64::from(draws) + rng.below(2),
            few: rng.chance(20),
        }
    }
}

struct Writer<'a> {
    rng: &'a mut Rng,
    plan: &'a Plan,
    habits: Habits,
    leaves: Vec<usize>,
    lines: Vec<Vec<u8>>,
}

/// Event lines of at most `room` bytes.
pub fn events(rng: &mut Rng, plan: &Plan, room: usize) -> Vec<Vec<u8>> {
    let habits = Habits::new(rng, plan);
    let mut leaves: Vec<usize> = (0..plan.classes.len()).filter(|number| plan.classes[*number].leaf).collect();
    if habits.few {
        leaves.truncate(3);
    }
    let mut writer = Writer { rng, plan, habits, leaves, lines: Vec::new() };
    let room = room.saturating_sub(9); // leaves enough to fill up to an exact size
    writer.fill(room / 2);
    let mut used = length(&writer.lines);
    while used < room {
        let before = writer.lines.len();
        writer.step();
        used += length(&writer.lines[before..]);
    }
    let mut lines = writer.lines;
    while used > room
        && let Some(line) = lines.pop()
    {
        used -= line.len() + 1;
    }
    lines
}

impl Writer<'_> {
    /// Submissions to all leaves in turn or at random.
    fn fill(&mut self, room: usize) {
        let in_turn = self.rng.chance(50);
        let mut used = 0;
        for i in 0..self.habits.fill as usize {
            let leaf = if in_turn { self.leaves[i % self.leaves.len()] } else { self.rng.pick(&self.leaves) };
            self.submit_to(leaf);
            used += self.lines[i].len() + 1;
            if used > room {
                return;
            }
        }
    }

    /// A turn with submissions around and within it, or a stray call.
    fn step(&mut self) {
        if self.rng.chance(self.habits.stray) {
            let letter = self.rng.pick(b"dpeg");
            return self.call(letter);
        }
        self.maybe_submit(self.habits.submit / 2);
        self.call(b'd');
        self.maybe_submit(self.habits.submit / 4);
        for _ in 0..self.rng.between(self.habits.pulses.saturating_sub(1), self.habits.pulses) {
            self.call(b'p');
        }
        self.maybe_submit(self.habits.submit / 4);
        let closing = if self.rng.chance(self.habits.give_up) { b'g' } else { b'e' };
        self.call(closing);
        if closing == b'e' && self.rng.chance(50) {
            self.call(b'g'); // closes what could not be ended
        }
    }

    fn maybe_submit(&mut self, percent: u64) {
        if self.rng.chance(percent) {
            self.submit();
        }
    }

    fn submit(&mut self) {
        if self.rng.chance(self.habits.bad) {
            return self.submit_badly();
        }
        let leaf = self.rng.pick(&self.leaves);
        self.submit_to(leaf);
    }

    fn submit_to(&mut self, class: usize) {
        let cost = self.plan.costs.one(self.rng);
        self.submit_line(&self.plan.classes[class].name, cost);
    }

    /// To an unknown class or one with children, or at a cost out of range.
    fn submit_badly(&mut self) {
        let known = self.rng.pick(&self.leaves);
        let known = &self.plan.classes[known].name;
        let any = &self.plan.classes[self.rng.index(self.plan.classes.len())].name;
        let len = self.rng.between(1, 10) as usize;
        let unknown = word(self.rng, len);
        match self.rng.below(7) {
            0 => self.submit_line(any, 1),
            1 => self.submit_line("root", 7),
            2 => self.submit_line(&unknown, 7),
            3 => self.submit_line(&format!("{known}x"), 7),
            4 => self.submit_line(&known[..known.len().div_ceil(2)], 7),
            5 => {
                let cost = self.rng.pick(&[0, 1, 65_535, 65_536, u32::MAX]);
                self.submit_line(known, cost);
            }
            _ => {
                let cost = self.rng.pick(&[0, 65_536]);
                self.submit_line(any, cost);
            }
        }
    }

    fn submit_line(&mut self, name: &str, cost: u32) {
        self.lines.push(format!("a {name} {cost}").into_bytes());
    }

    fn call(&mut self, letter: u8) {
        self.lines.push(vec![letter]);
    }
}
