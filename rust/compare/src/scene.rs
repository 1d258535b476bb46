//! A run file in the making: each event pushed runs on a host, so that the next can be chosen by
//! what is there.

use second::event::{self, Body};
use second::{Answer, Credentials, Event, Host, Report, Rule, Waking, ENTRY, HEAD};

use crate::random::Rng;

/// The mode of a set that all may read and alter.
pub const OPEN: u16 = 0o666;

pub struct Scene {
    pub rng: Rng,
    host: Host,
    bodies: Vec<Body>,
    /// Bytes of the file so far, and at most.
    size: usize,
    limit: usize,
    full: bool,
}

/// A live set, as the scripts see it.
#[derive(Clone)]
pub struct Target {
    pub identifier: i32,
    pub values: Vec<i32>,
    pub owner: u32,
    pub group: u32,
    /// Every process may read and alter.
    pub open: bool,
}

impl Scene {
    /// The bodies of a file, after the script was played until no more fitted into `limit` bytes.
    pub fn played(play: fn(&mut Scene), rng: Rng, limit: usize) -> Vec<Body> {
        let mut scene = Scene::new(rng, limit);
        while !scene.is_full() {
            play(&mut scene);
        }
        scene.bodies
    }

    fn new(rng: Rng, limit: usize) -> Scene {
        let host = Host::new(Rule::Quick);
        Scene { rng, host, bodies: Vec::new(), size: HEAD, limit, full: false }
    }

    /// No room was left for an event: whatever is pushed now is dropped.
    pub fn is_full(&self) -> bool {
        self.full
    }

    /// Bytes that are left.
    pub fn room(&self) -> usize {
        self.limit.saturating_sub(self.size)
    }

    /// Adds an event and gives its answer.
    pub fn push(&mut self, body: Body) -> Answer {
        let grown = self.size + ENTRY + body.len();
        self.full |= grown > self.limit;
        if self.full {
            return Answer::Event(Report::default());
        }
        let answer = handle(&mut self.host, &body);
        self.size = grown;
        self.bodies.push(body);
        answer
    }

    /// Adds an event as it is chosen now.
    pub fn add(&mut self, choose: impl Fn(&mut Scene) -> Body) -> Answer {
        let body = choose(self);
        self.push(body)
    }

    /// Adds the first of some candidates that gives a wanted answer, else the last of them.
    pub fn seek(
        &mut self,
        wanted: impl Fn(&Answer) -> bool,
        candidate: impl Fn(&mut Scene) -> Body,
    ) -> Answer {
        for _ in 0..12 {
            let body = candidate(self);
            if wanted(&handle(&mut self.host.clone(), &body)) {
                return self.push(body);
            }
        }
        self.add(candidate)
    }

    pub fn targets(&self) -> Vec<Target> {
        let target = |(identifier, set): (i32, &second::Set)| Target {
            identifier,
            values: set.values[..usize::from(set.count)].to_vec(),
            owner: set.owner,
            group: set.group,
            open: set.mode & OPEN == OPEN,
        };
        self.host.live_sets().map(target).collect()
    }

    /// Any live set; one is created where there is none.
    pub fn target(&mut self) -> Target {
        let mut targets = self.targets();
        if targets.is_empty() {
            return self.open_set(1);
        }
        let chosen = self.rng.below(targets.len());
        targets.swap_remove(chosen)
    }

    /// A set with at least `count` semaphores, open to all; made where there is none.
    pub fn open_set(&mut self, count: usize) -> Target {
        let fits = |target: &Target| target.open && target.values.len() >= count;
        if let Some(target) = self.targets().into_iter().find(fits) {
            return target;
        }
        let count = self.rng.between(count as i32, 8) as u8;
        self.new_set(count)
    }

    /// A new set open to all; where there is no room for it, another is removed.
    pub fn new_set(&mut self, count: u8) -> Target {
        self.rouse(1);
        if let [_, _, _, last] = &self.targets()[..] {
            self.remove(last);
        }
        self.created(self.someone(), count, OPEN)
    }

    /// Creates sets open to all until there are so many.
    pub fn create_up_to(&mut self, sets: usize) {
        self.rouse(1);
        while self.targets().len() < sets && !self.is_full() {
            let count = self.rng.between(1, 8) as u8;
            self.push(event::create(self.someone(), count, OPEN));
        }
    }

    /// A set that this process creates.
    pub fn created(&mut self, creator: u8, count: u8, mode: u16) -> Target {
        let Credentials { user, group } = self.acts_as(creator);
        let identifier = match self.push(event::create(creator, count, mode)) {
            Answer::Event(report) => report.value,
            Answer::Query(_) | Answer::Reading(_) => 0,
        };
        let values = vec![0; count.into()];
        Target { identifier, values, owner: user, group, open: mode & OPEN == OPEN }
    }

    /// A setting of all values that changes one at most, and leaves the others as they are.
    pub fn setting(&self, identifier: i32, number: u16, value: i32) -> Body {
        let mut values = self.values(identifier);
        if let Some(present) = values.get_mut(usize::from(number)) {
            *present = value;
        }
        event::set_all(self.someone(), identifier, &values)
    }

    /// The values of a set; none where it is not live.
    pub fn values(&self, identifier: i32) -> Vec<i32> {
        let set = self.targets().into_iter().find(|target| target.identifier == identifier);
        set.map_or(Vec::new(), |target| target.values)
    }

    fn acts_as(&self, process: u8) -> Credentials {
        self.host.credentials()[usize::from(process) - 1]
    }

    /// Removes the set; where nobody awake may, one becomes user 0.
    pub fn remove(&mut self, target: &Target) {
        let remover = self.owner(target).unwrap_or_else(|| {
            let process = self.someone();
            self.push(event::act_as(process, 0, 0));
            process
        });
        self.push(event::remove(remover, target.identifier));
    }

    /// A process awake whose user is the set's owner, or 0.
    pub fn owner(&self, target: &Target) -> Option<u8> {
        let owns = |&process: &u8| [0, target.owner].contains(&self.acts_as(process).user);
        self.awake().into_iter().find(owns)
    }

    /// The time last told.
    pub fn time(&self) -> u64 {
        self.host.time()
    }

    /// The times at which waits of sleepers are over.
    pub fn ends(&self) -> Vec<u64> {
        self.host.ends().collect()
    }

    pub fn is_asleep(&self, process: u8) -> bool {
        self.host.asleep() >> (process - 1) & 1 != 0
    }

    pub fn asleep(&self) -> Vec<u8> {
        (1..=8).filter(|&process| self.is_asleep(process)).collect()
    }

    pub fn awake(&self) -> Vec<u8> {
        (1..=8).filter(|&process| !self.is_asleep(process)).collect()
    }

    pub fn process(&mut self) -> u8 {
        self.rng.between(1, 8) as u8
    }

    /// A process that is awake, by turns; where all sleep, one of them.
    pub fn someone(&self) -> u8 {
        let turn = self.bodies.len();
        match &self.awake()[..] {
            [] => turn as u8 % 8 + 1,
            awake => awake[turn % awake.len()],
        }
    }

    /// A process that is awake, if there is one.
    pub fn caller(&mut self) -> u8 {
        match &self.awake()[..] {
            [] => self.process(),
            awake => self.rng.pick(awake),
        }
    }

    /// Wakes some where fewer than so many are awake.
    pub fn rouse(&mut self, awake: usize) {
        for process in self.asleep().into_iter().skip(8 - awake) {
            self.push(event::signal(process));
        }
    }

    /// Two different processes, awake; where there are no such, some are woken.
    pub fn two_callers(&mut self) -> (u8, u8) {
        self.rouse(2);
        let mut awake = self.awake();
        self.rng.shuffle(&mut awake);
        match awake[..] {
            [one, two, ..] => (one, two),
            _ => (1, 2),
        }
    }

    /// By signals and exits.
    pub fn wake_all(&mut self) {
        for process in self.asleep() {
            let signal = self.rng.once_in(2);
            self.push(if signal { event::signal(process) } else { event::exit(process) });
        }
    }

    /// Wakes everybody and puts every semaphore of the set to 0.
    pub fn calm(&mut self, identifier: i32) {
        self.wake_all();
        let values = self.values(identifier);
        for (number, _) in values.iter().enumerate().filter(|(_, &value)| value != 0) {
            self.push(event::set_value(self.someone(), identifier, number as u16, 0));
        }
    }
}

fn handle(host: &mut Host, body: &[u8]) -> Answer {
    host.handle(&Event::decode(body).expect("scripts push good bodies"))
}

/// The wakings of an answer.
pub fn wakings(answer: &Answer) -> &[Waking] {
    match answer {
        Answer::Event(report) => report.wakings.as_slice(),
        Answer::Query(_) | Answer::Reading(_) => &[],
    }
}

/// Does the event wake somebody with this code?
pub fn wakes_with(answer: &Answer, code: u8) -> bool {
    wakings(answer).iter().any(|waking| waking.code == code)
}

#[cfg(test)]
mod tests {
    use super::*;

    /// Nobody asleep asks while another is awake, and it is not always the same.
    #[test]
    fn someone_is_awake_by_turns() {
        let mut scene = Scene::new(Rng::new(3, 0), 500);
        let id = scene.new_set(1).identifier;
        for process in [2, 5] {
            scene.push(event::operate(process, id, &[(0, -1, 0)]));
        }
        let mut seen = [1; 6].map(|number| {
            let someone = scene.someone();
            scene.push(event::query(someone, id, number));
            someone
        });
        seen.sort_unstable();
        assert_eq!(seen, [1, 3, 4, 6, 7, 8]);
    }

    #[test]
    fn a_set_is_removed_by_one_that_may() {
        let mut scene = Scene::new(Rng::new(3, 0), 500);
        scene.push(event::act_as(1, 7, 7));
        let target = scene.created(1, 1, OPEN);
        for process in 1..=8 {
            scene.push(event::act_as(process, 5, 7));
        }
        assert_eq!(scene.owner(&target), None);
        scene.remove(&target);
        assert!(scene.targets().is_empty() && !scene.is_full());
    }
}
