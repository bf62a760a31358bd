//! What the second planner's answers were, so that a test can tell what it
//! covered.

use second::{Answer, Balanced, Call, Review, Settled, Trial, Verdict};

use crate::journal::kind;

/// How often each thing was seen.
#[derive(Clone, Debug, Default)]
pub struct Seen {
    /// By kind of call and by refusal number, 0 for none.
    pub calls: [[usize; 14]; 10],
    /// Reviews of sheets on which some batch gains, and on which none does.
    pub gaining: usize,
    pub settled: usize,
    pub trials: Trials,
    /// Balancings with a group and without one, and those that moved a batch.
    pub grouped: usize,
    pub ungrouped: usize,
    pub shifted: usize,
    /// Settlings that moved a batch, and those with more moves than records.
    pub moved: usize,
    pub repeated: usize,
    /// The most records of one answer.
    pub most_records: usize,
}

/// What trials came to.
#[derive(Clone, Debug, Default)]
pub struct Trials {
    pub passed: usize,
    pub failed: usize,
    /// Passes that made steps.
    pub worked: usize,
    /// Failures with fewer members than there are instruments, and those of
    /// them with more than one.
    pub partial: usize,
    pub several: usize,
    /// Trials of more than 100,000 steps, passed and failed.
    pub long_passes: usize,
    pub long_failures: usize,
    /// The most steps of one trial.
    pub most: u32,
}

impl Trials {
    fn add(&mut self, other: &Trials) {
        self.passed += other.passed;
        self.failed += other.failed;
        self.worked += other.worked;
        self.partial += other.partial;
        self.several += other.several;
        self.long_passes += other.long_passes;
        self.long_failures += other.long_failures;
        self.most = self.most.max(other.most);
    }
}

impl Seen {
    /// Count a call on a sheet of `m` instruments by what it was answered.
    pub fn answer(&mut self, call: &Call, answer: &Answer, m: u32) {
        let mut refused = 0;
        match answer {
            Answer::Done => {}
            Answer::Refused(refusal) => refused = refusal.number(),
            Answer::Review(review) => self.review(review),
            Answer::Trial(trial) => self.trial(trial, m as usize),
            Answer::Balance(balanced) => self.balance(balanced),
            Answer::Settle(settled) => self.settle(settled),
        }
        self.calls[kind(call) as usize][refused as usize] += 1;
    }

    fn review(&mut self, review: &Review) {
        match review.gains {
            Some(_) => self.gaining += 1,
            None => self.settled += 1,
        }
    }

    fn balance(&mut self, balanced: &Balanced) {
        match balanced.group {
            Some(_) => self.grouped += 1,
            None => self.ungrouped += 1,
        }
        let records = balanced.records.len();
        self.shifted += (records > 0) as usize;
        self.most_records = self.most_records.max(records);
    }

    fn settle(&mut self, settled: &Settled) {
        let records = settled.records.len();
        self.moved += (records > 0) as usize;
        self.repeated += (settled.moves > records as u64) as usize;
        self.most_records = self.most_records.max(records);
    }

    fn trial(&mut self, trial: &Trial, m: usize) {
        let steps = trial.raises + trial.bumps;
        let long = (steps > 100_000) as usize;
        let t = &mut self.trials;
        match &trial.verdict {
            Verdict::Pass(_) => {
                t.passed += 1;
                t.worked += (steps > 0) as usize;
                t.long_passes += long;
            }
            Verdict::Fail(group) => {
                t.failed += 1;
                t.partial += (group.len() < m) as usize;
                t.several += (1 < group.len() && group.len() < m) as usize;
                t.long_failures += long;
            }
        }
        t.most = t.most.max(steps);
    }

    /// Count what another has seen as well.
    pub fn add(&mut self, other: &Seen) {
        for (ours, theirs) in self.calls.iter_mut().zip(other.calls) {
            for (sum, count) in ours.iter_mut().zip(theirs) {
                *sum += count;
            }
        }
        self.gaining += other.gaining;
        self.settled += other.settled;
        self.trials.add(&other.trials);
        self.grouped += other.grouped;
        self.ungrouped += other.ungrouped;
        self.shifted += other.shifted;
        self.moved += other.moved;
        self.repeated += other.repeated;
        self.most_records = self.most_records.max(other.most_records);
    }
}
