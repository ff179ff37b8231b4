//! Document 01, "The token rules": rules 1 to 7 played by halves that know only their own notes.
//! The two halves of a handheld (document 02, 3/13) have no step between them.
//!
//! Nothing here looks at the map from above once the halves are built. Each half keeps its
//! notes and reads its inbox; a post office carries one message at a time and keeps the log.

use std::collections::VecDeque;

use crate::map::{in_half, is_in_half, out_half, radio_of, Question};

/// No run of document 01 can send this many messages; a fault must not run for ever.
const FAR_TOO_MANY_MESSAGES: usize = 100_000;

#[derive(Clone, Copy, Debug, PartialEq, Eq)]
pub enum Kind {
    Pdt,
    PdtB,
    Pmt,
    Done,
}

#[derive(Clone, Copy, Debug, PartialEq, Eq)]
pub struct Message {
    pub kind: Kind,
    pub round: usize,
    pub from: usize,
    pub to: usize,
}

/// What a half wants after it has read a message.
enum Wish {
    Post(Message),
    RoundFound,
    RoundFailed,
    DoneArrived,
}

/// One end of a step, as the half at that end knows it.
/// Both ends keep the mark, so two notes of one step can be held against each other.
#[derive(Clone, Debug)]
pub struct StepNote {
    pub other: usize,
    pub leaves_here: bool,
    pub marked: bool,
}

impl StepNote {
    /// Unmarked steps are walked forwards, marked ones backwards only.
    fn can_be_walked_from_here(&self) -> bool {
        self.leaves_here != self.marked
    }
}

#[derive(Clone, Copy, Debug, PartialEq, Eq)]
enum Role {
    Source,
    Destination,
    Inner,
}

/// A half with its notes.
#[derive(Debug)]
pub struct Half {
    number: usize,
    role: Role,
    /// In the order of rule 3: other radios by rising number, its own other half last.
    pub steps: Vec<StepNote>,
    /// The last round in which it was entered; 0 before the first.
    entered_in_round: usize,
    asked_by: Option<usize>,
    waiting_for: Option<usize>,
    still_to_try: VecDeque<usize>,
    inbox: VecDeque<Message>,
}

impl Half {
    fn new(number: usize, role: Role, steps: Vec<StepNote>) -> Half {
        Half {
            number,
            role,
            steps,
            entered_in_round: 0,
            asked_by: None,
            waiting_for: None,
            still_to_try: VecDeque::new(),
            inbox: VecDeque::new(),
        }
    }

    pub fn steps_it_can_walk(&self) -> VecDeque<usize> {
        self.steps
            .iter()
            .filter(|step| step.can_be_walked_from_here())
            .map(|step| step.other)
            .collect()
    }

    fn write(&self, kind: Kind, round: usize, to: usize) -> Wish {
        Wish::Post(Message {
            kind,
            round,
            from: self.number,
            to,
        })
    }

    /// Rules 2 and 4: from now on the half is entered in this round, and searches.
    fn enter(&mut self, round: usize, asked_by: Option<usize>) {
        self.entered_in_round = round;
        self.asked_by = asked_by;
        self.waiting_for = None;
        self.still_to_try = self.steps_it_can_walk();
    }

    /// Rule 3: one PDT at a time. Rule 6: with nothing left to try, PDT_B, or S fails the round.
    fn try_next(&mut self, round: usize) -> Wish {
        self.waiting_for = self.still_to_try.pop_front();
        if let Some(next) = self.waiting_for {
            return self.write(Kind::Pdt, round, next);
        }
        match self.asked_by {
            Some(asker) => self.write(Kind::PdtB, round, asker),
            None => Wish::RoundFailed,
        }
    }

    fn reverse_mark_of_step_to(&mut self, other: usize) -> Result<(), String> {
        let number = self.number;
        let step = self.steps.iter_mut().find(|step| step.other == other);
        let step = step.ok_or_else(|| format!("half {number} has no step to half {other}"))?;
        step.marked = !step.marked;
        Ok(())
    }

    /// The asker will reverse the step it sent over, so this end's note of it turns as well.
    fn reply_found(&mut self, round: usize, asker: usize) -> Result<Wish, String> {
        self.reverse_mark_of_step_to(asker)?;
        Ok(self.write(Kind::Pmt, round, asker))
    }

    fn read_inbox(&mut self) -> Result<Wish, String> {
        let message = self
            .inbox
            .pop_front()
            .ok_or("a half was called with an empty inbox")?;
        match message.kind {
            Kind::Pdt => self.read_pdt(message),
            Kind::PdtB => self.read_pdt_b(message),
            Kind::Pmt => self.read_pmt(message),
            Kind::Done => self.read_done(message),
        }
    }

    /// Rules 4 and 5.
    fn read_pdt(&mut self, message: Message) -> Result<Wish, String> {
        if self.role == Role::Destination {
            self.entered_in_round = message.round;
            return self.reply_found(message.round, message.from);
        }
        if self.entered_in_round == message.round {
            return Ok(self.write(Kind::PdtB, message.round, message.from));
        }
        self.enter(message.round, Some(message.from));
        Ok(self.try_next(message.round))
    }

    fn read_pdt_b(&mut self, message: Message) -> Result<Wish, String> {
        self.expect_reply_from(message.from)?;
        Ok(self.try_next(message.round))
    }

    /// Rule 6: turn the step that led to T, then tell the asker; S has its path.
    fn read_pmt(&mut self, message: Message) -> Result<Wish, String> {
        self.expect_reply_from(message.from)?;
        self.reverse_mark_of_step_to(message.from)?;
        match self.asked_by {
            Some(asker) => self.reply_found(message.round, asker),
            None => Ok(Wish::RoundFound),
        }
    }

    fn expect_reply_from(&mut self, sender: usize) -> Result<(), String> {
        let expected = self.waiting_for.take();
        if expected == Some(sender) {
            return Ok(());
        }
        Err(format!(
            "half {} waited for {expected:?} and got a reply from half {sender}",
            self.number
        ))
    }

    /// Rule 7: an in half passes DONE to its own out half, an out half over its one marked link step.
    fn read_done(&mut self, message: Message) -> Result<Wish, String> {
        if self.role == Role::Destination {
            return Ok(Wish::DoneArrived);
        }
        if is_in_half(self.number) {
            return Ok(self.write(Kind::Done, message.round, out_half(radio_of(self.number))));
        }
        let marked = self.marked_link_steps();
        match marked.as_slice() {
            [only] => Ok(self.write(Kind::Done, message.round, *only)),
            _ => Err(format!(
                "half {} got DONE with marked link steps to {marked:?}",
                self.number
            )),
        }
    }

    /// The in halves to which a marked link step leads from this half, by rising radio.
    fn marked_link_steps(&self) -> Vec<usize> {
        self.steps
            .iter()
            .filter(|step| {
                step.leaves_here && step.marked && radio_of(step.other) != radio_of(self.number)
            })
            .map(|step| step.other)
            .collect()
    }
}

/// Holds the halves, carries one message at a time, and keeps the log.
struct PostOffice {
    halves: Vec<Option<Half>>,
    log: Vec<Message>,
}

impl PostOffice {
    fn half(&mut self, number: usize) -> Result<&mut Half, String> {
        let half = self.halves.get_mut(number).and_then(|half| half.as_mut());
        half.ok_or_else(|| format!("half {number} does not exist"))
    }

    /// Carries messages until nobody has one to send, and tells the last wish.
    fn carry(&mut self, first: Wish) -> Result<Wish, String> {
        let mut wish = first;
        while let Wish::Post(message) = wish {
            if self.log.len() >= FAR_TOO_MANY_MESSAGES {
                return Err(format!(
                    "still sending after {FAR_TOO_MANY_MESSAGES} messages"
                ));
            }
            self.log.push(message);
            let receiver = self.half(message.to)?;
            receiver.inbox.push_back(message);
            wish = receiver.read_inbox()?;
        }
        Ok(wish)
    }

    /// One round; true if it found a path.
    fn play_round(&mut self, source_half: usize, round: usize) -> Result<bool, String> {
        let source = self.half(source_half)?;
        source.enter(round, None);
        let first = source.try_next(round);
        match self.carry(first)? {
            Wish::RoundFound => Ok(true),
            Wish::RoundFailed => Ok(false),
            _ => Err(format!("round {round} stopped before S ended it")),
        }
    }

    /// Rule 7: each DONE is carried to T before the next leaves.
    fn play_done(&mut self, source_half: usize, round: usize) -> Result<(), String> {
        let source = self.half(source_half)?;
        for first in source.marked_link_steps() {
            let done = Message {
                kind: Kind::Done,
                round,
                from: source_half,
                to: first,
            };
            match self.carry(Wish::Post(done))? {
                Wish::DoneArrived => {}
                _ => return Err(format!("the DONE sent to half {first} never came to T")),
            }
        }
        Ok(())
    }
}

/// What the search leaves: the log and the halves with their last notes.
pub struct Search {
    pub rounds: usize,
    pub rounds_that_found: usize,
    pub log: Vec<Message>,
    pub halves: Vec<Option<Half>>,
}

impl Search {
    pub fn last_round_failed(&self) -> bool {
        self.rounds_that_found < self.rounds
    }

    /// R of document 01, "The cut", when the last round failed.
    pub fn entered_in_last_round(&self, number: usize) -> bool {
        let half = self.halves.get(number).and_then(|half| half.as_ref());
        half.is_some_and(|half| half.entered_in_round == self.rounds)
    }
}

/// Rule 1 and rule 7: all rounds, then the DONE messages.
pub fn search(question: &Question) -> Result<Search, String> {
    let source_half = out_half(question.source);
    let mut office = PostOffice {
        halves: build_halves(question),
        log: Vec::new(),
    };
    let mut rounds = 0;
    let mut rounds_that_found = 0;
    while rounds_that_found < question.wanted && rounds_that_found == rounds {
        rounds += 1;
        rounds_that_found += usize::from(office.play_round(source_half, rounds)?);
    }
    office.play_done(source_half, rounds)?;
    Ok(Search {
        rounds,
        rounds_that_found,
        log: office.log,
        halves: office.halves,
    })
}

/// S has only its out half and T only its in half.
fn build_halves(question: &Question) -> Vec<Option<Half>> {
    let mut halves = Vec::new();
    for radio in 0..question.map.radios {
        halves.push((radio != question.source).then(|| build_in_half(question, radio)));
        halves.push((radio != question.destination).then(|| build_out_half(question, radio)));
    }
    halves
}

fn role_of(question: &Question, radio: usize) -> Role {
    if radio == question.source {
        return Role::Source;
    }
    if radio == question.destination {
        return Role::Destination;
    }
    Role::Inner
}

/// Steps arrive here from the out half of every neighbour but T, which has none.
fn build_in_half(question: &Question, radio: usize) -> Half {
    let mut steps = Vec::new();
    for neighbour in question.map.neighbours(radio) {
        if neighbour != question.destination {
            steps.push(StepNote {
                other: out_half(neighbour),
                leaves_here: false,
                marked: false,
            });
        }
    }
    if question.forwards(radio) {
        steps.push(StepNote {
            other: out_half(radio),
            leaves_here: true,
            marked: false,
        });
    }
    Half::new(in_half(radio), role_of(question, radio), steps)
}

/// Steps leave here to the in half of every neighbour but S, which has none.
fn build_out_half(question: &Question, radio: usize) -> Half {
    let mut steps = Vec::new();
    for neighbour in question.map.neighbours(radio) {
        if neighbour != question.source {
            steps.push(StepNote {
                other: in_half(neighbour),
                leaves_here: true,
                marked: false,
            });
        }
    }
    if question.forwards(radio) {
        steps.push(StepNote {
            other: in_half(radio),
            leaves_here: false,
            marked: false,
        });
    }
    Half::new(out_half(radio), role_of(question, radio), steps)
}
