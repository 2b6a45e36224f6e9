//! Counting cases and keeping the first difference; the stored form of a case.
use std::fmt;
use std::ops::Range;

/// What each lent number of a stored case holds before the call, and after it where it is left alone.
pub const LENT: u32 = 7;

/// Numbers of 64 bits in a case, whose numbers have 32: each as its low and its high half.
pub fn halves(numbers: &[u64]) -> Vec<u32> {
    numbers.iter().flat_map(|x| [*x as u32, (*x >> 32) as u32]).collect()
}

/// A case as one line of decimal numbers: the operation, its inputs and the expected answers, a list as its length
/// and then its numbers.
#[derive(Clone)]
pub struct Line {
    numbers: Vec<u32>,
    /// 0 for none
    refusal: u32,
    /// the places of the refusal and the lent numbers after it, or of what is answered without one; a list may follow
    answer: Range<usize>,
    /// the places of lent numbers that stand among the inputs
    early: Vec<usize>,
    /// the place of the last number that is no list's length
    last: usize,
}

impl Line {
    pub fn of(operation: u32) -> Line {
        Line { numbers: vec![operation], refusal: 0, answer: 0..0, early: vec![], last: 0 }
    }

    pub fn list(mut self, numbers: &[u32]) -> Line {
        self.numbers.push(numbers.len() as u32);
        numbers.iter().fold(self, |line, x| line.number(*x))
    }

    pub fn number(mut self, number: u32) -> Line {
        self.last = self.numbers.len();
        self.numbers.push(number);
        self
    }

    /// A number of 64 bits.
    pub fn wide(self, number: u64) -> Line {
        halves(&[number]).iter().fold(self, |line, half| line.number(*half))
    }

    /// What a lent number is after the call, among the inputs.
    pub fn early(mut self, left: u32) -> Line {
        self.early.push(self.numbers.len());
        self.number(left)
    }

    /// A refusal and the lent numbers, which it leaves alone.
    pub fn answer(self, refusal: u32, values: &[u32]) -> Line {
        let left: Vec<u32> = values.iter().map(|x| if refusal == 0 { *x } else { LENT }).collect();
        self.answer_left(refusal, &left)
    }

    /// A refusal and what each lent number is after the call, where it may tell something beside its own number.
    pub fn answer_left(self, refusal: u32, left: &[u32]) -> Line {
        let start = self.numbers.len();
        let mut line = left.iter().fold(self.number(refusal), |line, x| line.number(*x));
        line.refusal = refusal;
        line.answer = start..line.numbers.len();
        line
    }

    /// A number of 64 bits that is all the answer, with no refusal, as the list of its halves.
    pub fn answer_wide(self, number: u64) -> Line {
        let start = self.numbers.len() + 1;
        let mut line = self.list(&halves(&[number]));
        line.answer = start..line.numbers.len();
        line
    }

    /// A list that is all the answer, with no refusal.
    pub fn answer_list(self, numbers: &[u32]) -> Line {
        let start = self.numbers.len();
        let mut line = self.list(numbers);
        line.answer = start..start;
        line
    }

    /// How many numbers other than 0 its answers have, none where it is refused.
    fn told(&self) -> usize {
        if self.refusal != 0 { 0 } else { self.numbers[self.answer.start..].iter().filter(|x| **x != 0).count() }
    }

    /// This line with another number in one of its answers, for each of them.
    fn changed(&self) -> Vec<Wrong> {
        let changed = |at: usize| {
            let mut line = self.clone();
            line.numbers[at] = line.numbers[at].wrapping_add(1);
            line
        };
        let answers = self.early.iter().copied().chain(self.answer.clone());
        let answers = answers.chain((!self.answer.contains(&self.last)).then_some(self.last));
        answers.map(|at| (format!("another number at place {at}"), changed(at), "differs")).collect()
    }

    /// Lines made of this one that the replay program must find.
    fn wrong(&self) -> Vec<Wrong> {
        let mut short = self.clone();
        short.numbers.pop();
        let mut all = self.changed();
        all.push(("one number fewer".to_string(), short, "bad"));
        all.push(("one number more".to_string(), self.clone().number(0), "bad"));
        all
    }
}

/// A line that the replay program must find, with what is wrong with it and what is said of it.
type Wrong = (String, Line, &'static str);

impl fmt::Display for Line {
    fn fmt(&self, f: &mut fmt::Formatter<'_>) -> fmt::Result {
        let words: Vec<String> = self.numbers.iter().map(u32::to_string).collect();
        f.write_str(&words.join(" "))
    }
}

/// A case for the replay program, with a word on why it is there.
pub struct Stored {
    pub what: String,
    pub line: Line,
}

/// The wrong lines made of that one of the cases which tells most; and those with another answer made of the first that tells
/// something beside a refusal, a part of a template at fault.
pub fn wrong(cases: &[Stored]) -> Vec<Wrong> {
    let lines = || cases.iter().map(|stored| &stored.line);
    let mut all = lines().max_by_key(|line| line.told()).expect("a stored case").wrong();
    let at_fault = lines().find(|line| (19..=21).contains(&line.refusal));
    all.extend(at_fault.into_iter().flat_map(Line::changed).map(|(what, line, said)| (format!("a part at fault, {what}"), line, said)));
    all
}

#[derive(Default)]
pub struct Tally {
    cases: u64,
    differences: u64,
    first: Option<String>,
}

impl Tally {
    /// Counts one case. `describe` tells what differs and the case as a line; it is asked for the first difference.
    pub fn case<L: fmt::Display>(&mut self, same: bool, describe: impl FnOnce() -> (String, L)) {
        self.cases += 1;
        if !same {
            self.differences += 1;
            self.first.get_or_insert_with(|| {
                let (what, line) = describe();
                format!("{what}; the case with the expected answers:\n{line}")
            });
        }
    }

    /// Prints the result and says whether it is good. An operation without a case would show nothing.
    pub fn report(&self, name: &str) -> bool {
        match &self.first {
            None => println!("{name}: {} cases, no difference", self.cases),
            Some(first) => println!("{name}: {} cases, {} DIFFER; first: {first}", self.cases, self.differences),
        }
        self.differences == 0 && self.cases > 0
    }
}
