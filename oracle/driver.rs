//! Carries out a job on the source and writes its answers. `build` puts this file where the tests
//! of numeric.rs would stand: a child module of `numeric` sees its private state.

use super::{
    Analysis, Argument, ArgumentId, BinaryOp, Binding, Bound, Budget, Classification, Error,
    Expression, ExpressionId, Failure, Guard, Input, Integrality, Interval, Rule, RuleBounds,
    RuleId, Status, Values, analyze,
};
use crate::job::{Call, Job, Key, Malformed, REASONS};
use crate::{Limits, Oracle, Resource, Statistics, Stop, Widening};
use std::cmp::Ordering;
use std::fmt::Display;

// What the port can hold (document 01). Over a shape: refusal 1; over a table: refusal 2.
const WIDTH: usize = 16;
const NAME_BYTES: usize = 64;
const NESTING: usize = 64;
const RULE_SLOTS: usize = 16;
const RULE_BINDINGS: usize = 32;
const RULE_GUARDS: usize = 32;
const RULE_HEADS: usize = 16;
const PREDICATES: usize = 64;
const POSITIONS: usize = 256;
const CONSTANTS: usize = 1_024;
const EXPRESSIONS: usize = 1_024;
const RULES: usize = 256;
/// The most thresholds that may stand before `constant` and `seed_interval`.
const THRESHOLDS_BEFORE: usize = 4_088;
/// The most provenance records that may stand before a seed or a rule with a context.
const PROVENANCE_BEFORE: usize = 1_008;

// The three kinds of the Rust's InvalidInput (document 02, request 3).
/// An id or a position does not exist.
const MISSING: u32 = 5;
/// The low end exceeds the high one.
const DESCENDING: u32 = 13;
/// A rule does not have the slot.
const NO_SLOT: u32 = 14;

/// Why the calls on one store end.
#[derive(Debug)]
enum Leave {
    Fresh(Limits),
    End,
    Malformed,
}

/// The reader of document 01.
struct Reader;
impl Values for Reader {
    type Key = Key;
    type Error = Leave;

    fn classify(
        &self,
        key: &Key,
        limits: &Limits,
        budget: &Budget,
    ) -> Result<Classification, Error<Leave>> {
        match key {
            Key::Number(number) => Ok(Classification {
                number: Some(*number),
                retain: true,
            }),
            Key::Name(bytes) => {
                let length = bytes.len() as u64;
                budget.bytes(length)?;
                Ok(Classification {
                    number: None,
                    retain: length <= limits.max_symbol_bytes,
                })
            }
        }
    }

    fn compare(&self, left: &Key, right: &Key, _: &Budget) -> Result<Ordering, Error<Leave>> {
        Ok(left.cmp(right))
    }
}

type Store<'a> = Input<'a, Reader, u32>;
type Closed = Analysis<Key, u32>;

impl Oracle {
    /// The lines that answer a job.
    pub fn answer(text: &[u8]) -> String {
        let mut session = Session {
            job: Job::new(text),
            lines: String::new(),
        };
        let mut leave = session.begin();
        while let Leave::Fresh(limits) = leave {
            leave = session.store(limits);
        }
        if matches!(leave, Leave::Malformed) {
            session.line("malformed");
        }
        session.lines
    }
}

struct Session<'t> {
    job: Job<'t>,
    lines: String,
}

impl Session<'_> {
    fn line(&mut self, line: impl Display) {
        self.lines.push_str(&format!("{line}\n"));
    }

    /// A job begins with a fresh store; any other text, an empty one too, is none.
    fn begin(&mut self) -> Leave {
        match self.job.call() {
            Ok(Some(Call::Fresh(limits))) => Leave::Fresh(limits),
            _ => Leave::Malformed,
        }
    }

    /// The next call on this store, or why there is none.
    fn call(&mut self) -> Result<Call, Leave> {
        match self.job.call() {
            Ok(Some(Call::Fresh(limits))) => Err(Leave::Fresh(limits)),
            Ok(Some(call)) => Ok(call),
            Ok(None) => Err(Leave::End),
            Err(Malformed) => Err(Leave::Malformed),
        }
    }

    /// One store from its fresh call to the next one.
    fn store(&mut self, limits: Limits) -> Leave {
        if limits.max_values_per_argument > WIDTH {
            self.line("refused 1");
            return self.no_store();
        }
        self.line("ok");
        match analyze(&Reader, limits, |input| self.open(input)) {
            Ok(analysis) => self.closed(&analysis),
            Err(Failure {
                error: Error::Read(leave),
                ..
            }) => leave,
            Err(failure) => panic!("a run cannot end like this: {:?}", failure.error),
        }
    }

    fn no_store(&mut self) -> Leave {
        loop {
            match self.call() {
                Ok(Call::Counts) => self.line(counts(Statistics::default())),
                Ok(Call::StopContext) => self.line("c -"),
                Ok(_) => self.line("refused 1"),
                Err(leave) => return leave,
            }
        }
    }

    /// The calls up to the run. A refused one leaves the store usable, so it is answered here
    /// and not handed to `analyze`.
    fn open(&mut self, input: &mut Store<'_>) -> Result<(), Error<Leave>> {
        let mut nesting = Vec::new();
        loop {
            match self.call().map_err(Error::Read)? {
                Call::Run => return Ok(()),
                Call::Counts => self.line(counts(input.budget.statistics())),
                Call::StopContext => self.line("c -"),
                Call::ReadArgument(_)
                | Call::ReadContexts(_)
                | Call::ReadSlot(..)
                | Call::ReadConstant(_) => self.line("refused 1"),
                call if lacks_shape(&call, &nesting) => self.line("refused 1"),
                call if could_overfill(&call, input) => self.line("refused 2"),
                call => {
                    let depth = call_nesting(&call, &nesting);
                    let cause = first_cause(&call, input).err();
                    self.outcome(carry_out(input, call), cause);
                    // An id is new exactly if the table has grown; an equal expression is as deep.
                    if nesting.len() < input.expressions.len() {
                        nesting.push(depth);
                    }
                }
            }
        }
    }

    /// The Rust tells InvalidInput, and the cause which of the three kinds it is. A call that it takes has no cause; one that a limit
    /// turns down may have one further on.
    fn outcome(&mut self, outcome: Result<Option<usize>, Error<Leave>>, cause: Option<u32>) {
        match (outcome, cause) {
            (Ok(None), None) => self.line("ok"),
            (Ok(Some(id)), None) => self.line(format!("ok {id}")),
            (Err(Error::InvalidInput), Some(cause)) => self.line(format!("refused {cause}")),
            (Err(Error::Limit(stop)), _) => self.line(format!("refused {}", stopped(stop))),
            (outcome, cause) => panic!("no call can end like this: {outcome:?}, {cause:?}"),
        }
    }

    /// The report, and the calls after the run.
    fn closed(&mut self, analysis: &Closed) -> Leave {
        self.report(analysis);
        loop {
            match self.call() {
                Ok(Call::Counts) => self.line(counts(analysis.statistics())),
                Ok(Call::StopContext) => match analysis.context() {
                    Some(context) => self.line(format!("c {context}")),
                    None => self.line("c -"),
                },
                Ok(Call::ReadArgument(id)) => {
                    self.reading(read_argument(analysis, id).ok_or(MISSING))
                }
                Ok(Call::ReadContexts(id)) => {
                    self.reading(read_contexts(analysis, id).ok_or(MISSING))
                }
                Ok(Call::ReadSlot(rule, slot)) => self.reading(read_slot(analysis, rule, slot)),
                Ok(Call::ReadConstant(id)) => {
                    self.reading(read_constant(analysis, id).ok_or(MISSING))
                }
                Ok(_) => self.line("refused 1"),
                Err(leave) => return leave,
            }
        }
    }

    /// After a stopped run the tables of the analysis are empty, so every id is missing.
    fn reading(&mut self, lines: Result<String, u32>) {
        match lines {
            Ok(lines) => self.line(lines),
            Err(cause) => self.line(format!("refused {cause}")),
        }
    }

    fn report(&mut self, analysis: &Closed) {
        match analysis.status() {
            Status::Stopped(stop) => self.line(format!("stop {}", stopped(stop))),
            Status::FixedPoint => self.bounds(analysis),
        }
        self.line(statistics(analysis.statistics()));
    }

    fn bounds(&mut self, analysis: &Closed) {
        let (arguments, rules) = (&analysis.arguments, &analysis.rules);
        self.line(format!("done {} {}", arguments.len(), rules.len()));
        for (id, argument) in arguments.iter().enumerate() {
            self.line(argument_line(id, argument));
        }
        for (id, rule) in rules.iter().enumerate() {
            for slot in 0..rule.domains().len() {
                self.reading(slot_lines(id, slot, rule).ok_or(NO_SLOT));
            }
        }
    }
}

/// Refusal 1 on an open store: a shape that the port lacks.
fn lacks_shape(call: &Call, nesting: &[usize]) -> bool {
    match call {
        Call::Constant(Key::Name(bytes)) => bytes.len() > NAME_BYTES,
        Call::Expression(Expression::Binary(BinaryOp::Div | BinaryOp::Mod, ..)) => true,
        Call::Expression(_) => call_nesting(call, nesting) > NESTING,
        Call::Rule(rule) => {
            rule.slots > RULE_SLOTS
                || rule.bindings.len() > RULE_BINDINGS
                || rule.guards.len() > RULE_GUARDS
                || rule.heads.len() > RULE_HEADS
                || !rule.integer_queries.is_empty()
        }
        _ => false,
    }
}

/// The nesting of the expression in a call: a leaf has 1, a missing child counts 0.
fn call_nesting(call: &Call, nesting: &[usize]) -> usize {
    let of = |id: usize| nesting.get(id).copied().unwrap_or(0);
    match call {
        Call::Expression(Expression::Unary(_, child) | Expression::Absolute(child)) => {
            1 + of(child.0)
        }
        Call::Expression(Expression::Binary(_, left, right)) => 1 + of(left.0).max(of(right.0)),
        _ => 1,
    }
}

/// Refusal 2: a table of document 01's closing list could be overfilled.
fn could_overfill(call: &Call, input: &Store<'_>) -> bool {
    let statistics = input.budget.statistics();
    let many_thresholds = input.thresholds.len() > THRESHOLDS_BEFORE;
    let records: usize = input.producers.iter().map(Vec::len).sum();
    let many_records = input.context.is_some() && records > PROVENANCE_BEFORE;
    match call {
        Call::Predicate(arity) => {
            statistics.predicates >= PREDICATES
                || statistics.positions as u128 + *arity as u128 > POSITIONS as u128
        }
        Call::Constant(_) => many_thresholds || input.constants.len() >= CONSTANTS,
        Call::Expression(_) => input.expressions.len() >= EXPRESSIONS,
        Call::SeedValue(..) => many_records,
        Call::SeedInterval(..) => many_thresholds || many_records,
        Call::Rule(_) => input.rules.len() >= RULES || many_records,
        _ => false,
    }
}

/// What makes a call invalid, the first such thing in the order in which input.rs looks at it.
fn first_cause(call: &Call, input: &Store<'_>) -> Result<(), u32> {
    let (constants, expressions) = (input.constants.len(), input.expressions.len());
    match *call {
        // Both of its causes are 5, and it charges nothing.
        Call::Argument(predicate, position) => input
            .argument(predicate, position)
            .map_or(Err(MISSING), |_| Ok(())),
        Call::Expression(Expression::Constant(id)) => below(id.0, constants, MISSING),
        Call::Expression(Expression::Unary(_, id) | Expression::Absolute(id)) => {
            below(id.0, expressions, MISSING)
        }
        Call::Expression(Expression::Binary(_, left, right)) => {
            below(left.0.max(right.0), expressions, MISSING)
        }
        Call::SeedValue(argument, constant) => {
            below(constant.0, constants, MISSING)?;
            below(argument.0, input.seeds.len(), MISSING)
        }
        Call::SeedInterval(_, low, high) if low > high => Err(DESCENDING),
        Call::SeedInterval(argument, ..) => below(argument.0, input.seeds.len(), MISSING),
        Call::Rule(ref rule) => rule_cause(rule, input),
        _ => Ok(()),
    }
}

fn below(number: usize, count: usize, cause: u32) -> Result<(), u32> {
    if number < count { Ok(()) } else { Err(cause) }
}

fn rule_cause(rule: &Rule, input: &Store<'_>) -> Result<(), u32> {
    let arguments = input.seeds.len();
    let in_rule = |slot| below(slot, rule.slots, NO_SLOT);
    // An expression without a cause is not walked through again: shared ones may be met very often.
    let mut sound = vec![false; input.expressions.len()];
    let mut check = |expression| expression_cause(expression, rule.slots, input, &mut sound);
    for binding in &rule.bindings {
        match *binding {
            Binding::Positive { slot, argument } => {
                below(argument.0, arguments, MISSING)?;
                in_rule(slot)?;
            }
            Binding::Assign { slot, value } => {
                check(value)?;
                in_rule(slot)?;
            }
            Binding::Range { slot, low, high } => {
                check(low)?;
                check(high)?;
                in_rule(slot)?;
            }
            Binding::Aggregate { slot, .. } => in_rule(slot)?,
        }
    }
    for guard in &rule.guards {
        match *guard {
            Guard::Compare { left, right, .. } => {
                check(left)?;
                check(right)?;
            }
            Guard::Membership { slot, low, high } => {
                in_rule(slot)?;
                check(low)?;
                check(high)?;
            }
        }
    }
    for head in &rule.heads {
        check(head.value)?;
        below(head.argument.0, arguments, MISSING)?;
    }
    Ok(())
}

/// Only the expression itself can be missing: those below it were there when it was made. The right child comes first.
fn expression_cause(
    id: ExpressionId,
    slots: usize,
    input: &Store<'_>,
    sound: &mut [bool],
) -> Result<(), u32> {
    let expression = *input.expressions.get(id.0).ok_or(MISSING)?;
    if sound[id.0] {
        return Ok(());
    }
    match expression {
        Expression::Slot(slot) => below(slot, slots, NO_SLOT)?,
        Expression::Unary(_, child) | Expression::Absolute(child) => {
            expression_cause(child, slots, input, sound)?;
        }
        Expression::Binary(_, left, right) => {
            expression_cause(right, slots, input, sound)?;
            expression_cause(left, slots, input, sound)?;
        }
        Expression::Constant(_) | Expression::Unknown { .. } => {}
    }
    sound[id.0] = true;
    Ok(())
}

/// A store call on the source: its id, if it answers one.
fn carry_out(input: &mut Store<'_>, call: Call) -> Result<Option<usize>, Error<Leave>> {
    match call {
        Call::Context(context) => {
            input.context(context);
            Ok(None)
        }
        Call::Work(amount) => input.work(amount).map(|()| None),
        Call::Predicate(arity) => input.predicate(arity).map(|id| Some(id.0)),
        Call::Argument(predicate, position) => {
            input.argument(predicate, position).map(|id| Some(id.0))
        }
        Call::Constant(key) => input.constant(key).map(|id| Some(id.0)),
        Call::Expression(node) => input.expression(node).map(|id| Some(id.0)),
        Call::SeedValue(argument, value) => input.seed_value(argument, value).map(|()| None),
        Call::SeedInterval(argument, low, high) => {
            input.seed_interval(argument, low, high).map(|()| None)
        }
        Call::Rule(rule) => input.rule(rule).map(|id| Some(id.0)),
        _ => unreachable!("all other calls are answered before"),
    }
}

fn read_argument(analysis: &Closed, id: usize) -> Option<String> {
    Some(argument_line(id, analysis.arguments.get(id)?))
}

fn read_contexts(analysis: &Closed, id: usize) -> Option<String> {
    let contexts = analysis.producers(ArgumentId(id))?;
    Some(format!("p {id}{}", each(contexts)))
}

fn read_slot(analysis: &Closed, rule: usize, slot: usize) -> Result<String, u32> {
    slot_lines(rule, slot, analysis.rule(RuleId(rule)).ok_or(MISSING)?).ok_or(NO_SLOT)
}

fn read_constant(analysis: &Closed, id: usize) -> Option<String> {
    Some(match &analysis.constants.get(id)?.key {
        Some(Key::Number(number)) => format!("k {id} number {number}"),
        Some(Key::Name(bytes)) => format!("k {id} name {}{}", bytes.len(), each(bytes)),
        None => format!("k {id} large"),
    })
}

fn argument_line(id: usize, argument: &Argument<u32>) -> String {
    let bound = bound(argument.bound);
    let list = list(argument.values.as_deref());
    format!("a {id} {bound} {list} {}", reason(argument.widening))
}

/// The slot before the guards, then after them.
fn slot_lines(id: usize, slot: usize, rule: &RuleBounds) -> Option<String> {
    let domain = bound(*rule.domains().get(slot)?);
    let produced = bound(*rule.produced().get(slot)?);
    Some(format!("d {id} {slot} {domain}\ng {id} {slot} {produced}"))
}

/// With the words of document 02's request 1: Unbounded is not the interval that has both ends.
fn bound(bound: Bound) -> String {
    let kind = match bound.integrality {
        Integrality::Integer => 'I',
        Integrality::Mixed => 'M',
    };
    match bound.interval {
        Interval::Bottom => format!("{kind} e e"),
        Interval::Bounded { low, high } => format!("{kind} {low} {high}"),
        Interval::Unbounded => format!("{kind} * *"),
    }
}

fn list(values: Option<&[usize]>) -> String {
    let Some(values) = values else {
        return "-".to_string();
    };
    let ids: Vec<String> = values.iter().map(usize::to_string).collect();
    format!("[{}]", ids.join(","))
}

fn reason(widening: Option<Widening>) -> usize {
    let number = |reason| 1 + REASONS.iter().position(|other| *other == reason).unwrap();
    widening.map_or(0, number)
}

/// Each item after a space.
fn each<T: Display>(items: &[T]) -> String {
    items.iter().map(|item| format!(" {item}")).collect()
}

/// The refusal's number, the limit and the sum that passed it.
fn stopped(stop: Stop) -> String {
    let number = match stop.resource {
        Resource::Work => 3,
        Resource::InspectedBytes => 4,
        Resource::Predicates => 6,
        Resource::Positions => 7,
        Resource::Links => 8,
        Resource::ValueEntries => 9,
        Resource::Rounds => 10,
    };
    format!("{number} {} {}", stop.limit, stop.observed)
}

fn counts(s: Statistics) -> String {
    format!("n {} {}", s.work, common(s))
}

fn statistics(s: Statistics) -> String {
    format!("s {}", common(s))
}

/// What the lines `n` and `s` share: all counts but the work.
fn common(s: Statistics) -> String {
    format!(
        "{} {} {} {} {} {} {}",
        s.predicates, s.positions, s.links, s.value_entries, s.rounds, s.inspected_bytes, s.widened
    )
}
