//! The harness must catch a subject that takes #102 in a wrong way: what has no value, what holds
//! that, which of an item's faults is told, and when an expression is looked at.

mod common;

use common::{
    accept_dated, assert_caught, assert_caught_and_misjudged, check_by, first_caught,
    first_misjudged, refused,
};
use second::check::{check_bytes, fill_bytes, Answer};
use second::expression::{Environment, Expression, Operator};
use second::harness::Subject;
use second::limits::Refusal;
use second::machine::{Machine, Start, Step};
use second::program::{Kind, Program, Transition};
use second::record::{read_record, Act, Item};
use Operator::{Difference, Equal, Less, Product, Sum};

/// A value in the making, in the range or beyond it; a large one stops where it does not matter.
type Wide = i128;

/// What an operator gives for operands that have a value.
type Apply = fn(Operator, Wide, Wide) -> Option<Wide>;
/// The place that a wrong program tells for an item of a program and record.
type Placing = fn(&[u8], &[u8], usize) -> usize;

/// How a program evaluates, and what it does with an expression without a value.
struct Rules {
    /// What an operator gives for operands that have a value.
    apply: Apply,
    /// What it gives where one of its operands has no value or both have none.
    holding: fn(Operator, [Option<Wide>; 2]) -> Option<Wide>,
    /// The value of a whole expression.
    whole: fn(Wide) -> Option<u16>,
    /// Whether the expression in this place, from 0 on, is looked at for its value.
    looked_at: fn(usize, Kind) -> bool,
    /// What is told where an expression has no value, beside the number that the item would get if
    /// sums came round.
    told: fn(&Item, Result<(), u8>) -> u8,
}

/// The rules of #102.
const RIGHT: Rules = Rules {
    apply: |operator, first, second| in_range(exact(operator, first, second)),
    holding: |_, _| None,
    whole: |value| u16::try_from(value).ok(),
    looked_at: |_, _| true,
    told: |_, dated| match dated {
        Err(number @ (7 | 12)) => number,
        _ => 18,
    },
};

/// What an operator gives without any range.
fn exact(operator: Operator, first: Wide, second: Wide) -> Wide {
    match operator {
        Sum => first.saturating_add(second),
        Difference => first.saturating_sub(second),
        Product => first.saturating_mul(second),
        Equal => Wide::from(first == second),
        Less => Wide::from(first < second),
    }
}

/// The value if it lies in the range.
fn in_range(value: Wide) -> Option<Wide> {
    (0..=65_535).contains(&value).then_some(value)
}

/// The value modulo 65,536.
fn round(value: Wide) -> Option<Wide> {
    Some(value.rem_euclid(65_536))
}

impl Rules {
    /// The value of an expression.
    fn value(&self, expression: &Expression, environment: &Environment) -> Option<u16> {
        self.wide(expression, environment).and_then(self.whole)
    }

    /// The value of a part of an expression.
    fn wide(&self, expression: &Expression, environment: &Environment) -> Option<Wide> {
        let Expression::Binary(operator, first, second) = expression else {
            return expression.evaluate(environment).map(Wide::from);
        };
        let operands = [first, second].map(|operand| self.wide(operand, environment));
        match operands {
            [Some(first), Some(second)] => (self.apply)(*operator, first, second),
            without => (self.holding)(*operator, without),
        }
    }

    /// Does an item. Its transition's expressions are replaced by their values, those without one
    /// by what they were before #102.
    fn step(&self, program: &Program, machine: &mut Machine, item: &Item) -> Result<Step, u8> {
        let Act::Command {
            kind,
            rank,
            transition,
        } = item.act
        else {
            return machine.step(program, item);
        };
        let taken = &program.transitions[transition];
        let environment = Environment {
            registers: &machine.rank(rank).registers,
            rank,
            ranks: program.ranks,
        };
        let mut without = false;
        let mut constant = |(place, expression): (usize, &Expression)| {
            let value = self.value(expression, &environment);
            without |= value.is_none() && (self.looked_at)(place, taken.kind);
            let dated = || expression.clone().dated().evaluate(&environment);
            Expression::Constant(value.or_else(dated).unwrap_or(0))
        };
        let expressions = taken.expressions.iter().enumerate();
        let expressions: Vec<Expression> = expressions.map(&mut constant).collect();
        let changed = with_one(
            program,
            Transition {
                expressions,
                ..taken.clone()
            },
        );
        let act = Act::Command {
            kind,
            rank,
            transition: 0,
        };
        let item = Item { act, ..*item };
        if without {
            let dated = machine.clone().step(&changed, &item).map(drop);
            return Err((self.told)(&item, dated));
        }
        machine.step(&changed, &item)
    }

    /// The whole check by these rules.
    fn check(&self, inputs: [&[u8]; 3], lists: [&mut [u8]; 2]) -> Answer {
        let step = |program: &Program, machine: &mut Machine, item: &Item| {
            self.step(program, machine, item)
        };
        check_by(&step, inputs, lists)
    }
}

/// The program with this one transition only.
fn with_one(program: &Program, transition: Transition) -> Program {
    Program {
        transitions: vec![transition],
        ..*program
    }
}

/// Fails unless a subject with these rules is caught, be it on refused records only.
fn assert_rules_caught(rules: &Rules) {
    assert_caught(&|program, start, record, order, cells| {
        rules.check([program, start, record], [order, cells])
    });
}

/// Fails unless a subject with these rules is caught, also on accepted records.
fn assert_rules_misjudged(rules: &Rules) {
    assert_caught_and_misjudged(&|program, start, record, order, cells| {
        rules.check([program, start, record], [order, cells])
    });
}

#[test]
fn the_right_rules_are_not_caught() {
    let subject: Subject = &|program, start, record, order, cells| {
        RIGHT.check([program, start, record], [order, cells])
    };
    assert_eq!(first_caught(subject), None);
    assert_eq!(first_misjudged(subject), None);
}

#[test]
fn sums_that_come_round() {
    assert_caught(&|program, start, record, order, cells| {
        fill_bytes(accept_dated(program, start, record), order, cells)
    });
}

#[test]
fn one_operator_that_comes_round() {
    let rules: [Apply; 3] = [
        |operator, first, second| match operator {
            Sum => round(first + second),
            _ => (RIGHT.apply)(operator, first, second),
        },
        |operator, first, second| match operator {
            Difference => round(first - second),
            _ => (RIGHT.apply)(operator, first, second),
        },
        |operator, first, second| match operator {
            Product => round(first * second),
            _ => (RIGHT.apply)(operator, first, second),
        },
    ];
    for apply in rules {
        assert_rules_caught(&Rules { apply, ..RIGHT });
    }
}

#[test]
fn results_held_at_the_edges() {
    let apply = |operator, first, second| Some(exact(operator, first, second).clamp(0, 65_535));
    assert_rules_caught(&Rules { apply, ..RIGHT });
}

#[test]
fn a_difference_taken_the_other_way_round() {
    let apply = |operator, first: Wide, second: Wide| match operator {
        Difference => Some((first - second).abs()),
        _ => (RIGHT.apply)(operator, first, second),
    };
    assert_rules_caught(&Rules { apply, ..RIGHT });
}

#[test]
fn only_the_whole_expression_held_to_the_range() {
    let apply = |operator, first, second| Some(exact(operator, first, second));
    assert_rules_caught(&Rules { apply, ..RIGHT });
}

#[test]
fn values_of_17_bits_and_of_32() {
    for (least, most) in [(0, 131_071), (0, 4_294_967_295), (-65_535, 65_535)] {
        let within = |value: Wide| (least..=most).contains(&value).then_some(value);
        let subject: Subject = &|program, start, record, order, cells| {
            check_by(
                &|program, machine, item| wide_step(&within, program, machine, item),
                [program, start, record],
                [order, cells],
            )
        };
        assert_caught(subject);
    }
}

/// Does an item with parts of expressions held to another range, and the whole to the right one.
fn wide_step(
    within: &dyn Fn(Wide) -> Option<Wide>,
    program: &Program,
    machine: &mut Machine,
    item: &Item,
) -> Result<Step, u8> {
    let rank = item.act.rank();
    let environment = Environment {
        registers: &machine.rank(rank).registers.clone(),
        rank,
        ranks: program.ranks,
    };
    let Some(taken) = item.act.transition() else {
        return machine.step(program, item);
    };
    let mut transition = program.transitions[taken].clone();
    for expression in &mut transition.expressions {
        let value = held(expression, &environment, within).and_then(|value| value.try_into().ok());
        if let Some(value) = value {
            *expression = Expression::Constant(value);
        }
    }
    let act = Act::Command {
        kind: item.act.kind(),
        rank,
        transition: 0,
    };
    machine.step(&with_one(program, transition), &Item { act, ..*item })
}

/// The value of a part of an expression, held to some range.
fn held(
    expression: &Expression,
    environment: &Environment,
    within: &dyn Fn(Wide) -> Option<Wide>,
) -> Option<Wide> {
    let Expression::Binary(operator, first, second) = expression else {
        return expression.evaluate(environment).map(Wide::from);
    };
    let first = held(first, environment, within)?;
    let second = held(second, environment, within)?;
    within(exact(*operator, first, second))
}

#[test]
fn a_product_found_to_pass_by_its_remainder() {
    let apply = |operator, first: Wide, second: Wide| match operator {
        Product => round(first * second).filter(|&rest| rest >= first && rest >= second),
        _ => (RIGHT.apply)(operator, first, second),
    };
    assert_rules_caught(&Rules { apply, ..RIGHT });
}

#[test]
fn an_edge_without_a_value() {
    let rules: [Apply; 3] = [
        |operator, first, second| {
            let value = (RIGHT.apply)(operator, first, second)?;
            (operator != Sum || value < 65_535).then_some(value)
        },
        |operator, first, second| {
            let value = (RIGHT.apply)(operator, first, second)?;
            (operator != Difference || value > 0).then_some(value)
        },
        |operator, first, second| {
            let value = (RIGHT.apply)(operator, first, second)?;
            (operator != Product || value < 65_535).then_some(value)
        },
    ];
    for apply in rules {
        assert_rules_misjudged(&Rules { apply, ..RIGHT });
    }
}

#[test]
fn one_step_beyond_the_edge_taken() {
    let apply = |operator, first, second| match exact(operator, first, second) {
        value @ (-1 | 65_536) => round(value),
        value => in_range(value),
    };
    assert_rules_caught(&Rules { apply, ..RIGHT });
}

#[test]
fn a_product_of_0_that_holds_what_has_no_value() {
    let holding = |operator, operands: [Option<Wide>; 2]| {
        (operator == Product && operands.contains(&Some(0))).then_some(0)
    };
    assert_rules_caught(&Rules { holding, ..RIGHT });
}

#[test]
fn equal_and_less_that_hold_what_has_no_value() {
    assert_rules_caught(&Rules {
        holding: |operator, _| (operator == Equal).then_some(0),
        ..RIGHT
    });
    assert_rules_caught(&Rules {
        holding: |operator, _| (operator == Less).then_some(0),
        ..RIGHT
    });
    assert_rules_caught(&Rules {
        holding: |operator, operands| match (operator, operands) {
            (Equal, [None, None]) => Some(1),
            (Less, [Some(_), None]) => Some(1),
            _ => None,
        },
        ..RIGHT
    });
}

#[test]
fn an_operand_without_a_value_taken_for_0() {
    assert_rules_caught(&Rules {
        holding: |operator, [first, second]| match first {
            Some(first) => (RIGHT.apply)(operator, first, second.unwrap_or(0)),
            None => None,
        },
        ..RIGHT
    });
    assert_rules_caught(&Rules {
        holding: |operator, [first, second]| match second {
            Some(second) => (RIGHT.apply)(operator, first.unwrap_or(0), second),
            None => None,
        },
        ..RIGHT
    });
}

#[test]
fn one_expression_not_looked_at() {
    let rules: [fn(usize, Kind) -> bool; 7] = [
        |place, kind| place != 0 || !kind.is_transfer(),
        |place, kind| place != 1 || !kind.is_transfer(),
        |place, _| place != 2,
        |place, _| place != 3,
        |place, kind| (place, kind) != (0, Kind::Store),
        |place, kind| (place, kind) != (1, Kind::Store),
        |_, kind| kind != Kind::Load,
    ];
    for looked_at in rules {
        assert_rules_caught(&Rules { looked_at, ..RIGHT });
    }
    assert_rules_caught(&Rules {
        looked_at: |_, kind| kind != Kind::Assign,
        ..RIGHT
    });
    assert_rules_caught(&Rules {
        looked_at: |_, kind| kind != Kind::Assume,
        ..RIGHT
    });
}

/// Fails unless a subject is caught that tells this where an expression has no value.
fn assert_told_caught(told: fn(&Item, Result<(), u8>) -> u8) {
    assert_rules_caught(&Rules { told, ..RIGHT });
}

#[test]
fn number_18_before_7_or_before_12() {
    assert_told_caught(|_, dated| match dated {
        Err(12) => 12,
        _ => 18,
    });
    assert_told_caught(|_, dated| match dated {
        Err(7) => 7,
        _ => 18,
    });
}

#[test]
fn number_18_after_8_after_9_or_after_11() {
    assert_told_caught(|_, dated| match dated {
        Err(number @ (7 | 8 | 12)) => number,
        _ => 18,
    });
    assert_told_caught(|_, dated| match dated {
        Err(number @ (7 | 9 | 12)) => number,
        _ => 18,
    });
    assert_told_caught(|_, dated| match dated {
        Err(number @ (7 | 11 | 12)) => number,
        _ => 18,
    });
}

#[test]
fn another_number_for_18() {
    assert_told_caught(|_, dated| match dated {
        Err(number @ (7 | 12)) => number,
        _ => 8,
    });
    assert_told_caught(|item, dated| match dated {
        Err(number @ (7 | 12)) => number,
        _ if item.act.kind() == Kind::Assume => 9,
        _ => 18,
    });
    assert_told_caught(|_, dated| match dated {
        Err(number @ (7 | 12)) => number,
        _ => 17,
    });
}

#[test]
fn expressions_judged_one_after_the_other() {
    assert_caught(&|program, start, record, order, cells| {
        check_by(
            &one_after_the_other,
            [program, start, record],
            [order, cells],
        )
    });
}

/// Does an item whose expressions are evaluated and held to their ranges one by one: where an
/// earlier one is outside its range, 8 is told before 18.
fn one_after_the_other(program: &Program, machine: &mut Machine, item: &Item) -> Result<Step, u8> {
    let done = machine.clone().step(program, item);
    let taken = item.act.transition();
    if let (Err(18), Some(taken)) = (&done, taken) {
        let rank = item.act.rank();
        let environment = Environment {
            registers: &machine.rank(rank).registers,
            rank,
            ranks: program.ranks,
        };
        let mut transition = program.transitions[taken].clone();
        for (place, expression) in transition.expressions.iter_mut().enumerate() {
            if expression.evaluate(&environment).is_none() {
                *expression = Expression::Constant(u16::from(place == 1));
            }
        }
        let act = Act::Command {
            kind: item.act.kind(),
            rank,
            transition: 0,
        };
        let item = Item { act, ..*item };
        let changed = with_one(program, transition);
        if machine.clone().step(&changed, &item) == Err(8) {
            return Err(8);
        }
    }
    machine.step(program, item)
}

/// Whether an expression has constants only and no value.
fn never_has_a_value(expression: &Expression) -> bool {
    let of_constants = Environment {
        registers: &[],
        rank: 1,
        ranks: 1,
    };
    fn constant(expression: &Expression) -> bool {
        match expression {
            Expression::Constant(_) => true,
            Expression::Binary(_, first, second) => constant(first) && constant(second),
            _ => false,
        }
    }
    constant(expression) && expression.evaluate(&of_constants).is_none()
}

#[test]
fn constants_without_a_value_refused_in_the_program() {
    assert_caught_and_misjudged(&|program, start, record, order, cells| {
        let read = Program::read(program);
        let mut transitions = read.iter().flat_map(|program| &program.transitions);
        let hopeless = |transition: &Transition| {
            let mut expressions = transition.expressions.iter();
            expressions.any(never_has_a_value)
        };
        match transitions.position(hopeless) {
            Some(number) => refused(3, number),
            None => check_bytes(program, start, record, order, cells),
        }
    });
}

#[test]
fn every_transition_from_the_ranks_state_evaluated() {
    assert_caught_and_misjudged(&|program, start, record, order, cells| {
        let step = |program: &Program, machine: &mut Machine, item: &Item| {
            let rank = item.act.rank();
            let state = machine.rank(rank).state;
            let environment = Environment {
                registers: &machine.rank(rank).registers,
                rank,
                ranks: program.ranks,
            };
            let without = |expression: &Expression| expression.evaluate(&environment).is_none();
            let here = program
                .transitions
                .iter()
                .filter(|other| other.from == state);
            let mut expressions = here.flat_map(|other| &other.expressions);
            if item.act.transition().is_some() && expressions.any(without) {
                return Err(18);
            }
            machine.step(program, item)
        };
        check_by(&step, [program, start, record], [order, cells])
    });
}

#[test]
fn another_place_for_18() {
    let others: [Placing; 3] = [
        |_, _, item| item + 1,
        |_, _, _| 0,
        |program, record, item| {
            let read = Program::read(program).and_then(|program| read_record(record, &program));
            let taken = read.ok().and_then(|items| items[item].act.transition());
            taken.unwrap_or(item)
        },
    ];
    for other in others {
        assert_caught(&|program, start, record, order, cells| match check_bytes(
            program, start, record, order, cells,
        ) {
            Answer::Refused(Refusal { number: 18, place }) => {
                refused(18, other(program, record, place))
            }
            answer => answer,
        });
    }
}

#[test]
fn lists_filled_although_18_is_told() {
    assert_caught(&|program, start, record, order, cells| {
        let answer = check_bytes(program, start, record, order, cells);
        if let Answer::Refused(Refusal { number: 18, .. }) = answer {
            fill_bytes(accept_dated(program, start, record), order, cells);
        }
        answer
    });
}

#[test]
fn registers_at_the_start_in_every_expression() {
    assert_caught_and_misjudged(&|program, start, record, order, cells| {
        let step = |program: &Program, machine: &mut Machine, item: &Item| {
            let now = machine.clone();
            let rank = item.act.rank();
            let start = Start::zero(program);
            machine.rank_mut(rank).registers = start.0[rank - 1].registers.clone();
            let done = machine.step(program, item)?;
            let kept = now.rank(rank).registers.iter().enumerate();
            let changed = |register: usize| {
                let taken = item
                    .act
                    .transition()
                    .map(|taken| &program.transitions[taken]);
                taken.is_some_and(|taken| taken.register == Some(register))
            };
            for (register, &value) in kept.filter(|&(register, _)| !changed(register)) {
                machine.rank_mut(rank).registers[register] = value;
            }
            Ok(done)
        };
        check_by(&step, [program, start, record], [order, cells])
    });
}
