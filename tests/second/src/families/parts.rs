//! Transitions and items that cases are put together from, with the encoder's own types.

use crate::expression::Expression;
use crate::program::{Kind, Transition};
use crate::record::{Act, Cell, Item, Pop};

/// A transition from state 0 to 0.
fn staying(kind: Kind, register: Option<usize>, operands: &[u16]) -> Transition {
    let constant = |&value: &u16| Expression::Constant(value);
    Transition {
        kind,
        from: 0,
        to: 0,
        register,
        expressions: operands.iter().map(constant).collect(),
    }
}

/// The transition with another operand in this place, e1 in place 0.
pub fn with_operand(mut transition: Transition, place: usize, operand: Expression) -> Transition {
    transition.expressions[place] = operand;
    transition
}

/// A store: the cell takes the value.
pub fn store(cell: u16, value: u16) -> Transition {
    staying(Kind::Store, None, &[cell, value])
}

/// A load of the cell into register 0.
pub fn load(cell: u16) -> Transition {
    staying(Kind::Load, Some(0), &[cell])
}

/// An assign of the value to register 0.
pub fn assign(value: u16) -> Transition {
    staying(Kind::Assign, Some(0), &[value])
}

/// An assume of the value.
pub fn assume(value: u16) -> Transition {
    staying(Kind::Assume, None, &[value])
}

/// A write from the own cell to a cell of the rank, on queue 0.
pub fn write(own: u16, rank: u16, remote: u16) -> Transition {
    staying(Kind::Write, None, &[own, rank, remote, 0])
}

/// A read into the own cell from a cell of the rank, on queue 0.
pub fn read(own: u16, rank: u16, remote: u16) -> Transition {
    staying(Kind::Read, None, &[own, rank, remote, 0])
}

/// The transfer on another queue.
pub fn on_queue(transfer: Transition, queue: u16) -> Transition {
    with_operand(transfer, 3, Expression::Constant(queue))
}

/// A bar.
pub fn bar() -> Transition {
    staying(Kind::Bar, None, &[])
}

/// A command item of a rank without a place.
pub fn command(kind: Kind, rank: usize, transition: usize) -> Item {
    let act = Act::Command {
        kind,
        rank,
        transition,
    };
    Item {
        act,
        place: None,
        value: None,
    }
}

/// The item at its rank's own cell.
pub fn at(item: Item, cell: usize) -> Item {
    let rank = item.act.rank();
    let place = Some(Cell { rank, cell });
    Item { place, ..item }
}

/// The item with a given value.
pub fn giving(item: Item, value: u16) -> Item {
    Item {
        value: Some(value),
        ..item
    }
}

/// A popa of a rank at a place.
pub fn popa(rank: usize, place: (usize, usize)) -> Item {
    popping(Act::PopA(Pop::of_all(rank, 0)), place)
}

/// A popb of a rank at a place.
pub fn popb(rank: usize, place: (usize, usize)) -> Item {
    popping(Act::PopB(Pop::of_all(rank, 0)), place)
}

/// The pop, which names a remote rank.
pub fn naming(pop: Item, remote: usize) -> Item {
    popped(pop, |pop| pop.remote = Some(remote))
}

/// The pop from another queue.
pub fn from_queue(pop: Item, queue: usize) -> Item {
    popped(pop, |pop| pop.queue = queue)
}

/// The pop that takes its entry from elsewhere.
fn popped(mut item: Item, change: impl Fn(&mut Pop)) -> Item {
    item.act.pop_mut().into_iter().for_each(change);
    item
}

/// A pop at a place.
fn popping(act: Act, (rank, cell): (usize, usize)) -> Item {
    let place = Some(Cell { rank, cell });
    Item {
        act,
        place,
        value: None,
    }
}
