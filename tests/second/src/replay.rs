//! The steps of the replay (document 001, Table 1; document 01, section of that name).

use crate::expression::{Environment, Expression};
use crate::limits::{number, refuse, Outcome};
use crate::machine::{Access, CommandId, Delivery, Machine, Part, Request, Run, Start, Step};
use crate::program::{Kind, Program, Transition};
use crate::record::{Act, Cell, Item, Pop};
use std::collections::VecDeque;

impl Machine {
    /// Does one act, or gives the number it is refused with and changes nothing.
    pub fn perform(&mut self, program: &Program, act: Act) -> Result<Step, u8> {
        self.judge_row(act)?;
        match act {
            Act::Command {
                kind,
                rank,
                transition,
            } => {
                let transition = &program.transitions[transition];
                if transition.from != self.rank(rank).state || transition.kind != kind {
                    return Err(number::TRANSITION);
                }
                self.command(program, act, transition)
            }
            Act::PopA(pop) => self.popa(act, pop),
            Act::PopB(pop) => self.popb(act, pop),
        }
    }

    /// Does one item: its act, then its place and given value are compared.
    pub fn step(&mut self, program: &Program, item: &Item) -> Result<Step, u8> {
        let step = self.perform(program, item.act)?;
        let place = step.access.map(|access| access.cell);
        let value = step.access.map(|access| access.value);
        if item.place != place || (item.value.is_some() && item.value != value) {
            return Err(number::DIFFERS);
        }
        Ok(step)
    }

    /// A bar's rank must be the next of its row, rank 1 opening one; nothing else in an open row.
    fn judge_row(&self, act: Act) -> Result<(), u8> {
        let kept = if act.kind() == Kind::Bar {
            act.rank() == self.open_row.unwrap_or(1)
        } else {
            self.open_row.is_none()
        };
        if kept {
            Ok(())
        } else {
            Err(number::BARRIER)
        }
    }

    /// Takes a transition that fits the rank's state and the item's kind. All its expressions must
    /// have a value before any of these is looked at.
    fn command(
        &mut self,
        program: &Program,
        act: Act,
        transition: &Transition,
    ) -> Result<Step, u8> {
        let rank = act.rank();
        let environment = Environment {
            registers: &self.rank(rank).registers,
            rank,
            ranks: program.ranks,
        };
        let evaluate = |expression: &Expression| expression.evaluate(&environment);
        let values: Option<Vec<u16>> = transition.expressions.iter().map(evaluate).collect();
        let Some(values) = values else {
            return Err(number::NO_VALUE);
        };
        let command = CommandId {
            rank,
            place: self.rank(rank).taken,
        };
        let access = match transition.kind {
            Kind::Load => Some(self.load(program, rank, transition, &values)?),
            Kind::Store => Some(self.store(program, rank, &values)?),
            Kind::Assign => {
                self.set_register(rank, transition, values[0]);
                None
            }
            Kind::Assume if values[0] == 0 => return Err(number::ASSUME),
            Kind::Read | Kind::Write => {
                self.transfer(program, command, transition.kind, &values)?;
                None
            }
            Kind::Bar => {
                self.open_row = if rank == program.ranks {
                    None
                } else {
                    Some(rank + 1)
                };
                None
            }
            Kind::Assume | Kind::PopA | Kind::PopB => None,
        };
        self.rank_mut(rank).state = transition.to;
        self.rank_mut(rank).taken += 1;
        Ok(Step {
            act,
            command,
            access,
        })
    }

    /// The register takes the own cell e1.
    fn load(
        &mut self,
        program: &Program,
        rank: usize,
        transition: &Transition,
        values: &[u16],
    ) -> Result<Access, u8> {
        let cell = Cell {
            rank,
            cell: evaluated(values[0], 0, program.cells)?,
        };
        let value = self.read_cell(cell);
        self.set_register(rank, transition, value);
        Ok(Access {
            part: Part::Command,
            cell,
            value,
            writes: false,
        })
    }

    /// The own cell e1 takes the value e2.
    fn store(&mut self, program: &Program, rank: usize, values: &[u16]) -> Result<Access, u8> {
        let cell = Cell {
            rank,
            cell: evaluated(values[0], 0, program.cells)?,
        };
        let value = values[1];
        self.write_cell(cell, value);
        Ok(Access {
            part: Part::Command,
            cell,
            value,
            writes: true,
        })
    }

    /// The transition's register takes a value.
    fn set_register(&mut self, rank: usize, transition: &Transition, value: u16) {
        if let Some(register) = transition.register {
            self.rank_mut(rank).registers[register] = value;
        }
    }

    /// Appends the request of a read or write: own cell e1, remote rank e2 and cell e3, queue e4.
    fn transfer(
        &mut self,
        program: &Program,
        command: CommandId,
        kind: Kind,
        values: &[u16],
    ) -> Result<(), u8> {
        let own = Cell {
            rank: command.rank,
            cell: evaluated(values[0], 0, program.cells)?,
        };
        let remote = Cell {
            rank: evaluated(values[1], 1, program.ranks)?,
            cell: evaluated(values[2], 0, program.cells)?,
        };
        let queue = evaluated(values[3], 0, program.queues)?;
        let (source, destination) = if kind == Kind::Write {
            (own, remote)
        } else {
            (remote, own)
        };
        let request = Request {
            command,
            remote: remote.rank,
            source,
            destination,
        };
        self.rank_mut(command.rank).requests[queue].push_back(request);
        Ok(())
    }

    /// Takes a request, reads its source cell now, and appends the delivery.
    fn popa(&mut self, act: Act, pop: Pop) -> Result<Step, u8> {
        let requests = &mut self.rank_mut(pop.rank).requests[pop.queue];
        let Some(request) = take_oldest(requests, |request| request.remote, pop.remote) else {
            return Err(number::EMPTY_POP);
        };
        let Request {
            command,
            remote,
            source,
            destination,
        } = request;
        let value = self.read_cell(source);
        let delivery = Delivery {
            command,
            remote,
            destination,
            value,
        };
        self.rank_mut(pop.rank).deliveries[pop.queue].push_back(delivery);
        let access = Access {
            part: Part::Fetch,
            cell: source,
            value,
            writes: false,
        };
        Ok(Step {
            act,
            command,
            access: Some(access),
        })
    }

    /// Takes a delivery and writes it.
    fn popb(&mut self, act: Act, pop: Pop) -> Result<Step, u8> {
        let deliveries = &mut self.rank_mut(pop.rank).deliveries[pop.queue];
        let Some(delivery) = take_oldest(deliveries, |delivery| delivery.remote, pop.remote) else {
            return Err(number::EMPTY_POP);
        };
        let Delivery {
            command,
            destination,
            value,
            ..
        } = delivery;
        self.write_cell(destination, value);
        let access = Access {
            part: Part::Delivery,
            cell: destination,
            value,
            writes: true,
        };
        Ok(Step {
            act,
            command,
            access: Some(access),
        })
    }
}

/// Takes the oldest entry for the named remote rank, or the oldest of all if none is named. The
/// oldest is the one that was appended first to these entries.
fn take_oldest<Entry>(
    entries: &mut VecDeque<Entry>,
    remote_of: fn(&Entry) -> usize,
    named: Option<usize>,
) -> Option<Entry> {
    let fits = |entry: &Entry| named.is_none_or(|named| remote_of(entry) == named);
    let oldest = entries.iter().position(fits)?;
    entries.remove(oldest)
}

/// An evaluated cell, rank or queue: `count` numbers from `first` on are in its range.
fn evaluated(value: u16, first: usize, count: usize) -> Result<usize, u8> {
    let value = usize::from(value);
    if (first..first + count).contains(&value) {
        Ok(value)
    } else {
        Err(number::EVALUATED)
    }
}

/// Replays all items from the start; an open row at the end comes before anything left in queues.
pub fn replay(program: &Program, start: &Start, items: &[Item]) -> Outcome<Run> {
    let mut machine = Machine::new(program, start);
    let mut steps = Vec::new();
    for (index, item) in items.iter().enumerate() {
        match machine.step(program, item) {
            Ok(step) => steps.push(step),
            Err(number) => return refuse(number, index),
        }
    }
    if machine.open_row.is_some() {
        return refuse(number::BARRIER, items.len());
    }
    if !machine.queues_empty() {
        return refuse(number::LEFT, items.len());
    }
    Ok(Run {
        steps,
        last: machine,
    })
}
