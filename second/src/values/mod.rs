//! Numbers and sets, and the sizes of buses: refusals 11, 12 and 13 as evaluation meets them.

mod buses;
mod numbers;
mod sets;

use crate::answer::Refusal;
use crate::enumeration;
use crate::limits;
use crate::names::{Names, Referent};
use crate::syntax::*;
use std::collections::HashMap;
use std::rc::Rc;

/// The elements of a set, ascending and each once.
pub type Set = Rc<Vec<u32>>;

type Worked<T> = Result<T, Refusal>;

/// What evaluation knows: parameters, sizes of buses, and the values of bound names.
pub struct Values<'s> {
    pub syntax: &'s Syntax<'s>,
    pub names: &'s Names,
    parameters: Vec<u32>,
    widths: Vec<Option<u32>>,
    bound: Vec<u32>,
    // A definition holds no names of operators around its use, so its value is the same at each
    // use once it has been worked out without a fault.
    number_definitions: HashMap<usize, u32>,
    set_definitions: HashMap<usize, Set>,
}

// 01: 'Everything is evaluated: parameters, widths of inputs then outputs, sections in text order'.
impl<'s> Values<'s> {
    /// Works out the parameters, then sizes all buses.
    pub fn of(syntax: &'s Syntax<'s>, names: &'s Names) -> Worked<Values<'s>> {
        let mut values = Values {
            syntax,
            names,
            parameters: Vec::new(),
            widths: vec![None; syntax.signals.len()],
            bound: vec![0; syntax.binder_count],
            number_definitions: HashMap::new(),
            set_definitions: HashMap::new(),
        };
        values.work_out_parameters()?;
        values.size_buses()?;
        Ok(values)
    }

    // Parameters are worked out once, in order, used or not.
    fn work_out_parameters(&mut self) -> Worked<()> {
        for parameter in &self.syntax.parameters {
            let value = self.number(parameter.value)?;
            self.parameters.push(value);
        }
        Ok(())
    }

    // E6: in signal order; every bus, by enumeration too, is sized at its own turn.
    fn size_buses(&mut self) -> Worked<()> {
        for (number, signal) in self.syntax.signals.iter().enumerate() {
            self.widths[number] = match signal.shape {
                Shape::Single => None,
                Shape::Bus(width) => Some(self.declared_width(signal.name, width)?),
                Shape::Enumerated(type_name) => Some(self.enumeration_width(type_name)),
            };
        }
        Ok(())
    }

    // 01: 'width 0 or over 255', refusal 13 at the declared name.
    fn declared_width(&mut self, name: TokenId, width: ExprId) -> Worked<u32> {
        let width = self.number(width)?;
        if width == 0 || width > limits::BUS_WIDTH {
            return self.syntax.refusal(13, name);
        }
        Ok(width)
    }

    fn enumeration_width(&self, type_name: TokenId) -> u32 {
        enumeration::width(self.syntax, self.enumeration_of(type_name))
    }

    /// The enumeration that a type name stands for.
    pub fn enumeration_of(&self, type_name: TokenId) -> usize {
        match self.names.referent(type_name) {
            Referent::EnumerationType(number) => number,
            other => unreachable!("types were checked: {other:?}"),
        }
    }

    /// The width of a sized bus; none for a single signal or a bus not yet sized.
    pub fn width(&self, signal: usize) -> Option<u32> {
        self.widths[signal]
    }

    /// The signals that a declared signal takes: 1, or the width of its bus.
    pub fn taken(&self, signal: usize) -> usize {
        self.widths[signal].unwrap_or(1) as usize
    }

    /// 01: 'Signals number from 0, inputs first, a bus taking consecutive numbers'.
    pub fn first_number(&self, signal: usize) -> usize {
        (0..signal).map(|before| self.taken(before)).sum()
    }
}
