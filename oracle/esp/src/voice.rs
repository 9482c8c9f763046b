//! The one voice over all variants of the text.

use state::{Answer, Call, Chip, Direction, Range, Side, State, Voice};

use crate::variants::{bits, ordinary, plain, s2};
use crate::{Shape, alignment};

struct Rust<R> {
    rings: R,
    ordinary: ordinary::Splits,
    s2: s2::Splits,
}

trait Rings {
    fn ask(&mut self, call: &Call, state: &mut State) -> Answer;
}

impl Rings for plain::Rings {
    fn ask(&mut self, call: &Call, state: &mut State) -> Answer {
        plain::Rings::ask(self, call, state)
    }
}

impl Rings for bits::Rings {
    fn ask(&mut self, call: &Call, state: &mut State) -> Answer {
        bits::Rings::ask(self, call, state)
    }
}

impl<R: Rings> Voice for Rust<R> {
    fn call(&mut self, call: &Call, state: &mut State) -> Answer {
        match *call {
            Call::Align(a) => alignment::ask(&a),
            Call::Cut(Range { address, length, chip }) => match chip {
                Chip::Ordinary => self.ordinary.cut(address, length),
                Chip::S2 => self.s2.cut(address, length),
            },
            Call::Pieces(Range { address, length, chip }, _) => match chip {
                Chip::Ordinary => self.ordinary.pieces(address, length, state),
                Chip::S2 => self.s2.pieces(address, length, state),
            },
            Call::Piece(Range { address, length, chip }, _, number) => match chip {
                Chip::Ordinary => self.ordinary.piece(address, length, number, state),
                Chip::S2 => self.s2.piece(address, length, number, state),
            },
            _ => self.rings.ask(call, state),
        }
    }
}

fn over<R: Rings + Default + 'static>() -> Option<Box<dyn Voice>> {
    Some(Box::new(Rust { rings: R::default(), ordinary: Default::default(), s2: Default::default() }))
}

pub fn voice(shape: Shape) -> Option<Box<dyn Voice>> {
    match shape {
        Shape::Plain => over::<plain::Rings>(),
        Shape::Bits => over::<bits::Rings>(),
    }
}

/// The external alignment that the text itself takes by default.
pub fn external_alignment(direction: Direction) -> Option<usize> {
    Some(ordinary::external_alignment(direction == Direction::Receive))
}

/// Both layouts of records for the timing driver.
pub fn sides(n: usize, len: usize) -> Vec<Box<dyn Side>> {
    vec![Box::new(plain::timed(n, len)), Box::new(bits::timed(n, len))]
}
