//! Document 01's rules in plain Rust: the third voice. Written from the document, not from the Rust: what a call
//! does is stated over whole runs of records, not stepped through.

pub mod align;
pub mod device;
pub mod pieces;
pub mod receive;
pub mod sound;
pub mod split;
pub mod transmit;

use state::{Answer, Call, Direction, State, Voice};

pub struct Rules;

impl Voice for Rules {
    fn call(&mut self, call: &Call, state: &mut State) -> Answer {
        if let Some(refusal) = refusal(call, state) {
            return Answer::Refused(refusal);
        }
        unchecked(call, state)
    }
}

/// The first refusal that the call meets. 5 comes first, then 7, 6, 8; modules 1 and 6 and `new` give their own.
fn refusal(call: &Call, state: &State) -> Option<u8> {
    match call {
        Call::New => split::split(state.n(), state.buffer.len()).err(),
        Call::Align(a) => align::refusal(a),
        Call::Cut(_) => None,
        Call::Pieces(range, store) => pieces::refusal(state.n(), range, *store),
        Call::Piece(range, store, number) => {
            pieces::refusal(state.n(), range, *store).or((*number >= pieces::list(state.n(), range).len()).then_some(8))
        }
        Call::Prepare { .. } | Call::Prefill(_) | Call::OfferPrefill => (!sound::splits(state)).then_some(5),
        Call::CommitPrefill(k) => {
            if !sound::splits(state) {
                Some(5)
            } else {
                (*k > state.buffer.len() - state.prefilled).then_some(8)
            }
        }
        _ if !sound::sound(state) => Some(5),
        Call::Commit(k) => (*k > transmit::offered(state).1).then_some(8),
        Call::Advance(k) => (*k > transmit::available(state)).then_some(8),
        Call::Fill(data, _) => device::fill_refusal(state, data.len()),
        Call::Send => device::send_refusal(state),
        _ => None,
    }
}

/// What the call does where nothing is refused.
pub fn unchecked(call: &Call, state: &mut State) -> Answer {
    match (call, state.direction) {
        (Call::New, _) => split::new(state),
        (Call::Prepare { .. }, Direction::Receive) => receive::prepare(state),
        (Call::Prepare { .. }, Direction::Transmit) => transmit::prepare(state),
        (Call::Available, Direction::Receive) => Answer::Bytes(receive::available(state)),
        (Call::Available, Direction::Transmit) => Answer::Bytes(transmit::available(state)),
        (Call::Peek, _) => receive::peek(state),
        (Call::PeekUntilEof, _) => receive::peek_until_eof(state),
        (Call::Consume(k), _) => receive::consume(state, *k),
        (Call::Pop, _) => receive::pop(state),
        (Call::Prefill(data), _) => transmit::prefill(state, data),
        (Call::OfferPrefill, _) => Answer::Bytes(state.buffer.len() - state.prefilled),
        (Call::CommitPrefill(k), _) => transmit::commit_prefill(state, *k),
        (Call::Push(data), _) => transmit::push(state, data),
        (Call::Offer, _) => Answer::Bytes(transmit::offered(state).1),
        (Call::Commit(k) | Call::Advance(k), _) => transmit::accept(state, *k),
        (Call::Fill(data, eof), _) => device::fill(state, data, *eof),
        (Call::Send, _) => device::send(state),
        (Call::Align(_), _) => Answer::Done,
        (Call::Cut(range), _) => pieces::cut(range),
        (Call::Pieces(range, _), _) => pieces::pieces(state, range),
        (Call::Piece(range, _, number), _) => pieces::piece(state, range, *number),
    }
}
