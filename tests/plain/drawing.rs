//! The drawing's engine: orders and the bindings that they name, a list of orders fired in turn, the first order that fires.
use super::commands::{unless, Reading};
use super::expressions::{Binding, Room};
use super::firing::{self, Weight};
use super::net::{read, Net, Transition};
use super::{First, Order};

pub const ORDER: usize = 6;

/// The transition that six bytes name, where they name a binding of it.
#[inline]
pub fn named<'a>(net: &'a Net, order: &[u8]) -> Option<&'a Transition> {
    let transition = net.transitions.get(order[1] as usize).filter(|_| order[0] == 0x60)?;
    let (colours, unused) = order[2..ORDER].split_at(transition.variables().len());
    let fits = transition.variables().iter().zip(colours).all(|(used, &colour)| colour < used.size);
    (fits && unused.iter().all(|&byte| byte == 0)).then_some(transition)
}

/// The binding that six bytes give a transition's variables.
fn binding_of(transition: &Transition, order: &[u8]) -> Binding {
    let mut binding = [0; 33];
    for (used, &colour) in transition.variables().iter().zip(&order[2..]) {
        binding[used.variable as usize] = colour;
    }
    binding
}

/// The six bytes that name a binding of the transition with this number.
pub fn order_of(number: usize, transition: &Transition, binding: &Binding) -> Order {
    let mut order = [0x60, number as u8, 0, 0, 0, 0];
    for (byte, used) in order[2..].iter_mut().zip(transition.variables()) {
        *byte = binding[used.variable as usize];
    }
    order
}

/// Room for the weights of one binding.
#[derive(Default)]
struct Row {
    takes: Vec<Weight>,
    puts: Vec<Weight>,
    hinders: Vec<Weight>,
    room: Room,
}

impl Row {
    /// What a binding is answered, 2, 3, 4, 5 or 0; where it is 0, its takes and puts are loaded.
    fn answer(&mut self, net: &Net, transition: &Transition, binding: &Binding, marking: &[u16]) -> u8 {
        if !net.holds(transition, binding) {
            return 2;
        }
        net.load(&transition.inputs, binding, &mut self.room, &mut self.takes);
        if firing::short(self.takes.iter().copied(), marking) {
            return 3;
        }
        net.load(&transition.inhibitors, binding, &mut self.room, &mut self.hinders);
        if firing::hindered(self.hinders.iter().copied(), marking) {
            return 4;
        }
        net.load(&transition.outputs, binding, &mut self.room, &mut self.puts);
        if firing::overflows(self.takes.iter().copied(), self.puts.iter().copied(), marking) { 5 } else { 0 }
    }

    /// Fires a binding if it may, and gives its answer.
    fn fire(&mut self, net: &Net, transition: &Transition, binding: &Binding, marking: &mut [u16]) -> u8 {
        let answer = self.answer(net, transition, binding, marking);
        if answer == 0 {
            firing::apply(self.takes.iter().copied(), self.puts.iter().copied(), marking);
        }
        answer
    }
}

/// Fires a list of orders in turn, and gives how many there are.
pub fn fire_orders(file: &[u8], marking: &mut [u16], orders: &[u8], answers: &mut [u8]) -> Reading<usize> {
    let net = read(file)?;
    unless(marking.len() == net.flat_places, 12, 0)?;
    unless(orders.len() % ORDER == 0, 13, 0)?;
    let count = orders.len() / ORDER;
    unless(count <= answers.len(), 14, 0)?;
    let mut row = Row::default();
    for (order, answer) in orders.chunks_exact(ORDER).zip(answers) {
        *answer = match named(&net, order) {
            Some(transition) => row.fire(&net, transition, &binding_of(transition, order), marking),
            None => 1,
        };
    }
    Ok(count)
}

/// The first order that would fire.
pub fn first_order(file: &[u8], marking: &[u16]) -> Reading<First<Order>> {
    let net = read(file)?;
    unless(marking.len() == net.flat_places, 12, 0)?;
    let (mut row, mut binding, mut tried) = (Row::default(), [0; 33], 0);
    for (number, transition) in net.transitions.iter().enumerate() {
        loop {
            tried += 1;
            if row.answer(&net, transition, &binding, marking) == 0 {
                return Ok(First { found: Some(order_of(number, transition, &binding)), tried });
            }
            if !transition.advance(&mut binding) {
                break;
            }
        }
    }
    Ok(First { found: None, tried })
}
