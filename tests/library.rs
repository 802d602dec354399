//! The C interface of the library, called case by case: with lent buffers that lie between canary bytes, aligned and not, or
//! right in front of memory that must not be touched.
use crate::plain::Order;
use crate::stream::{Call, Case, Outcome, Said};

extern "C" {
    fn kwz_flat_sizes(flat: *const u8, flat_len: usize, first: *mut usize, second: *mut usize) -> u8;
    fn kwz_first_row(flat: *const u8, flat_len: usize, marking: *const u16, marking_len: usize, first: *mut usize, second: *mut usize) -> u8;
    fn kwz_fire_images(
        flat: *const u8, flat_len: usize, marking: *mut u16, marking_len: usize, images: *const u8, images_len: usize, answers: *mut u8,
        answers_len: usize, first: *mut usize, second: *mut usize,
    ) -> u8;
    fn kwz_net_sizes(net: *const u8, net_len: usize, first: *mut usize, second: *mut usize, third: *mut usize) -> u8;
    fn kwz_unfold(net: *const u8, net_len: usize, flat: *mut u8, flat_len: usize, first: *mut usize, second: *mut usize) -> u8;
    fn kwz_images(
        net: *const u8, net_len: usize, orders: *const u8, orders_len: usize, images: *mut u8, images_len: usize, first: *mut usize, second: *mut usize,
    ) -> u8;
    fn kwz_row_order(net: *const u8, net_len: usize, row: u32, order: *mut u8, first: *mut usize, second: *mut usize) -> u8;
    fn kwz_fire_orders(
        net: *const u8, net_len: usize, marking: *mut u16, marking_len: usize, orders: *const u8, orders_len: usize, answers: *mut u8,
        answers_len: usize, first: *mut usize, second: *mut usize,
    ) -> u8;
    fn kwz_first_order(
        net: *const u8, net_len: usize, marking: *const u16, marking_len: usize, order: *mut u8, first: *mut usize, second: *mut usize,
    ) -> u8;

    fn mmap(at: *mut u8, length: usize, protection: i32, flags: i32, file: i32, offset: i64) -> *mut u8;
    fn mprotect(at: *mut u8, length: usize, protection: i32) -> i32;
    fn signal(number: i32, handler: extern "C" fn(i32)) -> usize;
    fn write(file: i32, bytes: *const u8, length: usize) -> isize;
    fn _exit(status: i32) -> !;
}

const PAGE: usize = 4096;
const ROOM: usize = 1 << 18;
const CANARY: u8 = 0xC9;
const ORDER_FILL: Order = [0xE1, 0xE2, 0xE3, 0xE4, 0xE5, 0xE6];

/// Memory for one buffer, with a page behind it that must not be touched.
struct Room {
    start: *mut u8,
}

/// Where a buffer was put: its bytes within the room.
#[derive(Clone, Copy)]
struct Put {
    start: *mut u8,
    at: usize,
    length: usize,
    shown: *mut u8, // what the library is given
}

impl Room {
    fn new() -> Room {
        let start = unsafe { mmap(std::ptr::null_mut(), ROOM + PAGE, 3, 0x22, -1, 0) };
        assert!(start as isize != -1 && unsafe { mprotect(start.add(ROOM), PAGE, 0) } == 0, "memory for the buffers");
        Room { start }
    }

    /// Puts bytes at the room's end, or between canaries at an offset; an empty buffer may be shown as the null pointer.
    fn put(&self, bytes: &[u8], way: usize, unit: usize) -> Put {
        let length = bytes.len();
        assert!(length + 128 <= ROOM);
        let at = if way % 3 == 0 { ROOM - length } else { ROOM - (length + 64).next_multiple_of(16) + way / 3 % (8 / unit) * unit };
        let shown = if length == 0 && way % 2 == 0 { std::ptr::null_mut() } else { unsafe { self.start.add(at) } };
        let put = Put { start: self.start, at, length, shown };
        let room = unsafe { std::slice::from_raw_parts_mut(self.start, ROOM) };
        room[at - 32..at].fill(CANARY);
        room[at..at + length].copy_from_slice(bytes);
        let behind = (at + length + 32).min(ROOM);
        room[at + length..behind].fill(CANARY);
        put
    }
}

impl Put {
    /// The bytes as they are now.
    fn bytes(&self) -> Vec<u8> {
        unsafe { std::slice::from_raw_parts(self.start.add(self.at), self.length) }.to_vec()
    }

    fn counts(&self) -> Vec<u16> {
        self.bytes().chunks_exact(2).map(|pair| u16::from_ne_bytes([pair[0], pair[1]])).collect()
    }

    /// Whether all canaries are there.
    fn sound(&self) -> bool {
        let room = unsafe { std::slice::from_raw_parts(self.start, ROOM) };
        let (end, behind) = (self.at + self.length, (self.at + self.length + 32).min(ROOM));
        room[self.at - 32..self.at].iter().chain(&room[end..behind]).all(|&byte| byte == CANARY)
    }
}

/// What is told when the library touches memory that it was not lent.
static mut CURRENT: [u8; 96] = [b' '; 96];

extern "C" fn touched(_: i32) {
    let text = b"\nThe library touched memory that it was not lent: ";
    unsafe {
        write(1, text.as_ptr(), text.len());
        write(1, &raw const CURRENT as *const u8, 96);
        _exit(1)
    }
}

/// The library, and memory for what is lent to it.
pub struct Library {
    rooms: [Room; 5],
}

impl Library {
    pub fn new() -> Library {
        for number in [7, 11] {
            unsafe { signal(number, touched) };
        }
        Library { rooms: [Room::new(), Room::new(), Room::new(), Room::new(), Room::new()] }
    }

    /// Says which case is run, for a run that breaks off.
    pub fn announce(&self, seed: u64, case: usize) {
        let text = format!("tests/run replay {seed} {case}\n");
        let mut line = [b' '; 96];
        line[..text.len()].copy_from_slice(text.as_bytes());
        unsafe { *(&raw mut CURRENT) = line };
    }

    /// Whether a case fits into the memory there is.
    pub fn takes(case: &Case) -> bool {
        [case.file.len(), 2 * case.marking.len(), case.list.len(), case.output.len()].iter().all(|&length| length + 128 <= ROOM)
    }

    /// Runs a case; `way` chooses how the buffers lie. An error tells what the library changed that was not lent for writing.
    pub fn run(&self, case: &Case, way: usize) -> Result<Outcome, String> {
        let marking: Vec<u8> = case.marking.iter().flat_map(|count| count.to_ne_bytes()).collect();
        let [file_room, marking_room, list_room, output_room, order_room] = &self.rooms;
        let file = file_room.put(&case.file, way, 1);
        let counts = marking_room.put(&marking, way + 1, 2);
        let list = list_room.put(&case.list, way + 2, 1);
        let output = output_room.put(&case.output, way + way / 3, 1);
        let order = order_room.put(&ORDER_FILL, way / 2 * 3 + way % 2, 1);
        let (code, [first, second, third]) = call(case, file, counts, list, output, order.shown);
        for (name, put, before) in [("file", file, &case.file), ("list", list, &case.list)] {
            if put.bytes() != *before {
                return Err(format!("the {name} was changed"));
            }
        }
        if !case.call.fires() && counts.bytes() != marking {
            return Err("the marking was changed".to_string());
        }
        if ![file, counts, list, output, order].iter().all(Put::sound) {
            return Err("bytes around a buffer were changed".to_string());
        }
        let order: Order = order.bytes().try_into().map_err(|_| "no order")?;
        let said = said(case.call, code, [first, second, third], order)?;
        let keeps_order = !matches!(said, Said::Order(_) | Said::FirstOrder { .. });
        if keeps_order && order != ORDER_FILL {
            return Err("the order was written where there is none".to_string());
        }
        Ok(Outcome { said, marking: counts.counts(), output: output.bytes() })
    }
}

/// Makes the call; the code, and the numbers that it handed out.
fn call(case: &Case, file: Put, counts: Put, list: Put, output: Put, order: *mut u8) -> (u8, [usize; 3]) {
    let mut out = [0xDEADBEEF; 3];
    let [a, b, c] = &mut out;
    let (net, net_len, marking, marking_len) = (file.shown as *const u8, file.length, counts.shown as *mut u16, counts.length / 2);
    let (items, items_len, lent, lent_len) = (list.shown as *const u8, list.length, output.shown, output.length);
    let code = unsafe {
        match case.call {
            Call::FlatSizes => kwz_flat_sizes(net, net_len, a, b),
            Call::FirstRow => kwz_first_row(net, net_len, marking, marking_len, a, b),
            Call::FireImages => kwz_fire_images(net, net_len, marking, marking_len, items, items_len, lent, lent_len, a, b),
            Call::Unfold => kwz_unfold(net, net_len, lent, lent_len, a, b),
            Call::Images => kwz_images(net, net_len, items, items_len, lent, lent_len, a, b),
            Call::RowOrder => kwz_row_order(net, net_len, case.row, order, a, b),
            Call::FireOrders => kwz_fire_orders(net, net_len, marking, marking_len, items, items_len, lent, lent_len, a, b),
            Call::FirstOrder => kwz_first_order(net, net_len, marking, marking_len, order, a, b),
            Call::NetSizes => kwz_net_sizes(net, net_len, a, b, c),
        }
    };
    if case.call != Call::NetSizes {
        out[2] = 0;
    }
    (code, out)
}

/// What a code and numbers say; an error where they say nothing.
fn said(call: Call, code: u8, [first, second, third]: [usize; 3], order: Order) -> Result<Said, String> {
    let rest_is_0 = |said: Said, rest: usize| if rest == 0 { Ok(said) } else { Err(format!("a number is {rest} and not 0")) };
    match (call, code) {
        (_, 0) if first < 256 => rest_is_0(Said::Refused { number: first as u8, place: second }, third),
        (Call::FlatSizes, 1) => Ok(Said::FlatSizes { places: first, rows: second }),
        (Call::NetSizes, 1) => Ok(Said::NetSizes { places: first, transitions: second, bindings: third }),
        (Call::FirstRow, 1) => Ok(Said::Row { row: first, tried: second }),
        (Call::FirstOrder, 1) => rest_is_0(Said::FirstOrder { order, tried: first }, second),
        (Call::FirstRow | Call::FirstOrder, 2) => rest_is_0(Said::Nothing { tried: first }, second),
        (Call::RowOrder, 1) => rest_is_0(Said::Order(order), first | second),
        (Call::RowOrder, 2) => rest_is_0(Said::NoOrder, first | second),
        (Call::Unfold, 1) => rest_is_0(Said::Written(first), second),
        (Call::Images | Call::FireImages | Call::FireOrders, 1) => rest_is_0(Said::Answered(first), second),
        _ => Err(format!("code {code} with {first}, {second}, {third}")),
    }
}
