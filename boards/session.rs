// The session of session.c from Rust: safe functions over the calls of sidingmint.h, and what they answer. Prints a line for each call.
#[repr(C)]
#[derive(Clone, Copy)]
struct Reason {
    number: u32,
    place: u32,
    detail: u64,
}

#[repr(C)]
#[derive(Clone, Copy)]
struct Answer {
    refusal: Reason,
    carried: Reason,
    number: u64,
    length: usize,
}

#[repr(C)]
#[derive(Default)]
struct SenderState {
    next: u64,
    outstanding: u64,
}

#[repr(C)]
#[derive(Default)]
struct ReceiverState {
    highest: u64,
    marks: u64,
}

unsafe extern "C" {
    fn sidingmint_sender_make(state: &mut SenderState, first: u64) -> Answer;
    fn sidingmint_sender_draw(state: &mut SenderState) -> Answer;
    fn sidingmint_sender_give_up(state: &mut SenderState, ticket: u64) -> Answer;
    fn sidingmint_sender_seal(
        pile: u8,
        hash_key: *const u8, hash_key_length: usize,
        expander_key: *const u8, expander_key_length: usize,
        header_key: *const u8, header_key_length: usize,
        line: *const u8, line_length: usize,
        state: &mut SenderState,
        ticket: u64,
        header: *const u8, header_length: usize,
        text: *const u8, text_length: usize,
        area: *mut u8, area_length: usize,
    ) -> Answer;
    fn sidingmint_receiver_make(state: &mut ReceiverState) -> Answer;
    fn sidingmint_receiver_receive(
        pile: u8,
        hash_key: *const u8, hash_key_length: usize,
        expander_key: *const u8, expander_key_length: usize,
        header_key: *const u8, header_key_length: usize,
        line: *const u8, line_length: usize,
        state: &mut ReceiverState,
        header: *const u8, header_length: usize,
        record: *const u8, record_length: usize,
        work: *mut u8, work_length: usize,
        text: *mut u8, text_length: usize,
    ) -> Answer;
}

// A line: its pile, keys and name.
struct Line<'a> {
    pile: u8,
    hash_key: &'a [u8],
    expander_key: &'a [u8],
    header_key: &'a [u8],
    name: &'a [u8],
}

impl SenderState {
    fn make(&mut self, first: u64) -> Answer {
        unsafe { sidingmint_sender_make(self, first) }
    }

    fn draw(&mut self) -> Answer {
        unsafe { sidingmint_sender_draw(self) }
    }

    fn give_up(&mut self, ticket: u64) -> Answer {
        unsafe { sidingmint_sender_give_up(self, ticket) }
    }

    fn seal(&mut self, on: &Line, ticket: u64, header: &[u8], text: &[u8], area: &mut [u8]) -> Answer {
        unsafe {
            sidingmint_sender_seal(
                on.pile,
                on.hash_key.as_ptr(), on.hash_key.len(),
                on.expander_key.as_ptr(), on.expander_key.len(),
                on.header_key.as_ptr(), on.header_key.len(),
                on.name.as_ptr(), on.name.len(),
                self,
                ticket,
                header.as_ptr(), header.len(),
                text.as_ptr(), text.len(),
                area.as_mut_ptr(), area.len(),
            )
        }
    }
}

impl ReceiverState {
    fn make(&mut self) -> Answer {
        unsafe { sidingmint_receiver_make(self) }
    }

    fn receive(&mut self, on: &Line, header: &[u8], record: &[u8], work: &mut [u8], text: &mut [u8]) -> Answer {
        unsafe {
            sidingmint_receiver_receive(
                on.pile,
                on.hash_key.as_ptr(), on.hash_key.len(),
                on.expander_key.as_ptr(), on.expander_key.len(),
                on.header_key.as_ptr(), on.header_key.len(),
                on.name.as_ptr(), on.name.len(),
                self,
                header.as_ptr(), header.len(),
                record.as_ptr(), record.len(),
                work.as_mut_ptr(), work.len(),
                text.as_mut_ptr(), text.len(),
            )
        }
    }
}

fn place(code: u32) -> &'static str {
    match code {
        1 => "part",
        2 => "sender",
        3 => "expander",
        4 => "cipher",
        5 => "sealing",
        6 => "receiver",
        100 => "board",
        _ => "nowhere",
    }
}

fn print(call: &str, answer: Answer, bytes: &[u8]) {
    print!("{call}:");
    if answer.refusal.number != 0 {
        print!(" refused {} {} {}", answer.refusal.number, place(answer.refusal.place), answer.refusal.detail);
        if answer.carried.number != 0 {
            print!(", carried {} {} {}", answer.carried.number, place(answer.carried.place), answer.carried.detail);
        }
    } else {
        print!(" {}", answer.number);
        if answer.length > 0 {
            print!(" ");
        }
        for byte in &bytes[..answer.length] {
            print!("{byte:02x}");
        }
    }
    println!();
}

fn main() {
    let line = Line { pile: b'a', hash_key: &[0; 16], expander_key: &[0; 16], header_key: &[0; 16], name: &[0, 0, 0, 0, 0, 0, 0, 1] };
    let (mut area, mut work, mut got) = ([0; 4120], [0; 4112], [0; 4096]);
    let text = b"lifts unit 7: 41";
    let mut sender = SenderState::default();
    let mut receiver = ReceiverState::default();
    print("make a sender from 0", sender.make(0), &[]);
    print("make a sender from 1", sender.make(1), &[]);
    print("make a receiver", receiver.make(), &[]);
    print("draw", sender.draw(), &[]);
    print("draw", sender.draw(), &[]);
    print("give up 1", sender.give_up(1), &[]);
    print("draw", sender.draw(), &[]);
    print("seal with 1", sender.seal(&line, 1, &[], text, &mut area), &area);
    print("seal 4097 bytes", sender.seal(&line, 2, &[], &[0; 4097], &mut area), &area);
    let sealed = sender.seal(&line, 2, &[], text, &mut area);
    print("seal", sealed, &area);
    print("receive 3 bytes", receiver.receive(&line, &[], &area[..3], &mut work, &mut got), &got);
    print("receive", receiver.receive(&line, &[], &area[..sealed.length], &mut work, &mut got), &got);
    print("receive again", receiver.receive(&line, &[], &area[..sealed.length], &mut work, &mut got), &got);
    println!("sender kept: {} {}", sender.next, sender.outstanding);
    println!("receiver kept: {} {:x}", receiver.highest, receiver.marks);
    sender.outstanding = 1;
    print("draw where no sender stands", sender.draw(), &[]);
}
