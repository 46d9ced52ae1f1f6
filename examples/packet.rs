// The path of packet.c by the calls from Rust; it prints the same. examples/run builds and runs it. A lent slice is a pointer and its length.
#[rustfmt::skip]
extern "C" {
    fn valmthosh_write(saved: *mut u32, _: usize, send: *mut u32, _: usize, receive: *mut u32, _: usize, bytes: *const u8, _: usize,
        notices: *mut u32, _: usize, register: u32, value: u32, answer: *mut u32, _: usize) -> u32;
    fn valmthosh_read(saved: *mut u32, _: usize, send: *const u32, _: usize, receive: *const u32, _: usize, bytes: *const u8, _: usize,
        notices: *const u32, _: usize, register: u32, answer: *mut u32, _: usize) -> u32;
    fn valmthosh_receive(saved: *mut u32, _: usize, send: *const u32, _: usize, receive: *mut u32, _: usize, bytes: *mut u8, _: usize,
        notices: *mut u32, _: usize, packet: *const u8, _: usize, answer: *mut u32, _: usize) -> u32;
    fn valmthosh_send(saved: *mut u32, _: usize, send: *mut u32, _: usize, receive: *mut u32, _: usize, bytes: *const u8, _: usize,
        notices: *mut u32, _: usize, ready: u32, room: *mut u8, _: usize, answer: *mut u32, _: usize) -> u32;
    fn valmthosh_take(saved: *mut u32, _: usize, send: *const u32, _: usize, receive: *mut u32, _: usize, bytes: *const u8, _: usize,
        notices: *mut u32, _: usize, list: u32, room: *mut u32, _: usize, answer: *mut u32, _: usize) -> u32;
}

// A call on the five memories, by what it is given; its answer is printed, and its value is the result.
macro_rules! call {
    ($m:ident . $call:ident $(, $given:expr)*; $name:expr, $what:expr) => {{
        let mut answer = [0; 3];
        unsafe {
            $call($m.saved.as_mut_ptr(), 15, $m.send.as_mut_ptr(), 1024, $m.receive.as_mut_ptr(), 2048, $m.bytes.as_mut_ptr(), 32768,
                $m.notices.as_mut_ptr(), 2048, $($given,)* answer.as_mut_ptr(), 3)
        };
        let [reply, value, interrupts] = answer;
        println!("{:7} {:36} reply {reply:2}, value {value:08x}, interrupts {interrupts}", $name, $what);
        value
    }};
}

struct Machine {
    saved: [u32; 15],
    send: [u32; 1024],
    receive: [u32; 2048],
    bytes: [u8; 32768],
    notices: [u32; 2048],
}

fn main() {
    let mut m = Machine { saved: [0; 15], send: [0; 1024], receive: [0; 2048], bytes: [0; 32768], notices: [0; 2048] };
    let writes = |m: &mut Machine, these: &[(u32, u32, &str)]| {
        for &(register, value, what) in these {
            call!(m.valmthosh_write, register, value; "write", what);
        }
    };
    writes(&mut m, &[
        (0x000, 0x80000000, "reset"),
        (0x000, 0x40030009, "enable; incarnation 3, node 9"),
        (0x01C, 0x00000040, "NBQR: a block"),
        (0x01C, 0x00000060, "NBQR: a block"),
        (0x080, 0x00001028, "Receive RAM pointer to list 5"),
        (0x088, 0x00000020, "its head"),
        (0x088, 0x00000247, "token 0x123, enqueue"),
        (0x080, 0x00000140, "Receive RAM pointer to slot 5"),
        (0x088, 0x00000100, "its base"),
        (0x088, 0x00000100, "its size"),
        (0x088, 0x0005B000, "note_index 5, valid, do_acks, notify"),
        (0x00C, 0x00000006, "slot count"),
    ]);
    let packet = *b"\x00\x09\0\0\x00\x05\x00\x70\x83\0\0\0\0\0\0\x08\x75\x9a\0\0Hello 01\xfd\x98\0\0";
    call!(m.valmthosh_receive, packet.as_ptr(), packet.len(); "receive", "the packet");
    println!("slot 5: {}", String::from_utf8_lossy(&m.bytes[0x100..0x108]));
    call!(m.valmthosh_read, 0x014; "read", "NQR: the list's token");
    call!(m.valmthosh_read, 0x018; "read", "AQR: the slot, to be acked");
    let mut notice = [0u32; 8];
    call!(m.valmthosh_take, 5, notice.as_mut_ptr(), 8; "take", "list 5");
    println!("notice:{}", notice.map(|w| format!(" {w:08x}")).concat());
    call!(m.valmthosh_take, 5, notice.as_mut_ptr(), 8; "take", "list 5 again");
    writes(&mut m, &[
        (0x104, 0x00070000, "descriptor 0: dst_node 7"),
        (0x108, 0x00050000, "dst_slot 5"),
        (0x10C, 0x23000000, "ack_pkt, incarnation 3"),
        (0x114, 0x50000000, "control_pkt, go"),
    ]);
    let mut room = [0u8; 168];
    let length = call!(m.valmthosh_send, 1, room.as_mut_ptr(), room.len(); "send", "the ack");
    println!("ack:{}", room[..length as usize].iter().map(|b| format!(" {b:02x}")).collect::<String>());
    call!(m.valmthosh_read, 0x020; "read", "packets taken");
}
