//! 01, "Bench set".

use crate::draft::*;
use crate::engine::{Machine, Reply};

const SLOT_CONTROL: u32 = 1 << 15; // valid
const DO_ACKS: u32 = 1 << 13;
const NOTIFY: u32 = 1 << 12;

/// A station enabled as this node, incarnation 3.
fn node(number: u32) -> Machine {
    let mut machine = Machine::station(None);
    done(&mut machine, 0x000, 0x4003_0000 | number);
    machine
}

fn done(machine: &mut Machine, register: u32, value: u32) {
    let answer = machine.write(register, value);
    assert_eq!(answer.reply, Reply::Done, "write {register:#x} {value:#x}");
}

/// Node 9 with slot count 6, slot 5 of this size and control, list 0 set and two blocks waiting.
fn node_9_with_slot_5(size: u32, control: u32) -> Machine {
    let mut machine = node(9);
    done(&mut machine, 0x00C, 6);
    done(&mut machine, 0x080, 5 * 64);
    for word in [1024, size, control] {
        done(&mut machine, 0x088, word);
    }
    done(&mut machine, 0x080, 0x1000);
    done(&mut machine, 0x084, 0x20);
    done(&mut machine, 0x01C, 0x40);
    done(&mut machine, 0x01C, 0x60);
    machine
}

fn bytes_to_go_of_slot_5(machine: &Machine) -> i32 {
    machine.receive_ram[5 * 16 + 3] as i32
}

/// A packet from node 7 to node 9 slot 5.
fn packet(offset: u32, payload: &[u8]) -> Vec<u8> {
    let draft = Draft {
        payload: payload.to_vec(),
        ..Draft::default()
    };
    draft
        .with(DST_NODE, 9)
        .with(DST_SLOT, 5)
        .with(SRC_NODE, 7)
        .with(INCARNATION, 3)
        .with(OFFSET, offset)
        .encode()
}

/// Node 7 sends 300 bytes to node 9 slot 5: "control1 for notify, go, 300 bytes 0x3000012C".
fn three_packets() -> Vec<Vec<u8>> {
    let mut machine = node(7);
    done(&mut machine, 0x080, 0x1000);
    done(&mut machine, 0x084, 0x20);
    done(&mut machine, 0x01C, 0x40);
    for (byte, place) in machine.data.iter_mut().zip(0..300) {
        *byte = (place % 251) as u8;
    }
    done(&mut machine, 0x104, 0x0009_0000);
    done(&mut machine, 0x108, 0x0005_0000);
    done(&mut machine, 0x10C, 0x8300_0000);
    done(&mut machine, 0x114, 0x3000_012C);
    let mut send = || {
        let mut room = [0; 168];
        let answer = machine.send(true, &mut room);
        assert_eq!(answer.reply, Reply::Done);
        room[..answer.value as usize].to_vec()
    };
    let packets = vec![send(), send(), send()];
    assert_eq!(machine.send(true, &mut [0; 168]).reply, Reply::Quiet);
    packets
}

#[test]
fn pcsr1_after_reset() {
    assert_eq!(Machine::station(None).read(0x004).value, 0x9804_0000);
}

#[test]
fn payloads_and_first_words() {
    let packets = three_packets();
    let payloads: Vec<usize> = packets.iter().map(|packet| packet.len() - 24).collect();
    assert_eq!(payloads, [128, 128, 44]);
    let first = [0x0009_0000_u32, 0x0005_0070, 0x8300_0000, 0x0000_012C];
    let bytes: Vec<u8> = first.iter().flat_map(|word| word.to_be_bytes()).collect();
    assert_eq!(packets[0][..16], bytes);
}

#[test]
fn arriving_last_to_first() {
    let mut machine = node_9_with_slot_5(512, SLOT_CONTROL | NOTIFY);
    let mut counts = Vec::new();
    for packet in three_packets().iter().rev() {
        assert_eq!(machine.receive(packet).reply, Reply::Done);
        counts.push(bytes_to_go_of_slot_5(&machine));
    }
    assert_eq!(counts, [-44, -172, 0]);
    let arrived = &machine.data[1024..1324];
    assert!(arrived
        .iter()
        .zip(0..300)
        .all(|(&byte, place)| byte == (place % 251) as u8));
    let mut room = [0; 8];
    assert_eq!(machine.take(0, &mut room).value, 0x0005_0070);
    assert_eq!(room[..4], [0x0005_0070, 0x0300_0000, 0x0000_012C, 0x40]);
}

#[test]
fn borders_of_a_buffer_of_256() {
    let cases: [(u32, usize, Reply, u32); 4] = [
        (256, 0, Reply::Done, 0),
        (257, 0, Reply::Fault, 0x1000),
        (128, 128, Reply::Done, 0),
        (132, 128, Reply::Fault, 0x0800),
    ];
    for (offset, payload, reply, status) in cases {
        let mut machine = node_9_with_slot_5(256, SLOT_CONTROL);
        let answer = machine.receive(&packet(offset, &vec![1; payload]));
        assert_eq!((answer.reply, answer.value), (reply, status));
    }
}

#[test]
fn slot_5_range_fault() {
    let mut machine = node_9_with_slot_5(256, SLOT_CONTROL);
    done(&mut machine, 0x00C, 5);
    let answer = machine.receive(&packet(0, &[]));
    assert_eq!((answer.reply, answer.value), (Reply::Fault, 0x4000));
    assert_eq!(machine.take(0, &mut [0; 8]).value, 0x0005_4000);
}

#[test]
fn aqr_entry_of_slot_5() {
    let mut machine = node_9_with_slot_5(256, SLOT_CONTROL | DO_ACKS);
    let empty_message = Draft::of(&packet(0, &[]))
        .expect("a packet")
        .with(USE_MSG_SIZE, 1)
        .encode();
    let answer = machine.receive(&empty_message);
    assert_eq!((answer.reply, answer.interrupts), (Reply::Done, 1));
    assert_eq!(machine.read(0x018).value, 0x8000_0005);
    assert_eq!(machine.read(0x018).value, 0);
}

/// "active 0, 1, 3 after sender 1: 3, 0, 1".
#[test]
fn order_of_senders() {
    let mut machine = node(7);
    machine.saved.last_sender = 1;
    for number in [0, 1, 3] {
        done(&mut machine, 0x100 + 64 * number + 0x14, 0x5000_0000);
    }
    let mut senders = Vec::new();
    while machine.send(true, &mut [0; 168]).reply == Reply::Done {
        senders.push(machine.saved.last_sender);
    }
    assert_eq!(senders, [3, 0, 1]);
}
