//! Every command, cut at every byte, and bytes that are none.

use super::*;

/// What comes out of some bytes.
fn heard(bytes: &[u8]) -> Vec<Command> {
    let mut parser = Parser::default();
    bytes.iter().filter_map(|&byte| parser.push(byte)).collect()
}

fn plain(bytes: &[u8]) -> Command {
    Command::Plain(bytes.to_vec())
}

/// An SPI operation as it is sent.
fn spiop(send: u32, read: u32, data: &[u8]) -> Vec<u8> {
    let numbers = [send, read].map(u32::to_le_bytes);
    [&[0x13], &numbers[0][..3], &numbers[1][..3], data].concat()
}

/// Commands without an operation, and their answers.
const ANSWERS: [(&[u8], &[u8]); 31] = [
    (&[0x00], &[0x06]),
    (&[0x01], &[0x06, 1, 0]),
    (&[0x03], b"\x06tunebriar\0\0\0\0\0\0\0"),
    (&[0x04], &[0x06, 0xFF, 0xFF]),
    (&[0x05], &[0x06, 0x08]),
    (&[0x06], &[0x15]),
    (&[0x07], &[0x06, 4, 1]),
    (&[0x08], &[0x06, 0, 1, 0]),
    (&[0x09, 1, 2, 3], &[0x15]),
    (&[0x0A, 1, 2, 3, 4, 5, 6], &[0x15]),
    (&[0x0B], &[0x15]),
    (&[0x0C, 1, 2, 3, 4], &[0x15]),
    (&[0x0D, 2, 0, 0, 4, 5, 6, 0x10, 0x10], &[0x15]),
    (&[0x0D, 0, 0, 0, 4, 5, 6], &[0x15]),
    (&[0x0E, 1, 2, 3, 4], &[0x15]),
    (&[0x0F], &[0x15]),
    (&[0x10], &[0x15, 0x06]),
    (&[0x11], &[0x06, 0, 1, 0]),
    (&[0x12, 0x08], &[0x06]),
    (&[0x12, 0x00], &[0x15]),
    (&[0x12, 0x01], &[0x15]),
    (&[0x12, 0x0F], &[0x15]),
    (&[0x14, 0, 0, 0, 0], &[0x15]),
    (&[0x14, 0, 0, 0, 1], &[0x06, 0, 0, 0, 1]),
    (&[0x14, 0x40, 0x42, 0x0F, 0], &[0x06, 0x40, 0x42, 0x0F, 0]),
    (&[0x15, 0], &[0x06]),
    (&[0x15, 1], &[0x06]),
    (&[0x16, 0], &[0x15]),
    (&[0x17, 0], &[0x15]),
    (&[0x18, 0], &[0x15]),
    (&[0x13, 0, 0, 0, 0, 0, 0], &[0x15]),
];

#[test]
fn every_command_is_answered() {
    for (sent, answer) in ANSWERS {
        assert_eq!(heard(sent), [plain(answer)], "{sent:02X?}");
    }
}

#[test]
fn the_map_has_what_is_offered_and_nothing_else() {
    let [Command::Plain(answer)] = &heard(&[0x02])[..] else {
        panic!("one answer");
    };
    assert_eq!((answer[0], answer.len()), (ACK, 33));
    assert_eq!(answer[1..5], [0b1011_1111, 0b0000_0001, 0b0011_1111, 0]);
    assert!(answer[5..].iter().all(|&byte| byte == 0));
}

#[test]
fn an_operation_is_its_bytes_and_zeros() {
    let read = heard(&spiop(4, 3, &[3, 0, 0x10, 0xFE]));
    let sent = vec![3, 0, 0x10, 0xFE, 0, 0, 0];
    assert_eq!(read, [Command::Operation { sent, read: 3 }]);
    for (send, read) in [(1, 0), (260, 0), (4, 256), (1, 259)] {
        let [Command::Operation { sent, read: asked }] =
            &heard(&spiop(send, read, &vec![0x55; send as usize]))[..]
        else {
            panic!("{send} and {read} bytes");
        };
        let (zeros, all) = (sent.len() - send as usize, send + read);
        assert_eq!((sent.len(), *asked, zeros), (all as usize, zeros, zeros));
        assert!(sent[..send as usize].iter().all(|&byte| byte == 0x55));
        assert!(sent[send as usize..].iter().all(|&byte| byte == 0));
    }
    // No chip drives anything before its first byte, and yet it is asked.
    let sent = vec![0; 5];
    assert_eq!(
        heard(&spiop(0, 5, &[])),
        [Command::Operation { sent, read: 5 }]
    );
}

#[test]
fn what_is_too_long_is_taken_and_not_done() {
    for (send, read) in [
        (261, 0),
        (4, 257),
        (0, 261),
        (65_536, 0xFF_FFFF),
        (0xFF_FFFF, 1),
    ] {
        let mut parser = Parser::default();
        for byte in spiop(send, read, &[]) {
            let now = parser.push(byte);
            assert!(now.is_none_or(|now| send == 0 && now == plain(&[NAK])));
        }
        for place in 1..=send {
            // Bytes that would be commands, were they not data.
            let now = parser.push(0x10);
            assert!(parser.data.capacity() <= 2 * LONGEST);
            assert_eq!(now, (place == send).then(|| plain(&[NAK])), "{place}");
        }
        assert_eq!(parser.push(0x10), Some(plain(&[NAK, ACK])), "in step again");
    }
}

#[test]
fn cut_at_every_byte_nothing_comes_before_the_last() {
    let operations = [
        spiop(4, 3, &[3, 0, 0, 0]),
        spiop(300, 0, &[9; 300]),
        spiop(0, 9, &[]),
    ];
    let plain = ANSWERS.iter().map(|(sent, _)| sent.to_vec());
    for sent in plain.chain(operations) {
        let mut parser = Parser::default();
        let (last, before) = sent.split_last().expect("bytes");
        for (place, &byte) in before.iter().enumerate() {
            assert_eq!(parser.push(byte), None, "{sent:02X?} at {place}");
            assert!(parser.inside());
        }
        assert!(parser.push(*last).is_some(), "{sent:02X?}");
        assert!(!parser.inside());
    }
}

#[test]
fn an_unknown_opcode_is_one_byte() {
    for opcode in 0x19..=0xFF {
        assert_eq!(
            heard(&[opcode, 0x10]),
            [Command::Unknown, plain(&[NAK, ACK])]
        );
    }
    assert_eq!(heard(&[]), []);
}

#[test]
fn any_bytes_are_taken_in_little_room() {
    let mut parser = Parser::default();
    let mut word: u32 = 1;
    for _ in 0..3_000_000 {
        word = word.wrapping_mul(1_664_525).wrapping_add(1_013_904_223);
        if let Some(Command::Operation { sent, read }) = parser.push((word >> 24) as u8) {
            assert!((1..=LONGEST).contains(&sent.len()) && read <= sent.len());
        }
        assert!(parser.head.len() < 7 || parser.left > 0);
        assert!(parser.data.len() <= LONGEST);
    }
}
