//! Sends reads of Binary Value 1 to a gateway, so many in flight at once, and counts the answers.
//!
//!     load ADDRESS IN_FLIGHT COUNT
//!
//! It prints how many answers came in a second.

use std::env;
use std::net::UdpSocket;
use std::time::{Duration, Instant};

/// A read of Present_Value of Binary Value 1, of the station 01 of network 100.
const READ: [u8; 22] = [
    0x81, 0x0A, 0x00, 0x16, 0x01, 0x24, 0x00, 0x64, 0x01, 0x01, 0xFF, 0x00, 0x05, 0x07, 0x0C, 0x0C,
    0x01, 0x40, 0x00, 0x01, 0x19, 0x55,
];

fn main() {
    let words: Vec<String> = env::args().collect();
    let in_flight: u64 = words[2].parse().expect("how many are in flight");
    let count: u64 = words[3].parse().expect("how many answers are waited for");
    let socket = UdpSocket::bind("127.0.0.1:0").expect("a socket");
    socket.connect(&words[1]).expect("an address");
    socket.set_read_timeout(Some(Duration::from_secs(1))).expect("a timeout");
    let mut buf = [0; 1508];
    let mut lost = 0;
    let start = Instant::now();
    for _ in 0..in_flight {
        socket.send(&READ).expect("a send");
    }
    for _ in 0..count {
        // Where nothing came in a second what was in flight is lost, and one more is sent.
        if socket.recv(&mut buf).is_err() {
            lost += 1;
        }
        socket.send(&READ).expect("a send");
    }
    let seconds = start.elapsed().as_secs_f64() - lost as f64;
    println!("{:.0}", (count - lost) as f64 / seconds);
}
