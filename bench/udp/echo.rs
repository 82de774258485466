//! The least that a program does for a datagram: it sends the same octets back.
//!
//!     echo ADDRESS

use std::env;
use std::net::UdpSocket;

fn main() {
    let address = env::args().nth(1).expect("an address");
    let socket = UdpSocket::bind(address).expect("a socket");
    let mut buf = [0; 1508];
    loop {
        let (len, from) = socket.recv_from(&mut buf).expect("a datagram");
        socket.send_to(&buf[..len], from).expect("a send");
    }
}
