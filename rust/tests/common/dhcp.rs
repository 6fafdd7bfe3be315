//! A server's messages of DHCP by octets: their forms are of RFC 2131, 2, and RFC 2132.
use super::{ethernet, udp4};
use fumitorygate::wire::Ipv4Address;

pub const SERVER: Ipv4Address = Ipv4Address::new(192, 168, 69, 100);
pub const SERVER_LINK: [u8; 6] = [2, 0, 0, 0, 0, 100];
pub const LEASED: Ipv4Address = Ipv4Address::new(192, 168, 69, 50);

/// The types of messages (RFC 2132, 9.6).
pub const DISCOVER: u8 = 1;
pub const OFFER: u8 = 2;
pub const REQUEST: u8 = 3;
pub const ACK: u8 = 5;
pub const NAK: u8 = 6;

/// Where the fields of a message begin in a frame: its number, the client's own address, its hardware address, the options.
pub const XID: usize = 46;
pub const CIADDR: usize = 54;
pub const CHADDR: usize = 70;
pub const OPTIONS: usize = 282;

/// A server's message to everybody in answer to a client's, which leases an address for two minutes.
pub fn reply(asked: &[u8], kind: u8, leased: Ipv4Address) -> Vec<u8> {
    let mut message = vec![0; 240];
    message[..3].copy_from_slice(&[2, 1, 6]);
    message[4..8].copy_from_slice(&asked[XID..XID + 4]);
    message[16..20].copy_from_slice(&leased.octets());
    message[28..34].copy_from_slice(&asked[CHADDR..CHADDR + 6]);
    message[236..].copy_from_slice(&[99, 130, 83, 99]);
    message.extend([53, 1, kind, 54, 4, 192, 168, 69, 100, 51, 4, 0, 0, 0, 120, 1, 4, 255, 255, 255, 0]);
    message.extend([3, 4, 192, 168, 69, 1, 6, 8, 192, 168, 69, 2, 192, 168, 69, 3, 255]);
    ethernet([0xff; 6], SERVER_LINK, 0x0800, &udp4(SERVER, Ipv4Address::BROADCAST, (67, 68), &message))
}

/// The value of an option of a message that was sent.
pub fn option(frame: &[u8], code: u8) -> Option<&[u8]> {
    let mut at = OPTIONS;
    while frame[at] != 255 {
        let end = at + 2 + usize::from(frame[at + 1]);
        if frame[at] == code {
            return Some(&frame[at + 2..end]);
        }
        at = end;
    }
    None
}
