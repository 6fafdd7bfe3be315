//! A queue in room of fixed size: what is expected is what smoltcp's tests of its `RingBuffer` expect, from memory.
#![cfg(feature = "alloc")]
use fumitorygate::socket::tcp;
use fumitorygate::storage::{Empty, Full, Resettable, RingBuffer};

const DOTS: [u8; 12] = [b'.'; 12];

#[test]
fn it_counts_its_items() {
    let mut ring = RingBuffer::new(vec![0; 2]);
    assert!(ring.is_empty() && !ring.is_full());
    assert_eq!((ring.capacity(), ring.len(), ring.window()), (2, 0, 2));
    *ring.enqueue_one().unwrap() = 1;
    assert!(!ring.is_empty() && !ring.is_full());
    *ring.enqueue_one().unwrap() = 2;
    assert!(!ring.is_empty() && ring.is_full());
    assert_eq!((ring.len(), ring.window(), ring.enqueue_one()), (2, 0, Err(Full)));
}

#[test]
fn items_come_in_their_order() {
    let mut ring = RingBuffer::new(vec![0; 5]);
    assert_eq!(ring.dequeue_one_with(|_| -> Result<(), ()> { unreachable!() }), Err(Empty));
    for i in 0..5 {
        assert_eq!(ring.enqueue_one_with(|item| Ok::<_, ()>(core::mem::replace(item, i))), Ok(Ok(0)));
    }
    assert_eq!(ring.enqueue_one_with(|_| -> Result<(), ()> { unreachable!() }), Err(Full));
    assert_eq!(ring.dequeue_one_with(|_| Err::<(), _>("no")), Ok(Err("no")));
    for i in 0..5 {
        assert_eq!(ring.dequeue_one_with(|item| Ok::<_, ()>(*item)), Ok(Ok(i)));
    }
    assert_eq!(ring.dequeue_one(), Err(Empty));
}

#[test]
fn many_are_added_next_to_each_other() {
    let mut ring = RingBuffer::new(DOTS.to_vec());
    let mut write = |count: usize, text: &[u8], room: usize| {
        let written = ring.enqueue_many_with(|items| {
            assert_eq!(items.len(), room);
            items[..count].copy_from_slice(text);
            (count, ())
        });
        assert_eq!(written, (count, ()));
    };
    write(2, b"ab", 12);
    write(4, b"cdef", 10);
    write(6, b"ghijkl", 6);
    assert!(ring.is_full());
    assert_eq!(ring.dequeue_many(3), b"abc");
    assert_eq!(ring.dequeue_many_with(|items| (2, items.len())), (2, 9));
    ring.enqueue_many(12).copy_from_slice(b"mnopq");
    assert_eq!(ring.dequeue_many(12), b"fghijkl");
    assert_eq!(ring.dequeue_many(12), b"mnopq");
    assert!(ring.is_empty());
}

#[test]
fn slices_go_round() {
    let mut storage = DOTS;
    let mut ring = RingBuffer::new(&mut storage[..]);
    assert_eq!((ring.enqueue_slice(b"abcdefgh"), ring.len()), (8, 8));
    let mut four = [0; 4];
    assert_eq!((ring.dequeue_slice(&mut four), &four), (4, b"abcd"));
    assert_eq!((ring.enqueue_slice(b"ijklmnopqrst"), ring.contiguous_window()), (8, 0));
    let mut all = [0; 20];
    assert_eq!(ring.dequeue_slice(&mut all), 12);
    assert_eq!(&all[..12], b"efghijklmnop");
}

#[test]
fn room_behind_is_written_before_it_counts() {
    let mut ring = RingBuffer::new(DOTS.to_vec());
    ring.get_unallocated(0, 4).copy_from_slice(b"abcd");
    ring.enqueue_unallocated(4);
    assert_eq!((ring.len(), ring.write_unallocated(2, b"gh"), ring.write_unallocated(0, b"ef")), (4, 2, 2));
    ring.enqueue_unallocated(4);
    assert_eq!((ring.get_allocated(0, 8), ring.get_allocated(6, 9)), (&b"abcdefgh"[..], &b"gh"[..]));
    ring.dequeue_allocated(6);
    assert_eq!((ring.write_unallocated(0, b"ijklmnopqrst"), ring.window()), (10, 10));
    ring.enqueue_unallocated(10);
    let mut all = [0; 12];
    assert_eq!((ring.read_allocated(0, &mut all), &all), (12, b"ghijklmnopqr"));
    assert_eq!((ring.get_allocated(12, 1), ring.get_allocated(99, 1)), (&[][..], &[][..]));
    assert_eq!((ring.get_unallocated(0, 1).len(), ring.get_unallocated(99, 1).len()), (0, 0));
}

#[test]
fn without_room_there_is_nothing() {
    let mut ring: RingBuffer<'_, u8> = RingBuffer::new(&mut [][..]);
    assert_eq!((ring.enqueue_one().is_err(), ring.dequeue_one().is_err(), ring.contiguous_window()), (true, true, 0));
    assert_eq!((ring.enqueue_slice(b"abc"), ring.dequeue_many(9).len(), ring.enqueue_many(9).len()), (0, 0, 0));
}

/// An item that can be made as it was.
#[derive(Debug, Default, PartialEq)]
struct Item(u8);

impl Resettable for Item {
    fn reset(&mut self) {
        self.0 = 0;
    }
}

#[test]
fn it_is_made_as_it_was() {
    let mut ring = RingBuffer::new(vec![Item(1), Item(2)]);
    ring.enqueue_one().unwrap().0 = 3;
    ring.reset();
    assert_eq!((ring.len(), ring.enqueue_many(2)), (0, &mut [Item(0), Item(0)][..]));
    ring.clear();
    assert!(ring.is_empty());
}

/// In smoltcp a socket's buffer is a queue of octets.
#[test]
fn a_socket_takes_it_for_its_room() {
    let socket = tcp::Socket::new(RingBuffer::new(vec![0; 64]), RingBuffer::new(vec![0; 128]));
    assert_eq!((socket.recv_capacity(), socket.send_capacity()), (64, 128));
}
