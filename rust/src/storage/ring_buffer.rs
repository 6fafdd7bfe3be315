//! A queue in room of fixed size.
use super::{Empty, Full, ManagedSlice, Resettable};

/// A queue of items in room that a program gives, which is used over and over: for programs that have one of their own.
///
/// A call that lends items lends those that stand next to each other: what goes on at the front of the room takes another
/// call.
#[derive(Debug)]
pub struct RingBuffer<'a, T> {
    storage: ManagedSlice<'a, T>,
    /// Where the first item is.
    read_at: usize,
    length: usize,
}

impl<'a, T> RingBuffer<'a, T> {
    /// A queue without items, in this room. What stands there is written over.
    pub fn new<S: Into<ManagedSlice<'a, T>>>(storage: S) -> RingBuffer<'a, T> {
        RingBuffer { storage: storage.into(), read_at: 0, length: 0 }
    }

    /// Drops all items.
    pub fn clear(&mut self) {
        (self.read_at, self.length) = (0, 0);
    }

    /// Drops all items, and makes the room as it was at first.
    pub fn reset(&mut self)
    where
        T: Resettable,
    {
        self.clear();
        self.storage.iter_mut().for_each(T::reset);
    }

    /// How many items there may be.
    pub fn capacity(&self) -> usize {
        self.storage.len()
    }

    /// How many items there are.
    pub fn len(&self) -> usize {
        self.length
    }

    /// For how many items there is room.
    pub fn window(&self) -> usize {
        self.capacity() - self.length
    }

    /// For how many items there is room next to each other, behind the last one.
    pub fn contiguous_window(&self) -> usize {
        self.window().min(self.capacity() - self.index(self.length))
    }

    /// Whether there are none.
    pub fn is_empty(&self) -> bool {
        self.length == 0
    }

    /// Whether there are as many as there may be.
    pub fn is_full(&self) -> bool {
        self.window() == 0
    }

    /// The place of an item, so many behind the first.
    fn index(&self, offset: usize) -> usize {
        match self.capacity() {
            0 => 0,
            capacity => (self.read_at + offset) % capacity,
        }
    }

    /// Adds an item, unless `f` fails, which writes it.
    ///
    /// # Errors
    /// [`Full`]: then `f` isn't called.
    pub fn enqueue_one_with<'b, R, E, F>(&'b mut self, f: F) -> Result<Result<R, E>, Full>
    where
        F: FnOnce(&'b mut T) -> Result<R, E>,
    {
        if self.is_full() {
            return Err(Full);
        }
        let index = self.index(self.length);
        let done = f(&mut self.storage[index]);
        self.length += usize::from(done.is_ok());
        Ok(done)
    }

    /// Adds an item, which is to be written.
    ///
    /// # Errors
    /// [`Full`].
    pub fn enqueue_one(&mut self) -> Result<&mut T, Full> {
        if self.is_full() {
            return Err(Full);
        }
        let index = self.index(self.length);
        self.length += 1;
        Ok(&mut self.storage[index])
    }

    /// Takes the first item out, unless `f` fails, which reads it.
    ///
    /// # Errors
    /// [`Empty`]: then `f` isn't called.
    pub fn dequeue_one_with<'b, R, E, F>(&'b mut self, f: F) -> Result<Result<R, E>, Empty>
    where
        F: FnOnce(&'b mut T) -> Result<R, E>,
    {
        if self.is_empty() {
            return Err(Empty);
        }
        let (first, next) = (self.read_at, self.index(1));
        let done = f(&mut self.storage[first]);
        if done.is_ok() {
            self.read_at = next;
            self.length -= 1;
        }
        Ok(done)
    }

    /// Takes the first item out.
    ///
    /// # Errors
    /// [`Empty`].
    pub fn dequeue_one(&mut self) -> Result<&mut T, Empty> {
        if self.is_empty() {
            return Err(Empty);
        }
        let first = self.read_at;
        self.dequeue_allocated(1);
        Ok(&mut self.storage[first])
    }

    /// Adds as many items as `f` says, which writes them to the front of the room next to the last one.
    ///
    /// # Panics
    /// If `f` says more than there is room for.
    pub fn enqueue_many_with<'b, R, F>(&'b mut self, f: F) -> (usize, R)
    where
        F: FnOnce(&'b mut [T]) -> (usize, R),
    {
        let (start, room) = (self.index(self.length), self.contiguous_window());
        let (size, result) = f(&mut self.storage[start..start + room]);
        assert!(size <= room);
        self.length += size;
        (size, result)
    }

    /// Adds items, at most so many and as many as there is room for next to the last one. They are to be written.
    pub fn enqueue_many(&mut self, size: usize) -> &mut [T] {
        let (start, size) = (self.index(self.length), self.contiguous_window().min(size));
        self.length += size;
        &mut self.storage[start..start + size]
    }

    /// Adds as many of the items as there is room for, and returns how many.
    pub fn enqueue_slice(&mut self, data: &[T]) -> usize
    where
        T: Copy,
    {
        let size = self.write_unallocated(0, data);
        self.enqueue_unallocated(size);
        size
    }

    /// Takes as many items out as `f` says, which reads the first ones that stand next to each other.
    ///
    /// # Panics
    /// If `f` says more than there are.
    pub fn dequeue_many_with<'b, R, F>(&'b mut self, f: F) -> (usize, R)
    where
        F: FnOnce(&'b mut [T]) -> (usize, R),
    {
        let (start, room, capacity) = (self.read_at, self.length.min(self.capacity() - self.read_at), self.capacity());
        let (size, result) = f(&mut self.storage[start..start + room]);
        assert!(size <= room);
        self.read_at = if start + size == capacity { 0 } else { start + size };
        self.length -= size;
        (size, result)
    }

    /// Takes items out, at most so many and as many as stand next to each other.
    pub fn dequeue_many(&mut self, size: usize) -> &mut [T] {
        let start = self.read_at;
        let size = size.min(self.length).min(self.capacity() - start);
        self.dequeue_allocated(size);
        &mut self.storage[start..start + size]
    }

    /// Takes as many items out as there are and the slice has room for, and returns how many.
    pub fn dequeue_slice(&mut self, data: &mut [T]) -> usize
    where
        T: Copy,
    {
        let size = self.read_allocated(0, data);
        self.dequeue_allocated(size);
        size
    }

    /// The room that begins so many items behind the last one, at most of a size, as far as it goes on next to that.
    pub fn get_unallocated(&mut self, offset: usize, size: usize) -> &mut [T] {
        let room = self.window().saturating_sub(offset);
        let start = if room == 0 { 0 } else { self.index(self.length + offset) };
        let size = size.min(room).min(self.capacity() - start);
        &mut self.storage[start..start + size]
    }

    /// Writes items into the room that begins so many behind the last one, as many as it holds, and returns how many.
    /// They aren't added by that.
    pub fn write_unallocated(&mut self, offset: usize, data: &[T]) -> usize
    where
        T: Copy,
    {
        let mut written = 0;
        for _ in 0..2 {
            let room = self.get_unallocated(offset + written, data.len() - written);
            let size = room.len();
            room.copy_from_slice(&data[written..written + size]);
            written += size;
        }
        written
    }

    /// Adds items that were written into the room behind the last one.
    ///
    /// # Panics
    /// If there isn't room for so many.
    pub fn enqueue_unallocated(&mut self, count: usize) {
        assert!(count <= self.window());
        self.length += count;
    }

    /// The items from a place on, at most so many, as far as they stand next to each other.
    pub fn get_allocated(&self, offset: usize, size: usize) -> &[T] {
        let there = self.length.saturating_sub(offset);
        let start = if there == 0 { 0 } else { self.index(offset) };
        let size = size.min(there).min(self.capacity() - start);
        &self.storage[start..start + size]
    }

    /// Copies items from a place on, which stay, and returns how many.
    pub fn read_allocated(&mut self, offset: usize, data: &mut [T]) -> usize
    where
        T: Copy,
    {
        let mut read = 0;
        for _ in 0..2 {
            let items = self.get_allocated(offset + read, data.len() - read);
            data[read..read + items.len()].copy_from_slice(items);
            read += items.len();
        }
        read
    }

    /// Takes the first items out, so many.
    ///
    /// # Panics
    /// If there are fewer.
    pub fn dequeue_allocated(&mut self, count: usize) {
        assert!(count <= self.length);
        self.read_at = self.index(count);
        self.length -= count;
    }
}

impl<'a, T> From<ManagedSlice<'a, T>> for RingBuffer<'a, T> {
    fn from(storage: ManagedSlice<'a, T>) -> RingBuffer<'a, T> {
        RingBuffer::new(storage)
    }
}
