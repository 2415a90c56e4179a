//! Rooms for what calls hand out.

use crate::error::NoAnswer;
use crate::words::unknown;

/// Room for any line, except for answers to pairs.
pub const LINE: usize = 256;

/// The room for an item of each node. An instance with too many nodes is refused, and needs none.
pub fn room_for(nodes: u32) -> usize {
    if nodes <= 1 << 27 {
        nodes as usize
    } else {
        0
    }
}

/// Room for items that a call hands out, and their number.
pub struct Room<T> {
    items: Vec<T>,
    needed: usize,
}

impl<T: Copy> Room<T> {
    /// Memory that isn't touched before a call fills it.
    pub fn new(room: usize) -> Result<Room<T>, NoAnswer> {
        let mut items = Vec::new();
        items.try_reserve_exact(room)?;
        Ok(Room { items, needed: 0 })
    }

    pub fn at(&mut self) -> *mut T {
        self.items.as_mut_ptr()
    }

    pub fn room(&self) -> usize {
        self.items.capacity()
    }

    pub fn needed(&mut self) -> *mut usize {
        &mut self.needed
    }

    pub fn fits(&self) -> bool {
        self.needed <= self.room()
    }

    /// Makes enough room for all items, if there wasn't.
    pub fn grow(&mut self) -> Result<(), NoAnswer> {
        if !self.fits() {
            *self = Room::new(self.needed)?;
        }
        Ok(())
    }

    /// The items that were handed out.
    pub fn take(self) -> Vec<T> {
        let count = self.needed;
        self.first(count)
    }

    /// So many items, of which the call has reported the number elsewhere.
    pub fn first(mut self, count: usize) -> Vec<T> {
        let count = count.min(self.room());
        // The call has written them.
        unsafe { self.items.set_len(count) };
        self.items
    }
}

impl Room<u8> {
    /// A text that was handed out, which is UTF-8: ASCII, but for names of files. It isn't copied.
    pub fn text(self) -> Result<String, NoAnswer> {
        String::from_utf8(self.take()).or_else(|_| unknown("bytes that are no UTF-8"))
    }

    /// A byte for each node that was handed out.
    pub fn marks(self) -> Result<Vec<bool>, NoAnswer> {
        let mut marks = Vec::new();
        marks.try_reserve_exact(self.needed)?;
        marks.extend(self.take().into_iter().map(|it| it != 0));
        Ok(marks)
    }
}
