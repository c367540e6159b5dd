//! The values that messages have, as words and runs of bytes.

use super::frame::{damaged, Reader, Writer};
use super::message::{Figures, MoveTimes, Resident};
use crate::mistake::Mistake;
use crate::moment::Moment;
use speldervacht::Change;
use std::io;
use std::sync::Arc;

pub trait Value: Sized {
    fn put(&self, out: &mut Writer);
    fn take(from: &mut Reader) -> io::Result<Self>;
}

impl Value for u64 {
    fn put(&self, out: &mut Writer) {
        out.word(*self);
    }

    fn take(from: &mut Reader) -> io::Result<u64> {
        from.word()
    }
}

impl Value for bool {
    fn put(&self, out: &mut Writer) {
        out.word(u64::from(*self));
    }

    fn take(from: &mut Reader) -> io::Result<bool> {
        Ok(from.word()? != 0)
    }
}

impl Value for Vec<u8> {
    fn put(&self, out: &mut Writer) {
        out.run(self);
    }

    fn take(from: &mut Reader) -> io::Result<Vec<u8>> {
        Ok(from.run()?.to_vec())
    }
}

impl Value for String {
    fn put(&self, out: &mut Writer) {
        out.run(self.as_bytes());
    }

    fn take(from: &mut Reader) -> io::Result<String> {
        String::from_utf8(from.run()?.to_vec()).map_err(|_| damaged())
    }
}

/// How many, and then each.
impl<T: Value> Value for Vec<T> {
    fn put(&self, out: &mut Writer) {
        out.word(self.len() as u64);
        self.iter().for_each(|value| value.put(out));
    }

    fn take(from: &mut Reader) -> io::Result<Vec<T>> {
        (0..from.word()?).map(|_| T::take(from)).collect()
    }
}

/// A record by its address.
impl Value for (u64, Arc<[u8]>) {
    fn put(&self, out: &mut Writer) {
        out.word(self.0);
        out.run(&self.1);
    }

    fn take(from: &mut Reader) -> io::Result<(u64, Arc<[u8]>)> {
        Ok((from.word()?, from.run()?.into()))
    }
}

/// Values with these fields, each put in turn.
macro_rules! fields {
    ($($type:ident { $($field:ident),* })*) => {
        $(impl Value for $type {
            fn put(&self, out: &mut Writer) {
                $(self.$field.put(out);)*
            }

            fn take(from: &mut Reader) -> io::Result<$type> {
                Ok($type { $($field: Value::take(from)?),* })
            }
        })*
    };
}

fields! {
    Resident { address, dirty, bytes }
    Figures { dirty, held, maximum, count, due, next, records }
    MoveTimes { flush, list, switch }
}

impl Value for Moment {
    fn put(&self, out: &mut Writer) {
        out.word(*self as u64);
    }

    fn take(from: &mut Reader) -> io::Result<Moment> {
        nth(&Moment::ALL, from)
    }
}

impl Value for Mistake {
    fn put(&self, out: &mut Writer) {
        out.word(*self as u64);
    }

    fn take(from: &mut Reader) -> io::Result<Mistake> {
        nth(&Mistake::ALL, from)
    }
}

fn nth<T: Copy>(all: &[T], from: &mut Reader) -> io::Result<T> {
    all.get(from.word()? as usize).copied().ok_or_else(damaged)
}

impl Value for Change {
    fn put(&self, out: &mut Writer) {
        let kind = match self {
            Change::Insert { .. } => 1,
            Change::ReleaseChanged { .. } => 2,
            Change::Resize { .. } => 3,
            Change::Discard { .. } => 4,
        };
        out.word(kind);
        out.word(self.address());
        out.run(self.bytes().map_or(&[], |bytes| bytes));
    }

    fn take(from: &mut Reader) -> io::Result<Change> {
        let (kind, address, bytes) = (from.word()?, from.word()?, from.run()?.into());
        match kind {
            1 => Ok(Change::Insert { address, bytes }),
            2 => Ok(Change::ReleaseChanged { address, bytes }),
            3 => Ok(Change::Resize { address, bytes }),
            4 => Ok(Change::Discard { address }),
            _ => Err(damaged()),
        }
    }
}
