//! The map: keys and values that lie in its nodes where they are short, and who may look at it and change it.

use std::cmp::Ordering;
use std::collections::BTreeMap;
use std::sync::{PoisonError, RwLock};

use crate::texts::{Text, append, append_first};

pub type Map = BTreeMap<Key, Value>;

const KEY_IN_PLACE: usize = 48;
const VALUE_IN_PLACE: usize = 29;

/// A key, in 64 bytes. A look-up of one of at most 48 bytes takes no memory and compares words.
#[derive(Clone)]
pub struct Key {
    /// Its first bytes, and zeros behind them.
    front: [u8; KEY_IN_PLACE],
    /// The others, if there are any, behind one thin pointer.
    rest: Option<Box<Box<[u8]>>>,
    len: u8,
    is_plain: bool,
}

impl Key {
    pub const MOST: usize = 255;

    /// The text has 1 to 255 bytes, else there is no key.
    #[inline(always)]
    pub fn new(text: &Text) -> Option<Key> {
        let bytes = &*text.bytes;
        let len = u8::try_from(bytes.len()).ok().filter(|&len| len > 0)?;
        let (in_place, behind) = bytes.split_at(bytes.len().min(KEY_IN_PLACE));
        let mut front = [0; KEY_IN_PLACE];
        front[..in_place.len()].copy_from_slice(in_place);
        let rest = if behind.is_empty() { None } else { Some(Box::new(behind.into())) };
        Some(Key { front, rest, len, is_plain: text.is_plain })
    }

    pub fn append_to(&self, out: &mut Vec<u8>) {
        let len = usize::from(self.len).min(KEY_IN_PLACE);
        if self.is_plain {
            append_first(&self.front, len, out);
        } else {
            append(&self.front[..len], false, out);
        }
        if let Some(rest) = &self.rest {
            append(rest, self.is_plain, out);
        }
    }
}

impl Ord for Key {
    #[inline]
    fn cmp(&self, other: &Key) -> Ordering {
        let (ours, theirs) = (self.front.as_chunks().0, other.front.as_chunks().0);
        for (our, their) in ours.iter().zip(theirs) {
            if our != their {
                return u64::from_be_bytes(*our).cmp(&u64::from_be_bytes(*their));
            }
        }
        // A front with zeros behind it may be that of a longer key which goes on with zeros.
        match (&self.rest, &other.rest) {
            (Some(our), Some(their)) => our.cmp(their),
            _ => self.len.cmp(&other.len),
        }
    }
}

impl PartialOrd for Key {
    #[inline]
    fn partial_cmp(&self, other: &Key) -> Option<Ordering> {
        Some(self.cmp(other))
    }
}

impl PartialEq for Key {
    fn eq(&self, other: &Key) -> bool {
        self.cmp(other).is_eq()
    }
}

impl Eq for Key {}

/// A value, in 32 bytes.
pub enum Value {
    InPlace { len: u8, is_plain: bool, bytes: [u8; VALUE_IN_PLACE] },
    Boxed { is_plain: bool, bytes: Box<[u8]> },
}

impl Value {
    pub const MOST: usize = 1_024;

    pub fn new(text: &Text) -> Value {
        let is_plain = text.is_plain;
        let mut bytes = [0; VALUE_IN_PLACE];
        match bytes.get_mut(..text.bytes.len()) {
            Some(front) => {
                front.copy_from_slice(&text.bytes);
                Value::InPlace { len: text.bytes.len() as u8, is_plain, bytes }
            }
            None => Value::Boxed { is_plain, bytes: text.bytes.as_ref().into() },
        }
    }

    /// Writes over the bytes that are there, where the new ones are as many or lie in place.
    pub fn set(&mut self, text: &Text) {
        match self {
            Value::Boxed { is_plain, bytes } if bytes.len() == text.bytes.len() => {
                bytes.copy_from_slice(&text.bytes);
                *is_plain = text.is_plain;
            }
            _ => *self = Value::new(text),
        }
    }

    pub fn append_to(&self, out: &mut Vec<u8>) {
        match self {
            Value::InPlace { len, is_plain: true, bytes } => append_first(bytes, usize::from(*len), out),
            Value::InPlace { len, is_plain, bytes } => append(&bytes[..usize::from(*len)], *is_plain, out),
            Value::Boxed { is_plain, bytes } => append(bytes, *is_plain, out),
        }
    }
}

/// A map that a session can look at and change: its own, or one that it shares.
pub trait Store {
    fn look<T>(&self, look: impl FnOnce(&Map) -> T) -> T;
    fn change<T>(&mut self, change: impl FnOnce(&mut Map) -> T) -> T;
}

impl Store for Map {
    fn look<T>(&self, look: impl FnOnce(&Map) -> T) -> T {
        look(self)
    }

    fn change<T>(&mut self, change: impl FnOnce(&mut Map) -> T) -> T {
        change(self)
    }
}

impl Store for &RwLock<Map> {
    fn look<T>(&self, look: impl FnOnce(&Map) -> T) -> T {
        look(&self.read().unwrap_or_else(PoisonError::into_inner))
    }

    fn change<T>(&mut self, change: impl FnOnce(&mut Map) -> T) -> T {
        change(&mut self.write().unwrap_or_else(PoisonError::into_inner))
    }
}
