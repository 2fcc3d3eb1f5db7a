//! All that files have, in its order.
use crate::blocks::{put, two, Found, Walk};
use crate::definition::Definition;
use crate::message::Message;
use crate::numbers::{
    AT_HEADER_PROFILE, AT_HEADER_PROTOCOL, AT_HEADER_REST, AT_HEADER_SIZE, AT_HEADER_SUM, AT_KIND, AT_LENGTH,
    FILE_HEADER, NO_SUM, OWN_SUM, ZERO_SUM,
};
use std::borrow::Cow;
use std::fmt::{self, Debug, Formatter};
use std::iter::FusedIterator;

/// Something that a file has: what [`Messages::events`](crate::Messages::events) goes through, and [`Writer::copy`](crate::Writer::copy)
/// writes.
#[derive(Debug, Clone)]
pub enum Event<'a> {
    /// A file begins.
    Header(Header<'a>),
    /// The messages of a local message type are defined, or defined anew.
    Definition(Definition<'a>),
    /// A data message.
    Message(Message<'a>),
    /// The file ends.
    End,
}

/// Goes through the [`Event`]s of [`Messages`](crate::Messages).
#[derive(Clone)]
pub struct Events<'a> {
    walk: Walk<'a>,
}

impl<'a> Events<'a> {
    pub(crate) fn new(walk: Walk<'a>) -> Events<'a> {
        Events { walk }
    }
}

impl<'a> Iterator for Events<'a> {
    type Item = Event<'a>;

    fn next(&mut self) -> Option<Event<'a>> {
        Some(match self.walk.found()? {
            Found::Header(block) => Event::Header(Header { block: Cow::Borrowed(block) }),
            Found::Definition(block) => Event::Definition(Definition::read(block, None)),
            Found::Message(block, definition) => Event::Message(Message::new(block, definition, self.walk.number())),
            Found::End => Event::End,
        })
    }
}

impl FusedIterator for Events<'_> {}

impl Debug for Events<'_> {
    fn fmt(&self, f: &mut Formatter<'_>) -> fmt::Result {
        f.debug_list().entries(self.clone()).finish()
    }
}

/// What the checksum of a header is.
#[derive(Debug, Clone, Copy, PartialEq, Eq, Hash)]
pub enum Checksum {
    /// The header has 12 bytes, and none.
    None = NO_SUM as isize,
    /// Zeros stand in its place.
    Zeros = ZERO_SUM as isize,
    /// It is there.
    There = OWN_SUM as isize,
}

/// The header of a file, but for how many bytes of data follow.
#[derive(Clone, PartialEq, Eq)]
pub struct Header<'a> {
    /// Its block, of 24 bytes at least.
    block: Cow<'a, [u8]>,
}

impl Header<'static> {
    /// One of 14 bytes with its checksum, or of 12 bytes without one: with the version of the protocol, as 0x20 for 2.0, and the version of
    /// the profile that the program knows.
    #[must_use]
    pub fn new(protocol: u8, profile: u16, checksum: Checksum) -> Header<'static> {
        let size = if checksum == Checksum::None { 12 } else { 14 };
        let mut block = vec![0; AT_HEADER_REST];
        put(&mut block, AT_LENGTH, &(AT_HEADER_REST as u32).to_le_bytes());
        block[AT_KIND] = FILE_HEADER;
        block[AT_HEADER_SIZE] = size;
        block[AT_HEADER_PROTOCOL] = protocol;
        block[AT_HEADER_SUM] = checksum as u8;
        put(&mut block, AT_HEADER_PROFILE, &profile.to_le_bytes());
        Header { block: Cow::Owned(block) }
    }
}

impl Header<'_> {
    /// How many bytes it has.
    #[must_use]
    pub fn size(&self) -> u8 {
        self.block[AT_HEADER_SIZE]
    }

    /// The version of the protocol.
    #[must_use]
    pub fn protocol(&self) -> u8 {
        self.block[AT_HEADER_PROTOCOL]
    }

    /// The version of the profile.
    #[must_use]
    pub fn profile(&self) -> u16 {
        two(&self.block, AT_HEADER_PROFILE)
    }

    /// What its checksum is.
    #[must_use]
    pub fn checksum(&self) -> Checksum {
        match self.block[AT_HEADER_SUM] {
            NO_SUM => Checksum::None,
            ZERO_SUM => Checksum::Zeros,
            _ => Checksum::There,
        }
    }

    pub(crate) fn block(&self) -> &[u8] {
        &self.block
    }
}

impl Debug for Header<'_> {
    fn fmt(&self, f: &mut Formatter<'_>) -> fmt::Result {
        let mut all = f.debug_struct("Header");
        all.field("size", &self.size()).field("protocol", &self.protocol()).field("profile", &self.profile());
        all.field("checksum", &self.checksum()).finish()
    }
}
