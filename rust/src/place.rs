//! Where a field stands, found once for all messages of a definition.
use crate::field::Field;
use crate::message::Message;
use crate::reader::Reader;

/// Where a field stands in the messages of a definition, which [`Message::look_up`] has looked up.
#[derive(Debug, Clone, Copy)]
pub struct Place<'a> {
    field: Field<'a>,
    reader: Option<Reader>,
}

impl<'a> Message<'a> {
    /// Where the first field of this name stands in the messages of its definition: what is looked up once, for [`at`](Message::at).
    #[must_use]
    pub fn look_up(&self, name: &str) -> Option<Place<'a>> {
        self.field(name).map(|field| Place { field, reader: Reader::of(&field) })
    }

    /// The field at a place; none where the message is of another definition than that where the place was looked up. Then it is looked up
    /// again:
    ///
    /// ```
    /// # std::env::set_current_dir(env!("GAZHDOR_RIDES")).unwrap();
    /// # let ride = std::fs::read("ride.fit").unwrap();
    /// let messages = gazhdor::messages(&ride).unwrap();
    /// let (mut altitude, mut sum) = (None, 0.0);
    /// for record in messages.iter().filter(|message| message.number() == 20) {
    ///     if !altitude.map_or(false, |place| record.has(place)) {
    ///         altitude = record.look_up("altitude");
    ///     }
    ///     sum += altitude.and_then(|place| record.value_at(place)).unwrap_or(0.0);
    /// }
    /// assert_eq!(sum.round(), 58742.0);
    /// ```
    #[must_use]
    pub fn at(&self, place: Place<'a>) -> Option<Field<'a>> {
        self.has(place).then(|| place.field.of(self.block()))
    }

    /// The first number of the field at a place: `at(place)?.value(0)`.
    #[must_use]
    pub fn value_at(&self, place: Place<'a>) -> Option<f64> {
        place.reader.filter(|_| self.has(place))?.value(self.block())
    }

    /// Whether a place is one of the definition of this message.
    #[must_use]
    pub fn has(&self, place: Place<'_>) -> bool {
        std::ptr::eq(place.field.definition().as_ptr(), self.defined().0.as_ptr())
    }
}
