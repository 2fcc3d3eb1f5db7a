//! The times that a message tells by its own field and by its header, as a writer needs them.
use crate::base_type::BaseType;
use crate::field::Raw;
use crate::message::Message;
use crate::time::Time;

impl Message<'_> {
    /// The time of its first field 253, where that is a valid one.
    pub(crate) fn own_time(&self) -> Option<u32> {
        let field = self.numbered(253)?;
        let is_time = field.base_type() == BaseType::Uint32.code() && field.count() == 1 && field.is_valid(0);
        match field.raw(0).filter(|_| is_time)? {
            Raw::Unsigned(seconds) => u32::try_from(seconds).ok(),
            _ => None,
        }
    }

    /// The time that its time offset says.
    pub(crate) fn offset_time(&self) -> Option<u32> {
        self.time_offset().and(self.header_time()).map(Time::seconds)
    }
}
