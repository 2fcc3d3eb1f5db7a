//! Where a message was.
use crate::field::Field;
use crate::message::Message;
use crate::ready::{degrees, is_place};

/// The fields of a latitude and a longitude; of a session or a lap those of its start.
const NAMES: [(&str, &str); 2] = [("position_lat", "position_long"), ("start_position_lat", "start_position_long")];

impl<'a> Message<'a> {
    /// Latitude and longitude in degrees, of a session or a lap those of its start; none where one of both is absent.
    ///
    /// ```
    /// # std::env::set_current_dir(env!("GAZHDOR_RIDES")).unwrap();
    /// # let ride = std::fs::read("ride.fit").unwrap();
    /// let messages = gazhdor::messages(&ride).unwrap();
    /// let record = messages.iter().find(|message| message.name() == Some("record")).unwrap();
    /// let (latitude, longitude) = record.position().unwrap();
    /// assert_eq!(format!("{latitude:.4} {longitude:.4}"), "47.3000 8.5680");
    /// ```
    #[must_use]
    pub fn position(&self) -> Option<(f64, f64)> {
        self.latitude().zip(self.longitude())
    }

    pub(crate) fn latitude(&self) -> Option<f64> {
        self.places()?.0.value(0).map(degrees)
    }

    pub(crate) fn longitude(&self) -> Option<f64> {
        self.places()?.1.value(0).map(degrees)
    }

    /// The fields of its latitude and its longitude.
    fn places(&self) -> Option<(Field<'a>, Field<'a>)> {
        let place = |name: &str| self.field(name).filter(is_place);
        NAMES.iter().find_map(|(latitude, longitude)| place(latitude).zip(place(longitude)))
    }
}
