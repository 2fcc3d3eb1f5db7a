//! What the records of a ride come to.
use crate::anew::Values;
use crate::field::Value;
use crate::message::Message;

/// A field of records, and what its mean and its maximum are called in laps and sessions.
struct Measured {
    field: &'static str,
    mean: &'static str,
    most: &'static str,
}

const SPEED: Measured = Measured { field: "speed", mean: "avg_speed", most: "max_speed" };
const MEASURED: [Measured; 4] = [
    SPEED,
    Measured { field: "heart_rate", mean: "avg_heart_rate", most: "max_heart_rate" },
    Measured { field: "cadence", mean: "avg_cadence", most: "max_cadence" },
    Measured { field: "power", mean: "avg_power", most: "max_power" },
];

/// Takes in the records of a ride. Of what no record has it says nothing.
#[derive(Default)]
pub(crate) struct Summary {
    /// The first and the last second.
    span: Option<(i64, i64)>,
    /// The first and the last place, and the first and the last distance.
    places: Option<[(i64, i64); 2]>,
    distances: Option<[f64; 2]>,
    /// Of each measured field the maximum, the sum, and how many they are.
    means: [(f64, f64, u64); 4],
}

impl Summary {
    pub(crate) fn take(&mut self, record: &Message<'_>) {
        if let Some(time) = record.time().map(|time| i64::from(time.seconds())) {
            let (start, end) = self.span.unwrap_or((time, time));
            self.span = Some((start.min(time), end.max(time)));
        }
        if let Some(place) = whole(record, 0).zip(whole(record, 1)) {
            self.places = Some([self.places.map_or(place, |of| of[0]), place]);
        }
        if let Some(distance) = record.distance().filter(|of| of.is_finite()) {
            self.distances = Some([self.distances.map_or(distance, |of| of[0]), distance]);
        }
        for (of, mean) in MEASURED.iter().zip(&mut self.means) {
            let value = if of.field == SPEED.field { record.speed() } else { number_of(record, of.field) };
            if let Some(value) = value.filter(|value| value.is_finite()) {
                let most = if mean.2 == 0 { value } else { mean.0.max(value) };
                *mean = (most, mean.1 + value, mean.2 + 1);
            }
        }
    }

    pub(crate) fn span(&self) -> Option<(i64, i64)> {
        self.span
    }

    pub(crate) fn last_distance(&self) -> f64 {
        self.distances.map_or(0.0, |of| of[1])
    }

    /// The fields that a lap and a session of a span have alike, in which the timer ran so long.
    pub(crate) fn told(&self, (start, end): (i64, i64), ran: f64) -> Values {
        let mut found = vec![
            ("timestamp", Value::Signed(end)),
            ("start_time", Value::Signed(start)),
            ("total_elapsed_time", Value::Signed(end - start)),
            ("total_timer_time", Value::Float(ran)),
        ];
        if let Some([(lat, long), _]) = self.places {
            found.extend([("start_position_lat", Value::Signed(lat)), ("start_position_long", Value::Signed(long))]);
        }
        let distance = self.distances.map(|[first, last]| (last - first).max(0.0));
        found.extend(distance.map(|distance| ("total_distance", Value::Float(distance))));
        for (of, &(most, sum, count)) in MEASURED.iter().zip(&self.means).filter(|(_, mean)| mean.2 != 0) {
            found.extend([(of.mean, Value::Float(sum / count as f64)), (of.most, Value::Float(most))]);
        }
        if let Some(speed) = distance.filter(|_| ran != 0.0).map(|distance| Value::Float(distance / ran)) {
            match found.iter_mut().find(|(name, _)| *name == SPEED.mean) {
                Some((_, mean)) => *mean = speed,
                None => found.push((SPEED.mean, speed)),
            }
        }
        found
    }

    /// Those of a lap.
    pub(crate) fn lap(&self, span: (i64, i64), ran: f64) -> Values {
        let mut found = self.told(span, ran);
        if let Some([_, (lat, long)]) = self.places {
            found.extend([("end_position_lat", Value::Signed(lat)), ("end_position_long", Value::Signed(long))]);
        }
        found
    }
}

/// The number that a message has in a field, where it is one number.
pub(crate) fn number_of(message: &Message<'_>, name: &str) -> Option<f64> {
    message.field(name)?.lone().filter(|number| number.is_finite())
}

/// The whole number that a message has in a field.
pub(crate) fn whole(message: &Message<'_>, number: u8) -> Option<i64> {
    as_whole(message.numbered(number)?.whole())
}

pub(crate) fn whole_of(message: &Message<'_>, name: &str) -> Option<i64> {
    as_whole(message.field(name)?.whole())
}

fn as_whole(value: Value<'_>) -> Option<i64> {
    match value {
        Value::Signed(number) => Some(number),
        Value::Unsigned(number) => i64::try_from(number).ok(),
        _ => None,
    }
}
