//! What `csv.rs`, `show.rs` and `table.rs` know of messages, fields and base types.

/// Number, name, unit, scale and offset of a field.
pub type Row = (u8, &'static str, &'static str, u32, u32);

const TIMESTAMP: Row = (253, "timestamp", "s", 1, 0);
const MESSAGE_INDEX: Row = (254, "message_index", "", 1, 0);

#[rustfmt::skip]
const MESSAGES: &[(u16, &str, &[Row])] = &[
    (0, "file_id", &[
        (0, "type", "", 1, 0), (1, "manufacturer", "", 1, 0), (2, "product", "", 1, 0), (3, "serial_number", "", 1, 0),
        (4, "time_created", "s", 1, 0), (5, "number", "", 1, 0), (8, "product_name", "", 1, 0),
    ]),
    (12, "sport", &[(0, "sport", "", 1, 0), (1, "sub_sport", "", 1, 0), (3, "name", "", 1, 0)]),
    (18, "session", &[
        (0, "event", "", 1, 0), (1, "event_type", "", 1, 0), (2, "start_time", "s", 1, 0),
        (3, "start_position_lat", "semicircles", 1, 0), (4, "start_position_long", "semicircles", 1, 0),
        (5, "sport", "", 1, 0), (6, "sub_sport", "", 1, 0), (7, "total_elapsed_time", "s", 1000, 0),
        (8, "total_timer_time", "s", 1000, 0), (9, "total_distance", "m", 100, 0), (10, "total_cycles", "cycles", 1, 0),
        (11, "total_calories", "kcal", 1, 0), (14, "avg_speed", "m/s", 1000, 0), (15, "max_speed", "m/s", 1000, 0),
        (16, "avg_heart_rate", "bpm", 1, 0), (17, "max_heart_rate", "bpm", 1, 0), (18, "avg_cadence", "rpm", 1, 0),
        (19, "max_cadence", "rpm", 1, 0), (20, "avg_power", "watts", 1, 0), (21, "max_power", "watts", 1, 0),
        (22, "total_ascent", "m", 1, 0), (23, "total_descent", "m", 1, 0), (25, "first_lap_index", "", 1, 0),
        (26, "num_laps", "", 1, 0), (28, "trigger", "", 1, 0),
    ]),
    (19, "lap", &[
        (0, "event", "", 1, 0), (1, "event_type", "", 1, 0), (2, "start_time", "s", 1, 0),
        (3, "start_position_lat", "semicircles", 1, 0), (4, "start_position_long", "semicircles", 1, 0),
        (5, "end_position_lat", "semicircles", 1, 0), (6, "end_position_long", "semicircles", 1, 0),
        (7, "total_elapsed_time", "s", 1000, 0), (8, "total_timer_time", "s", 1000, 0), (9, "total_distance", "m", 100, 0),
        (10, "total_cycles", "cycles", 1, 0), (11, "total_calories", "kcal", 1, 0), (13, "avg_speed", "m/s", 1000, 0),
        (14, "max_speed", "m/s", 1000, 0), (15, "avg_heart_rate", "bpm", 1, 0), (16, "max_heart_rate", "bpm", 1, 0),
        (17, "avg_cadence", "rpm", 1, 0), (18, "max_cadence", "rpm", 1, 0), (19, "avg_power", "watts", 1, 0),
        (20, "max_power", "watts", 1, 0), (21, "total_ascent", "m", 1, 0), (22, "total_descent", "m", 1, 0),
        (23, "intensity", "", 1, 0), (24, "lap_trigger", "", 1, 0), (25, "sport", "", 1, 0),
    ]),
    (20, "record", &[
        (0, "position_lat", "semicircles", 1, 0), (1, "position_long", "semicircles", 1, 0), (2, "altitude", "m", 5, 500),
        (3, "heart_rate", "bpm", 1, 0), (4, "cadence", "rpm", 1, 0), (5, "distance", "m", 100, 0),
        (6, "speed", "m/s", 1000, 0), (7, "power", "watts", 1, 0), (8, "compressed_speed_distance", "", 1, 0),
        (9, "grade", "%", 100, 0), (11, "time_from_course", "s", 1000, 0), (13, "temperature", "C", 1, 0),
        (18, "cycles", "cycles", 1, 0), (19, "total_cycles", "cycles", 1, 0),
        (28, "compressed_accumulated_power", "watts", 1, 0), (29, "accumulated_power", "watts", 1, 0),
        (32, "vertical_speed", "m/s", 1000, 0), (33, "calories", "kcal", 1, 0), (39, "vertical_oscillation", "mm", 10, 0),
        (41, "stance_time", "ms", 10, 0), (73, "enhanced_speed", "m/s", 1000, 0), (78, "enhanced_altitude", "m", 5, 500),
    ]),
    (21, "event", &[
        (0, "event", "", 1, 0), (1, "event_type", "", 1, 0), (2, "data16", "", 1, 0), (3, "data", "", 1, 0),
        (4, "event_group", "", 1, 0),
    ]),
    (23, "device_info", &[
        (0, "device_index", "", 1, 0), (1, "device_type", "", 1, 0), (2, "manufacturer", "", 1, 0),
        (3, "serial_number", "", 1, 0), (4, "product", "", 1, 0), (5, "software_version", "", 100, 0),
        (6, "hardware_version", "", 1, 0), (7, "cum_operating_time", "s", 1, 0), (10, "battery_voltage", "V", 256, 0),
        (11, "battery_status", "", 1, 0),
    ]),
    (34, "activity", &[
        (0, "total_timer_time", "s", 1000, 0), (1, "num_sessions", "", 1, 0), (2, "type", "", 1, 0), (3, "event", "", 1, 0),
        (4, "event_type", "", 1, 0), (5, "local_timestamp", "s", 1, 0),
    ]),
    (49, "file_creator", &[(0, "software_version", "", 1, 0), (1, "hardware_version", "", 1, 0)]),
    (78, "hrv", &[(0, "time", "s", 1000, 0)]),
    (206, "field_description", &[
        (0, "developer_data_index", "", 1, 0), (1, "field_definition_number", "", 1, 0), (2, "fit_base_type_id", "", 1, 0),
        (3, "field_name", "", 1, 0), (8, "units", "", 1, 0),
    ]),
    (207, "developer_data_id", &[
        (1, "application_id", "", 1, 0), (3, "developer_data_index", "", 1, 0), (4, "application_version", "", 1, 0),
    ]),
];

/// The row of a message.
pub fn message_row(global: u16) -> Option<&'static (u16, &'static str, &'static [Row])> {
    MESSAGES.iter().find(|m| m.0 == global)
}

/// The row of a field of a message.
pub fn field_row(global: u16, number: u8) -> Option<Row> {
    if number == 253 {
        return Some(TIMESTAMP);
    }
    let message = message_row(global)?;
    if number == 254 {
        return Some(MESSAGE_INDEX);
    }
    message.2.iter().find(|f| f.0 == number).copied()
}

// ---- base types

#[derive(Clone, Copy, PartialEq)]
pub enum Class {
    Unsigned,
    Signed,
    Float,
    Text,
    Bytes,
}

/// Width, invalid value and class of a base type.
pub fn base_type(code: u8) -> (usize, u64, Class) {
    match code {
        0x00 | 0x02 => (1, 0xFF, Class::Unsigned),
        0x01 => (1, 0x7F, Class::Signed),
        0x07 => (1, 0, Class::Text),
        0x0A => (1, 0, Class::Unsigned),
        0x83 => (2, 0x7FFF, Class::Signed),
        0x84 => (2, 0xFFFF, Class::Unsigned),
        0x85 => (4, 0x7FFF_FFFF, Class::Signed),
        0x86 => (4, 0xFFFF_FFFF, Class::Unsigned),
        0x88 => (4, 0xFFFF_FFFF, Class::Float),
        0x89 => (8, u64::MAX, Class::Float),
        0x8B => (2, 0, Class::Unsigned),
        0x8C => (4, 0, Class::Unsigned),
        0x8E => (8, 0x7FFF_FFFF_FFFF_FFFF, Class::Signed),
        0x8F => (8, u64::MAX, Class::Unsigned),
        0x90 => (8, 0, Class::Unsigned),
        _ => (1, 0xFF, Class::Bytes),
    }
}
