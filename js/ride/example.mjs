/* A ride that was never ridden, for a page without a file: an hour around a lake and over its hills, made of a CSV text. */

const BEGIN = 1147939200 // 2026-05-17T08:00:00Z, in seconds since 1989-12-31T00:00:00 UTC
const SECONDS = 3600, LAPS = 3

const field = (name, value, unit = "") => `field,${name},${value},${unit},,,\n`
const definition = (local, message, fields) =>
    `def,${local},0,little,${message},${fields.length},\n${fields.map(([number, size, type]) => `fdef,${number},${size},${type},,,\n`).join("")}`
const semicircles = degrees => Math.round(degrees * 2 ** 31 / 180)
const WAVE = (second, period) => Math.sin(second / period * 2 * Math.PI)

/* Where the rider is after so many seconds, and how it goes. */
function* seconds() {
    let distance = 0, heart = 96, before = 420
    for (let second = 0; second <= SECONDS; second++) {
        const round = 2 * Math.PI * LAPS * second / SECONDS, altitude = 420 + 60 * (1 - Math.cos(round)) + 9 * Math.sin(5 * round)
        const climb = altitude - before, isSprint = second % 900 > 870 && second < 3500
        const speed = Math.max(3, 9.2 - 9 * climb + WAVE(second, 47) / 3 + (isSprint ? 2.5 : 0))
        const power = Math.max(0, Math.round(165 + 260 * climb + 18 * WAVE(second, 31) + 9 * WAVE(second, 7) + (isSprint ? 310 : 0)))
        heart += (92 + Math.min(power, 420) / 4.2 - heart) / 60
        distance += second === 0 ? 0 : speed
        before = altitude
        const bend = 1 + .22 * Math.sin(2 * round) + .08 * Math.cos(5 * round / LAPS)
        yield {
            second, distance, speed, power, altitude, heart: Math.round(heart), cadence: Math.round(power > 0 ? 84 + 6 * WAVE(second, 61) - 12 * climb : 0),
            latitude: 47.33 + .021 * bend * Math.sin(round), longitude: 8.6 + .033 * bend * Math.cos(round),
        }
    }
}

function recordOf({ second, distance, speed, power, altitude, heart, cadence, latitude, longitude }) {
    return `data,1,,record,,,\n${field("timestamp", BEGIN + second, "s")}${field("position_lat", semicircles(latitude), "semicircles")}${
        field("position_long", semicircles(longitude), "semicircles")}${field("altitude", (Math.round(altitude * 5) / 5).toFixed(1), "m")}${
        field("heart_rate", heart, "bpm")}${field("cadence", cadence, "rpm")}${field("distance", distance.toFixed(2), "m")}${
        field("speed", speed.toFixed(3), "m/s")}${field("power", power, "watts")}`
}

/* The totals of a part, as a lap or a session has them. */
function totalsOf(local, message, points) {
    const first = points[0], last = points[points.length - 1], mean = name => Math.round(points.reduce((sum, one) => sum + one[name], 0) / points.length)
    const most = name => Math.max(...points.map(one => one[name])), time = (last.second - first.second).toFixed(3)
    return `data,${local},,${message},,,\n${field("timestamp", BEGIN + last.second, "s")}${field("start_time", BEGIN + first.second, "s")}${
        field("sport", 2)}${field("total_elapsed_time", time, "s")}${field("total_timer_time", time, "s")}${
        field("total_distance", (last.distance - first.distance).toFixed(2), "m")}${field("avg_heart_rate", mean("heart"), "bpm")}${
        field("max_heart_rate", most("heart"), "bpm")}${field("avg_power", mean("power"), "watts")}${field("max_power", most("power"), "watts")}`
}

/* The bytes of the ride, as a FIT file has them. */
export function exampleRide(gazhdor) {
    const points = [...seconds()], size = SECONDS / LAPS
    const totals = sport => [[253, 4, 134], [2, 4, 134], [sport, 1, 0], [7, 4, 134], [8, 4, 134], [9, 4, 134]]
    const laps = Array.from({ length: LAPS }, (_, k) => totalsOf(2, "lap", points.slice(k * size, (k + 1) * size + 1)))
    return gazhdor.fromCsv([
        "row,a,b,c,d,e,f\nfile,14,32,2065,sum,,\n", definition(0, 0, [[0, 1, 0], [1, 2, 132], [4, 4, 134]]),
        `data,0,,file_id,,,\n${field("type", 4)}${field("manufacturer", 255)}${field("time_created", BEGIN, "s")}`,
        definition(1, 20, [[253, 4, 134], [0, 4, 133], [1, 4, 133], [2, 2, 132], [3, 1, 2], [4, 1, 2], [5, 4, 134], [6, 2, 132], [7, 2, 132]]),
        ...points.map(recordOf), definition(2, 19, [...totals(25), [15, 1, 2], [16, 1, 2], [19, 2, 132], [20, 2, 132]]), ...laps,
        definition(3, 18, [...totals(5), [16, 1, 2], [17, 1, 2], [20, 2, 132], [21, 2, 132]]), totalsOf(3, "session", points), "end,,,,,,\n",
    ].join(""))
}
