/* Files that are written byte by byte, as the FIT protocol has them. */

/* A number as bytes, the least first. */
export const le = (number, width) => Array.from({ length: width }, (_, k) => Math.floor(number / 256 ** k) % 256)

/* The checksum of the FIT protocol, as its own words have it. */
function sum(bytes) {
    let total = 0
    for (const byte of bytes) {
        total ^= byte
        for (let bit = 0; bit < 8; bit++) total = total & 1 ? (total >> 1) ^ 0xA001 : total >> 1
    }
    return le(total, 2)
}

/* A file of some bytes of records. */
export function records(data) {
    const made = new Uint8Array(data.length + 14)
    made.set([12, 32, ...le(2132, 2), ...le(data.length, 4), ...Buffer.from(".FIT")])
    made.set(data, 12)
    made.set(sum(made.subarray(0, -2)), made.length - 2)
    return made
}

/* A file of one definition, whose fields are [number, size, base type]. */
export const file = (number, fields, ...rows) =>
    records([0x40, 0, 0, ...le(number, 2), fields.length, ...fields.flat(), ...rows.flatMap(row => [0, ...row])])
