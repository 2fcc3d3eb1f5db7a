/* The items of a field as numbers. What reads them is one function with a switch, which engines make faster than a call of one of several. */
import { FLOAT, SIGNED } from "./numbers.mjs"

/* By what the items of a field are read: their width, and more for what has a sign and for floats. */
export const codeOf = ({ kind, width }) => width + (kind === SIGNED ? 10 : kind === FLOAT ? 20 : 0)

/* The item that stands for no value, as those of a field are read; of floats its bits. */
export function invalidOf({ kind, width, invalid }) {
    if (kind !== SIGNED) return invalid
    return width === 8 ? BigInt.asIntN(64, invalid) : Number(BigInt.asIntN(8 * width, BigInt(invalid)))
}

/* An item of less than eight bytes, or a float, at a place; NaN where it is the one that stands for no value. */
export function numberAt(view, code, invalid, at) {
    let item
    switch (code) {
        case 1: item = view.getUint8(at); break
        case 2: item = view.getUint16(at, true); break
        case 4: item = view.getUint32(at, true); break
        case 11: item = view.getInt8(at); break
        case 12: item = view.getInt16(at, true); break
        case 14: item = view.getInt32(at, true); break
        case 24: return view.getUint32(at, true) === invalid ? NaN : view.getFloat32(at, true)
        default: return view.getBigUint64(at, true) === invalid ? NaN : view.getFloat64(at, true)
    }
    return item === invalid ? NaN : item
}

/* The same for eight bytes that are a whole number: a BigInt, or null. */
export function wideAt(view, code, invalid, at) {
    const item = code === 18 ? view.getBigInt64(at, true) : view.getBigUint64(at, true)
    return item === invalid ? null : item
}
