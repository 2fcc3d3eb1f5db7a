/* Developer fields of messages that are put: the library describes them where a file doesn't. Here is what they are called from then on, and which
 * one can't be described. */
import { NotDescribed } from "./answers.mjs"
import { baseNamed, baseOf } from "./definitions.mjs"
import { DeveloperField } from "./shapes.mjs"

const MOST = 254 // So many bytes a name or a unit has in a description.
const BYTE = baseNamed("byte")
const kept = new WeakMap() // by definitions
const encoder = new TextEncoder()

const ownOf = ({ entries }) => entries.filter(({ index }) => index !== null)

/* Whether something is said of a developer field. */
const isTold = entry => entry.name !== null || entry.unit !== null || entry.baseType !== BYTE.code

/* Whether a description can have a text, which is read back. */
const isWritten = text => text === null || (encoder.encode(text).length <= MOST && !/[\0-\x1f\x7f]/.test(text))

/* The developer fields of a definition that are described where it comes from. */
export function described(definition) {
    if (!kept.has(definition)) {
        const made = ({ index, number, name, unit, baseType }) => new DeveloperField(index, number, { name, unit, base: baseOf(baseType) })
        kept.set(definition, ownOf(definition).filter(isTold).map(made))
    }
    return kept.get(definition)
}

/* What is thrown where a developer field can't be described as it is where it comes from: of the first that no message could describe, or else of
 * the first that has no description there. */
export function notDescribed(definition) {
    const own = ownOf(definition), wrong = own.find(({ name, unit }) => !isWritten(name) || !isWritten(unit))
    if (wrong !== undefined) return new NotDescribed(wrong.numbers, true)
    const entry = own.find(one => !isTold(one)) ?? own[0]
    return new NotDescribed(entry.name ?? entry.numbers, isTold(entry))
}
