/* Words that are written: the numbers that they stand for. */
import { WrongValue } from "./answers.mjs"
import { nearestOf } from "./profile.mjs"
import { SIGNED } from "./numbers.mjs"
import { choiceOf } from "./words.mjs"

const hasWord = value => typeof value === "string" || (Array.isArray(value) && value.some(item => typeof item === "string"))

/* The field of whole numbers, and of no times, that a key names. */
function entryOf(definition, key) {
    const entry = definition.entry(key)
    return entry !== undefined && entry.kind <= SIGNED && entry.type === null ? entry : undefined
}

function numberOf(entry, known, word) {
    for (const [number, other] of Object.entries(known)) if (other === word) return Number(number)
    const near = nearestOf(word.slice(0, 80), Object.values(known))
    const what = `${JSON.stringify(word.slice(0, 40))} is no word that it can have${near === null ? "" : `: is it ${JSON.stringify(near)}?`}`
    throw new WrongValue(what, { field: entry.name ?? entry.numbers, value: word })
}

/* Pairs of keys and values that a message gets, each word as the number that it stands for. `part` is what the message has in other fields. */
export function numbered(definition, pairs, part) {
    if (!pairs.some(([, value]) => hasWord(value))) return pairs
    const told = new Map(pairs.map(([key, value]) => [entryOf(definition, key), value]))
    const number = of => Number(told.has(of) ? told.get(of) : of.item(part.view, of.begins))
    const wordsOf = ({ known, cases }) => cases.find(({ of, has }) => number(of) === has)?.known ?? known
    const numbers = (entry, value, choice) => {
        const known = wordsOf(choice)
        return Array.isArray(value) ? value.map(item => (typeof item === "string" ? numberOf(entry, known, item) : item)) : numberOf(entry, known, value)
    }
    // Words that depend on another field come after it, as that may be told by a word.
    const found = new Map()
    for (const isLater of [false, true])
        for (const [key, value] of pairs) {
            const entry = entryOf(definition, key), choice = entry !== undefined && hasWord(value) ? choiceOf(definition, entry) : undefined
            if (choice === undefined) found.set(key, value)
            else if (choice.cases.length > 0 === isLater) {
                found.set(key, numbers(entry, value, choice))
                told.set(entry, found.get(key))
            }
        }
    return pairs.map(([key]) => [key, found.get(key)])
}
