/* Words for the numbers of fields, as "cycling" for 2 in a field of type sport. They are no part of what is proved. */
import { SIGNED } from "./numbers.mjs"
import { UnknownName } from "./profile.mjs"
import { SUBFIELDS, TYPES, WORDS } from "./words_table.mjs"

/* The words of a type by their numbers. */
export function words(type) {
    if (!Object.hasOwn(WORDS, type)) throw new UnknownName("no type of words is named", String(type), Object.keys(WORDS))
    return { ...WORDS[type] }
}

/* Whether a field may have words: of whole numbers that aren't scaled, and no developer field. */
const mayHave = entry => entry.index === null && entry.kind <= SIGNED && entry.scale === 1 && entry.offset === 0 && entry.type === null

/* The words of a field of a definition: where another field has a number, as the manufacturer 1, those of that case, and else `words`. It is
 * undefined where the field has none. */
export function choiceOf(definition, entry) {
    if (!mayHave(entry)) return undefined
    if (entry.told !== null) return Object.hasOwn(WORDS, entry.told) ? { known: WORDS[entry.told], cases: [] } : undefined
    const known = WORDS[TYPES[definition.number]?.[entry.number]]
    const cases = (SUBFIELDS[definition.number]?.[entry.number] ?? [])
        .map(([number, has, type]) => ({ of: definition.byNumbers.get(`field_${number}`), has, known: WORDS[type] }))
        .filter(({ of }) => of !== undefined && of.index === null && of.count === 1 && of.kind <= SIGNED)
    return known === undefined && cases.length === 0 ? undefined : { known: known ?? {}, cases }
}

/* The words that count in a message, whose block begins at a place. */
const counting = ({ known, cases }, view, at) => cases.find(({ of, has }) => Number(of.item(view, at + of.begins)) === has)?.known ?? known

/* The word for the number that a field has in a message; null where there is none. */
export function wordOf(definition, entry, part, at) {
    definition.choices ??= new Map(definition.entries.map(one => [one, choiceOf(definition, one)]))
    const choice = definition.choices.get(entry)
    if (choice === undefined || entry.count !== 1) return null
    const value = entry.read(part, at)
    return typeof value === "string" ? value : value === null ? null : counting(choice, part.view, at)[value] ?? null
}

/* Has the fields of a definition that have words read as these; a number without one stays as it is. */
export function tellWords(definition) {
    for (const entry of definition.entries) {
        const choice = choiceOf(definition, entry), read = entry.read
        if (choice === undefined) continue
        entry.isWord = true
        entry.read = (part, at) => {
            const value = read(part, at), known = counting(choice, part.view, at)
            if (Array.isArray(value)) return value.map(item => known[item] ?? item)
            return known[value] ?? value
        }
    }
}
