/* Types of gazhdor.mjs. */

/** What may be given as bytes. Its own length counts; it isn't changed, and no call keeps it. */
export type Bytes = ArrayBufferLike | ArrayBufferView

/** A number, or a BigInt where a whole number of 64 bits is no exact number. */
export type Whole = number | bigint

/** The value of a field: a number in the unit of the field; a text up to its first zero; bytes; several numbers as an array; with `words` a word
 * in place of each number that has one. null stands for a number that is the invalid one of its base type, for an empty text, for bytes of type
 * byte that are all 0xFF, and for a field without bytes. */
export type Value = Whole | string | Uint8Array | null | (Whole | string | null)[]

/** What names a field: its name, or `field_N` and `dev_I_N` where it has none; its number; of a developer field [developer data index, number]. */
export type Key = string | number | readonly [index: number, number: number]

/** The name or the number of a message. */
export type Kind = string | number

/** A Date, or where the device didn't know the time the text `system+N`, N being seconds. */
export type Time = Date | string

export type Reason =
    | "HeaderSize" | "Protocol" | "NoFit" | "Signature" | "HeaderSum" | "ReservedBit" | "UndefinedLocal" | "Overrun"
    | "Architecture" | "FileSum" | "TooManyFiles"

export type BlockReason =
    | "Cut" | "Kind" | "Header" | "Local" | "Architecture" | "Entries" | "Size" | "Offset" | "Undefined" | "Items"
    | "NoFile" | "Files" | "Full" | "Time" | "Described" | "TooLong"

/** What a call found. As text it is the finding, as `ok` or `refused at byte 3258: FileSum`. */
export class Answer {
    private constructor()
    /** Whether the bytes are a FIT file or several, one after another. */
    readonly good: boolean
    /** How many files they are, where they are good; else 0. */
    readonly files: number
    /** The place of the byte that is refused, where the bytes end too soon, or where the block begins that is refused, counted from 0. */
    readonly place: number | null
    /** Why a byte or a block is refused. */
    readonly reason: Reason | BlockReason | null
    /** Of blocks the first that can't stand where it is, counted from 0. */
    readonly block: number | null
    /** Of a text the first row that isn't allowed where it is, counted from 1. */
    readonly row: number | null
    /** Of a text its first cell that isn't allowed there, counted from 1; null where the row as a whole is refused. */
    readonly column: number | null
    /** The number that the library has for the finding. */
    readonly status: number
    /** The finding in words, or null where it is good. */
    readonly explanation: string | null
    toString(): string
}

/** The bytes or the text are no FIT file. */
export class FitError extends Error {
    protected constructor()
    readonly answer: Answer
    readonly place: number | null
    readonly reason: Reason | BlockReason | null
    readonly row: number | null
    readonly column: number | null
    readonly explanation: string
    /** What a call of a Stream made before it found that; else null. */
    before: string | Uint8Array | Message[] | null
}
/** The byte at `place` is the first that cannot belong to any FIT file; `reason` says why. */
export class Refused extends FitError {
    readonly place: number
    readonly reason: Reason
}
/** The bytes end too soon, at `place`. */
export class Truncated extends FitError {
    readonly place: number
}
/** A text that `fromCsv` can't read, at `row` and `column`, or whose files have no bytes; then these are null. */
export class TextRefused extends FitError {}
/** Blocks of which `fromBlocks` makes no file: the block `block`, counted from 0, which begins at `place`, can't stand where it is, and `reason`
 * says why; or they say files that have no bytes, then these are null. */
export class BlocksRefused extends FitError {
    readonly reason: BlockReason | null
    readonly block: number | null
}
/** A value that a field can't have. */
export class WrongValue extends RangeError {
    private constructor()
    readonly field: string
    readonly value: unknown
    readonly least: Whole | null
    readonly most: Whole | null
}
/** A message can't be put into a file: its developer field isn't described where it comes from, and is in this file, or can't be described. */
export class NotDescribed extends Error {
    private constructor()
    readonly field: string
}
/** The engine gave no more memory, to the module or for what it made. This says nothing of the bytes. */
export class OutOfMemory extends RangeError {}
/** Nearly all of very many cells of the columns of all fields would be empty: name the fields. */
export class TooManyCells extends RangeError {}
/** A name of a message that the profile hasn't, or of a field that neither the profile nor the file has. */
export class UnknownName extends RangeError {
    private constructor()
    /** The name. */
    readonly unknown: string
    /** The name that is most like it. */
    readonly nearest: string | null
}
/** The module stopped within a call, which it never should: each later call says the same, and `open` gives another. */
export class Trapped extends Error {}
/** What was opened is no module of gazhdor, or one of another version. */
export class WrongModule extends Error {}

/** A record message, as a row of the table. null stands where the file says nothing of a value. */
export interface Row {
    /** The number of the file in the chain, counted from 1. */
    file: number
    timestamp: Time | null
    /** Degrees north. */
    position_lat: number | null
    /** Degrees east. */
    position_long: number | null
    /** Metres. */
    altitude: number | null
    /** Metres since the start. */
    distance: number | null
    /** Metres a second. */
    speed: number | null
    /** Beats a minute. */
    heart_rate: number | null
    /** Turns a minute. */
    cadence: number | null
    /** Watts. */
    power: number | null
    /** Degrees Celsius. */
    temperature: number | null
}

/** A field of a message. */
export class Field {
    private constructor()
    /** Its name in the profile, or that which the file gives to a developer field. */
    readonly name: string | null
    readonly number: number
    /** Of a developer field its developer data index. */
    readonly developer: number | null
    readonly unit: string | null
    readonly baseType: number
    readonly value: Value
    /** The word for the number that it has, as `cycling` of a sport; null where there is none. */
    readonly word: string | null
    /** `value`, but whole numbers as text, with as many decimals as `toCsv` writes. */
    readonly exact: string | number | Uint8Array | null | (string | number | bigint | null)[]
    /** What the file has: each number unscaled, invalid ones too, of a float its bits; all bytes of a text or of bytes. */
    readonly raw: Whole | Uint8Array | Whole[]
    toString(): string
}

/** A data message. It makes a value when it is asked for it. */
export class Message {
    private constructor()
    /** Its name in the profile, as `record`. */
    readonly name: string | null
    /** The global message number, as 20 for `record`. */
    readonly number: number
    /** The local message type, 0 to 15. */
    readonly local: number
    /** The number of the file in the chain, counted from 1. */
    readonly file: number
    /** The place of its first byte in the source, counted from 0. */
    readonly place: number
    /** Its time, from field 253 or else from a compressed timestamp header. */
    readonly time: Time | null
    /** The same in seconds since 1989-12-31T00:00:00 UTC, or since the device began. */
    readonly seconds: number | null
    /** The time that a compressed timestamp header gives. */
    readonly headerTime: Time | null
    /** The time offset of a compressed timestamp header, 0 to 31. */
    readonly timeOffset: number | null
    /** Metres, of a record: its `enhanced_altitude`, else its `altitude`. */
    readonly altitude: number | null
    /** Metres a second, of a record: its `enhanced_speed`, else its `speed`, else that of `compressed_speed_distance`. */
    readonly speed: number | null
    /** Metres, of a record: its `distance`, else what is accumulated over the file from `compressed_speed_distance`. */
    readonly distance: number | null
    /** Cycles, accumulated over the file. */
    readonly totalCycles: Whole | null
    /** Watts, accumulated over the file. */
    readonly accumulatedPower: Whole | null
    /** Of a record, in degrees. */
    readonly position: { latitude: number; longitude: number } | null
    /** All fields, in the order of the definition, and then all developer fields. */
    readonly fields: Field[]
    /** The value of a field; null where it has none, undefined where the message has no such field. */
    get(key: Key): Value | undefined
    has(key: Key): boolean
    unit(key: Key): string | null | undefined
    /** The word for the number of a field, as `cycling`; null where there is none, undefined where the message has no such field. */
    word(key: Key): string | null | undefined
    /** The values of a field as an array: of a lone number that one, without those that stand for no value. */
    values(key: Key): Exclude<Value, null | unknown[]>[]
    field(key: Key): Field | undefined
    /** Names and values, each field once; a field without a name is `field_N` or `dev_I_N`. */
    [Symbol.iterator](): IterableIterator<[string, Value]>
    toObject(): Record<string, Value>
    /** The values by their labels, each of a type that databases and JSON have: times as Dates, places in degrees, words, several numbers as
     * `name_0`, `name_1` and so on, bytes as text. A time that the device didn't know, and a number that isn't finite, are null. */
    ready(): Record<string, Ready>
    /** The message with other values of some of its fields. A value is what `get` gives; a time may be a Date, a number its word. Throws WrongValue
     * for what a field can't have, and UnknownName where the message hasn't the field. */
    replace(values: Values): Message
    /** The same, and with fields that it hasn't had, which are named as for `Writer.define`. */
    adding(values: Values): Message
    /** What JSON.stringify takes: bytes as hexadecimal digits, numbers that are no exact ones as text. */
    toJSON(): Record<string, unknown>
}

/** A typed array of numbers, and NaN where a message has none; of a field that is somewhere a text, bytes or several numbers an array of its values. */
export type Column = Float64Array | Value[]

export interface Partial {
    /** What comes before a fault is given, and then the fault is thrown by `table` and `messages`, and by the others not. */
    partial?: boolean
}
export interface Encoded extends Partial {
    /** The text as bytes in UTF-8. */
    encoded: true
}
export interface Only {
    /** The messages that are asked for, by name or number. Nothing is made of the others. */
    only?: Kind | Iterable<Kind>
}
/** What is changed of a file. Times are cut before they are moved. */
export interface Changes {
    /** The fields that are emptied: "position", which is all places, the name of a field, or "MESSAGE.FIELD", each a name or a number. */
    drop?: string | Iterable<string>
    /** Seconds by which all times are moved. */
    shift?: number
    /** The first second that stays: seconds since 1989-12-31T00:00:00 UTC, a Date, or a text with a zone. */
    begin?: number | Date | string | null
    /** The last second that stays. */
    end?: number | Date | string | null
}
export interface Edited {
    bytes: Uint8Array
    /** How many values were emptied of each field. */
    emptied: { message: string; field: string; count: number }[]
}
/** What may be written: numbers in the unit of the field, words, texts, bytes, times, several of them, and null for no value. Of a field in semicircles
 * a number is semicircles. */
export type Writable = number | bigint | string | Date | Uint8Array | null | readonly (number | bigint | string | null)[] | NumberArray
type NumberArray = Int8Array | Uint16Array | Int16Array | Uint32Array | Int32Array | Float32Array | Float64Array | BigInt64Array | BigUint64Array
/** Values by the names of their fields; by a Map also by their numbers and by developer fields. */
export type Values = Record<string, Writable> | Map<Key | DeveloperField, Writable>
/** A developer field that a file describes: it names the field in `define`, and is a key of values. */
export class DeveloperField {
    private constructor()
    readonly index: number
    readonly number: number
    readonly name: string | null
    readonly unit: string | null
    /** The name of its base type. */
    readonly base: string
}
/** A field that is written: its name, its number or a developer field; with its base type, where that isn't as usual, and how many items it has. */
export type Spec = Key | DeveloperField | readonly [Key | DeveloperField, string] | readonly [Key | DeveloperField, string, number]
/** What messages with the same fields are written with. */
export class WrittenMessage {
    private constructor()
    /** Writes a message with these values; a field that isn't named has none. */
    write(values: Values): void
}
/** Writes files one after another. A field has as many items, a text as many bytes, as what is written needs. Throws WrongValue for what a field can't
 * have, and then the writer is as it was. */
export class Writer {
    constructor(gazhdor: Gazhdor, options?: WithNames)
    /** Begins a file, which ends the one before it. The first begins by itself. */
    file(): void
    /** What messages of a name or number are written with, which have these fields: names in one text, or a list. */
    define(message: Kind, fields: string | readonly Spec[] | Iterable<Spec>): WrittenMessage
    /** Writes a message of a name or number with these fields. */
    write(message: Kind, values: Values): void
    /** Describes a developer field, and returns it. It has the next number that is free. `native` says that it stands for a field of a message, as
     * `["record", 7]`; `application` has 16 bytes. */
    describe(name: string, options?: {
        unit?: string; base?: string; index?: number; number?: number; native?: readonly [Kind, number]; application?: Uint8Array
    }): DeveloperField
    /** Writes a message that was read, as it is or with other values. It brings its definition and the descriptions of its developer fields along. */
    copy(message: Message): void
    /** Ends the files, and returns their bytes. After that the writer can't be used. */
    finish(): Uint8Array
    /** Forgets all. After that the writer can't be used. */
    close(): void
}
/** What is said of a field; what is left out or null stays as the library says it. */
export interface Named {
    name?: string | null
    unit?: string | null
    /** A whole number `raw` stands for `raw / scale - offset` units; floats stand for themselves. */
    scale?: number | null
    offset?: number | null
    /** `date_time` or `local_date_time` of a number that is a time, or a type of words, as `sport`. */
    type?: string | null
    /** The base type that it has when it is written, as `uint16`. */
    base?: string | null
}
/** Names are told one after another: `[message, field, name]`, or what is said of the field in place of its name; `[message, name]` names a message
 * by its number. A text has tabs between its cells: `message`, `message name`, `field`, `field name`, `unit`, `scale`, `offset`, `type`, `base type`
 * in its first line, of which some may be left out. */
export type ToldName = readonly [Kind, number, string | Named] | readonly [number, string]
export type ToldNames = string | readonly ToldName[] | Iterable<ToldName>
/** Names, units and scales of fields, and names of messages, beside those of the library. It throws RangeError for what can't be. */
export class Names {
    constructor(told?: ToldNames)
    /** The numbers of the messages that are named, by their names. */
    readonly messages: Map<string, number>
    /** The name of a message, or null where it isn't named. */
    message(number: number): string | null
    /** What is said of the fields of a message, by their numbers. */
    fields(number: number): Map<number, Readonly<Required<Named>>>
    /** Names that have what both have, and of what both name what the others have. */
    with(others: Names | ToldNames): Names
}
/** The fields and messages that recordings have and the proved profile hasn't. */
export const EXTRA: Names
export interface WithNames {
    /** Names beside those of the library, as `EXTRA`. */
    names?: Names | ToldNames
}
export interface Words {
    /** Whether a number that has a word is that word, as `cycling` for a sport. */
    words?: boolean
}
/** What `ready` gives. */
export type Ready = number | string | Date | null
export type StreamKind = "check" | "show" | "table" | "toCsv" | "blocks" | "messages"

/** An instance of the module. Each call throws OutOfMemory where the engine gives no more memory. */
export class Gazhdor {
    private constructor()
    /** Whether the bytes are a FIT file or several, one after another. */
    check(source: Bytes): Answer
    /** An object for each record message. */
    table(source: Bytes, options?: Partial): IterableIterator<Row>
    /** The table of the record messages as CSV text. */
    tableText(source: Bytes, options?: Partial & { encoded?: false }): string
    tableText(source: Bytes, options: Encoded): Uint8Array
    /** All of the file as CSV text, of which `fromCsv` makes the same bytes again. */
    toCsv(source: Bytes, options?: Partial & { encoded?: false }): string
    toCsv(source: Bytes, options: Encoded): Uint8Array
    /** The messages with names, units and times, a line each. */
    show(source: Bytes, options?: Partial & { encoded?: false }): string
    show(source: Bytes, options: Encoded): Uint8Array
    /** The bytes of the file or files that a CSV text describes. */
    fromCsv(text: string | Bytes): Uint8Array
    /** The track as GPX 1.1: a track for each file, a segment for each stretch from a start of the timer to a stop, a point for each record that has a
     * place, with temperature, heart rate, cadence and power as extensions. */
    gpx(source: Bytes, options?: Partial & { encoded?: false }): string
    gpx(source: Bytes, options: Encoded): Uint8Array
    /** All that the files have as blocks of bytes, one after another, of which `fromBlocks` makes the same bytes again. */
    blocks(source: Bytes, options?: Partial): Uint8Array
    /** The bytes of the file or files that blocks say: docs/BLOCKS.md of the project says what is in one, and what of it is read here. */
    fromBlocks(blocks: Bytes): Uint8Array
    /** The good messages of a file that was cut or damaged as a file of their own, with the files before it. With `whole` a file that has records
     * and no session gets what it lacks: a lap of those that are in none, a session, an activity message. */
    mend(source: Bytes, options?: { whole?: boolean }): Uint8Array
    /** A file, or a chain of files, with changes. Throws RangeError where no record has a time in the span, and UnknownName for a field that nothing
     * names. */
    edit(source: Bytes, changes?: Changes): Edited
    /** Several files as a chain or, with `one`, as one activity. Throws RangeError where a file begins before the one before it ends, or has a
     * developer field that it doesn't describe. */
    join(sources: Iterable<Bytes>, options?: { one?: boolean }): Uint8Array
    /** A Message for each data message; with `ready` its values, as `Message.ready` gives them. */
    messages(source: Bytes, options: Partial & Only & Words & WithNames & { ready: true }): IterableIterator<Record<string, Ready>>
    messages(source: Bytes, options?: Partial & Only & Words & WithNames): IterableIterator<Message>
    /** The values of fields in all messages of a name or number, in their order. Without `fields` it is each field that one of them has.
     * `timestamp` is the time of the message in milliseconds since 1970; `.latitude` and `.longitude` are in degrees; `.file`, `.place`, `.local`,
     * `.seconds`, `.time`, `.total_cycles`, `.accumulated_power` are what the message tells of itself; `.altitude`, `.speed` and `.distance` are
     * as in the table. With `ready` times are milliseconds since 1970, places degrees, several numbers columns `name_0`, `name_1` and so on,
     * and words, texts and bytes texts. */
    columns(source: Bytes, message: Kind, fields: Iterable<Key> | undefined, options: Partial & Words & WithNames & { ready: true }): Record<string, Column>
    columns(source: Bytes, message: Kind, fields?: Iterable<Key>, options?: Partial & Words & WithNames): Record<string, Column>
    columns<Name extends string>(source: Bytes, message: Kind, fields: readonly Name[], options?: Partial & Words & WithNames): Record<Name, Column>
    /** For `pipeThrough`: bytes go in, and messages, texts or blocks come out; of "check" the bytes themselves. */
    stream(kind: "messages", options?: Only & Words & WithNames): ReadableWritablePair<Message, Bytes>
    stream(kind: "show" | "table" | "toCsv" | "gpx"): ReadableWritablePair<string, Bytes>
    stream(kind: "blocks"): ReadableWritablePair<Uint8Array, Bytes>
    stream(kind: "check"): ReadableWritablePair<Bytes, Bytes>
    /** Bytes of the module's memory now. */
    readonly size: number
}

/** FIT files that come in pieces. It keeps what the next piece needs, and no more for more bytes. */
export class Stream<Made extends string | Uint8Array | Message[] = string | Uint8Array | Message[]> {
    constructor(gazhdor: Gazhdor, kind: StreamKind, options?: Only & Words & WithNames)
    /** How many files have ended so far. */
    readonly files: number
    /** Takes the next bytes, of any length, and returns what they complete: whole lines, messages or blocks. */
    feed(piece: Bytes): Made
    /** Says that no more bytes come, closes the stream, and returns what is still to come. */
    finish(): Made
    close(): void
}

export interface Options {
    /** The most bytes that the memory of the module may have, at least some 1.2 million. */
    maximum?: number
}
/** Opens an instance of the module: of gazhdor.wasm beside this file, or of what is given. */
export function open(source?: string | URL | Bytes | WebAssembly.Module | Response | Promise<Response>, options?: Options): Promise<Gazhdor>

/** The time that a number of a field such as `start_time` stands for. */
export function when(seconds: number): Time
export function when(seconds: number | null | undefined): Time | null

/** The words of a type, as `sport`, by their numbers. Throws UnknownName where no type is named so. */
export function words(type: string): Record<number, string>

/** Degrees of semicircles. */
export function degrees(semicircles: number): number
/** The semicircles that are nearest to degrees. */
export function semicircles(degrees: number): number

export const VERSION: string
