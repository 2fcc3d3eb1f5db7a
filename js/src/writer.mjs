/* Files that are written from values, and from what others have. */
import { judgeBlocks } from "./answers.mjs"
import { packerOf } from "./changed.mjs"
import { Chain } from "./chain.mjs"
import { baseNamed, baseOf, definitionBlock, emptyMessage, newHeader } from "./definitions.mjs"
import { described, notDescribed } from "./describing.mjs"
import { Amounts } from "./distances.mjs"
import { insideOf } from "./messages.mjs"
import { seeNames } from "./names.mjs"
import { AT_DEFINITION_LOCAL, AT_MESSAGE_LOCAL } from "./numbers.mjs"
import { UnknownName } from "./profile.mjs"
import { DeveloperField, messageNumber, shapesOf } from "./shapes.mjs"
import { definitionOf } from "./shared.mjs"
import { coreOf } from "./streams.mjs"
import { labelOf, partOf } from "./values.mjs"
import { numbered } from "./worded.mjs"

const DESCRIPTION = 206, DEVELOPER_DATA = 207
const MOST = 16 // So many layouts are kept of messages whose fields have now more items and now fewer.
const layoutsOf = new WeakMap() // by the shapes of their fields

const pairs = values => (values instanceof Map ? [...values] : Object.entries(values))

/* What messages with the same fields are written with: `Writer.define` makes it. It goes with the file in which it was made. */
export class WrittenMessage {
    #writer
    #number
    #shapes
    #sizes
    #layouts
    #current = null // the layout of these sizes

    constructor(writer, number, shapes) {
        this.#writer = writer
        this.#number = number
        this.#shapes = shapes
        this.#sizes = shapes.map(({ least }) => least)
        if (!layoutsOf.has(shapes)) layoutsOf.set(shapes, new Map())
        this.#layouts = layoutsOf.get(shapes)
    }

    /* The fields in their sizes: the definition, and a message without values. */
    #layout() { return this.#current ??= this.#laid(this.#sizes.join(" ")) }

    #laid(label) {
        if (!this.#layouts.has(label)) {
            if (this.#layouts.size === MOST) this.#layouts.clear()
            const block = definitionBlock(this.#number, this.#shapes.map((shape, k) => shape.of(this.#sizes[k])))
            const definition = definitionOf(block, { names: this.#writer.names })
            this.#layouts.set(label, { definition, empty: emptyMessage(definition, block, 0) })
        }
        return this.#layouts.get(label)
    }

    /* Writes a message with these values; a field that isn't named has none. */
    write(values) {
        const sizes = this.#sizes
        try {
            this.#writer.put(...this.#made(pairs(values).map(([key, value]) => [keyOf(key), value])))
        } catch (error) {
            this.#resize(sizes)
            throw error
        }
    }

    #resize(sizes) {
        this.#sizes = sizes
        this.#current = null
    }

    #made(values) {
        for (const [key, value] of values) {
            const { definition } = this.#layout(), entry = definition.entry(key), at = definition.entries.indexOf(entry)
            if (entry === undefined) throw new UnknownName("the definition has no field", labelOf(key), definition.labels.keys())
            const needed = this.#shapes[at].needed(value, this.#sizes[at])
            if (needed !== this.#sizes[at]) this.#resize(this.#sizes.map((size, k) => (k === at ? needed : size)))
        }
        const { definition, empty } = this.#layout(), block = empty.slice()
        for (const [key, value] of numbered(definition, values, partOf(empty))) packerOf(definition, definition.entry(key)).put(block, 0, value)
        return [definition, block]
    }
}

const keyOf = key => (key instanceof DeveloperField ? key.key : key)

/* Writes files one after another. The proved writer keeps what a reader of them would know; this puts values into blocks for it. */
export class Writer {
    #core
    #names
    #chain = null
    #developers = new Map()
    #indices = new Set()
    #kinds = new Map()
    #own = null // the developer fields of the last messages that have some
    #amounts = new Amounts()
    #learns // whether developer fields that are described may be named
    #isFinished = false

    constructor(gazhdor, { names, learns = true } = {}) {
        this.#core = coreOf.get(gazhdor)
        if (this.#core === undefined) throw new TypeError("a writer is of what `open` gives")
        this.#names = seeNames(names)
        this.#learns = learns
    }

    get names() { return this.#names }

    /* Begins a file, which ends the one before it. The first begins by itself. */
    file() { this.begin(newHeader()) }

    /* What messages of a name or number are written with, which have these fields. */
    define(message, fields) {
        this.#seeUsable()
        const number = messageNumber(message, this.names)
        return new WrittenMessage(this, number, shapesOf(number, fields, { names: this.names, developers: this.#developers }))
    }

    /* Writes a message of a name or number with these fields. */
    write(message, values) {
        const keys = pairs(values).map(([key]) => key), kind = `${message} ${JSON.stringify(keys.map(key => labelOf(keyOf(key))).sort())}`
        if (!this.#kinds.has(kind)) this.#kinds.set(kind, this.define(message, keys))
        this.#kinds.get(kind).write(values)
    }

    /* Describes a developer field, and returns it. It has the developer data index `index`, and the next number that is free. */
    describe(name, { unit = "", base = "uint16", index = 0, number, native, application } = {}) {
        const field = number ?? this.#last(index) + 1, own = application === undefined ? {} : { application_id: application }
        const told = { developer_data_index: index, field_definition_number: field, fit_base_type_id: baseNamed(base).code, field_name: name }
        if (unit !== "") told.units = unit
        if (application !== undefined && !(application instanceof Uint8Array && application.length === 16))
            throw new RangeError("an application is named by 16 bytes")
        const more = native === undefined ? [] : [[[14, "uint16"], messageNumber(native[0], this.names)], [[15, "uint8"], native[1]]]
        const definition = this.define(DESCRIPTION, [...Object.keys(told), ...more.map(([spec]) => spec)])
        if (!this.#indices.has(index)) this.write(DEVELOPER_DATA, { developer_data_index: index, ...own })
        definition.write(new Map([...Object.entries(told), ...more.map(([[key], value]) => [key, value])]))
        return this.#developers.get(`${index} ${field}`)
    }

    /* The greatest number of a developer field that is described; -1 without any. */
    #last(index) {
        let last = -1
        for (const of of this.#developers.values()) if (of.index === index) last = Math.max(last, of.number)
        return last
    }

    /* Writes a message that was read, as it is or with other values. */
    copy(message) {
        const { definition, part, at } = insideOf(this.#amounts.kept(message))
        this.put(definition, part.bytes.subarray(at, at + definition.messageLength))
    }

    /* Ends the files, and returns their bytes. After that the writer can't be used. */
    finish() {
        this.#seeUsable()
        if (this.#chain === null) throw new RangeError("nothing was written, and no file is empty")
        const bytes = this.#chain.finish()
        this.close()
        return bytes
    }

    /* Forgets all. After that the writer can't be used. */
    close() {
        this.#isFinished = true
        this.#chain?.close()
        this.#chain = null
    }

    #seeUsable() { if (this.#isFinished) throw new TypeError("the writer is finished") }

    // ---- blocks

    /* Begins a file by the block of its header. */
    begin(header) {
        this.#seeUsable()
        const chain = this.#chain ?? new Chain(this.#core)
        chain.begin(header)
        this.#chain = chain
        this.#amounts = new Amounts()
        this.#developers.clear()
        this.#indices.clear()
        this.#kinds.clear()
        this.#own = null
    }

    /* Puts a definition message by its block. */
    putDefinition(block) { this.#begun().define(block) }

    #begun() {
        this.#seeUsable()
        if (this.#chain === null) this.file()
        return this.#chain
    }

    /* Puts the blocks of messages of a definition, up to the first that can't be put; its fault is thrown. */
    put(definition, blocks) {
        const chain = this.#begun(), block = localOf(definition.block, blocks[AT_MESSAGE_LOCAL])
        if (definition.number === DESCRIPTION && this.#learns) this.#learn(definition, blocks)
        const answer = chain.put(block, blocks)
        if (this.#learns && (answer.good || answer.block > 0)) this.#learnOwn(definition)
        if (answer.reason === "Described") throw notDescribed(definition)
        judgeBlocks(answer)
        this.#amounts.take(definition, blocks)
        if (definition.number === DEVELOPER_DATA) this.#each(definition, blocks, (of, part, at) => this.#indices.add(of(3, part, at)))
    }

    /* Takes in the developer fields of messages that were put, which were described with these if they weren't. What was named before keeps its
     * name. */
    #learnOwn(definition) {
        const own = described(definition), known = this.#developers
        if (own.length === 0 || own === this.#own) return
        for (const of of own) {
            if (!known.has(`${of.index} ${of.number}`)) this.#indices.add(of.index)
            for (const key of [`${of.index} ${of.number}`, of.name]) if (key !== null && !known.has(key)) known.set(key, of)
        }
        this.#own = own
    }

    /* Takes in what descriptions say, before they are put. */
    #learn(definition, blocks) {
        this.#kinds.clear()
        this.#each(definition, blocks, (of, part, at) => {
            const [index, number, base] = [0, 1, 2].map(key => of(key, part, at))
            if (index === null || number === null || base === null) return
            const [name, unit] = [3, 8].map(key => definition.entry(key)?.read(part, at)).map(text => (typeof text === "string" ? text : null))
            const field = new DeveloperField(index, number, { name, unit, base: baseOf(base) })
            this.#developers.set(`${index} ${number}`, field)
            if (name !== null) this.#developers.set(name, field)
        })
    }

    /* Calls with what reads the lone byte of a field, for each message. */
    #each(definition, blocks, call) {
        const part = partOf(blocks), of = (key, { bytes }, at) => {
            const entry = definition.entry(key)
            return entry !== undefined && entry.width === 1 && entry.count === 1 ? bytes[at + entry.begins] : null
        }
        for (let at = 0; at < blocks.length; at += definition.messageLength) call(of, part, at)
    }
}

/* The block of a definition with a local message type. */
function localOf(block, local) {
    if (block[AT_DEFINITION_LOCAL] === local) return block
    const made = block.slice()
    made[AT_DEFINITION_LOCAL] = local
    return made
}
