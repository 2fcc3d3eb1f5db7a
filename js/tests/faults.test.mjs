/* What is refused and where, what comes before a fault, blocks that are changed, and what may be given as bytes. */
import assert from "node:assert/strict"
import { test } from "node:test"
import { BLOCK_REASONS, BlocksRefused, FitError, REASONS, Refused, TextRefused, TooManyCells, Truncated } from "../src/answers.mjs"
import { Stream, open } from "../gazhdor.mjs"
import { Walk } from "../src/messages.mjs"
import * as n from "../src/numbers.mjs"
import { RIDE, ROWS, allFiles, joined, textAt, thrown } from "./tools.mjs"

const gazhdor = await open()
const files = Object.entries(await allFiles())

test("faults: place and reason, and what comes before", () => {
    const short = RIDE.subarray(0, 2000), wrong = RIDE.slice()
    wrong[2500] ^= 1
    const answer = gazhdor.check(wrong)
    assert.equal(`${answer}`, `refused at byte ${RIDE.length - 2}: FileSum`)
    assert.equal(answer.explanation, `The byte at ${RIDE.length - 2} isn't that of the closing checksum (the protocol's CRC of the file).`)
    assert.deepEqual([gazhdor.check(RIDE).explanation, gazhdor.check(short).explanation], [null, "The bytes end at 2000, before the file does."])
    const place = thrown(Truncated, () => gazhdor.tableText(short)).place
    assert.equal(place, 2000)
    for (const call of ["toCsv", "show", "messages", "table"]) assert.ok(thrown(Truncated, () => gazhdor[call](short)) instanceof FitError)
    const fault = thrown(Refused, () => gazhdor.columns(wrong, "record"))
    assert.deepEqual([fault.reason, fault.place, fault.name, fault.before], ["FileSum", RIDE.length - 2, "Refused", null])
    const made = []
    thrown(Truncated, () => { for (const row of gazhdor.table(short, { partial: true })) made.push(row) })
    const whole = gazhdor.columns(short, "record", ["timestamp"], { partial: true }).timestamp.length
    assert.ok(made.length > 50 && made.length === whole)
    assert.equal(gazhdor.tableText(short, { partial: true }).trimEnd().split("\n").length, whole + 1)
    const row = thrown(TextRefused, () => gazhdor.fromCsv(ROWS.replace("206,5", "206,x")))
    assert.deepEqual([row.row, row.column, row.message, row.place], [3, 6, "row 3 column 6 refused", null])
    assert.equal(thrown(TextRefused, () => gazhdor.fromCsv("")).message, "row 1 refused")
})

test("a mended file has all records before the fault", () => {
    for (const [, bytes] of files.filter(([, all]) => all.length > 100))
        for (const end of [bytes.length - 1, bytes.length >> 1, bytes.length - 40]) {
            const mended = gazhdor.mend(bytes.subarray(0, end))
            assert.ok(gazhdor.check(mended).good)
            assert.equal(gazhdor.tableText(mended), gazhdor.tableText(bytes.subarray(0, end), { partial: true }))
        }
    assert.deepEqual(gazhdor.mend(RIDE), RIDE)
    // A recording whose device went out: the size was never filled in, and there is no checksum.
    const open = RIDE.slice(0, -2)
    open.fill(0, 4, 8)
    open.fill(0, 12, 14)
    assert.equal(gazhdor.tableText(gazhdor.mend(open)), gazhdor.tableText(RIDE))
    assert.deepEqual(gazhdor.mend(open).subarray(14), RIDE.subarray(14))
    const chain = joined([RIDE, RIDE.subarray(0, 2000), RIDE, Uint8Array.of(10)])
    assert.equal(gazhdor.check(gazhdor.mend(joined([RIDE, RIDE.subarray(0, 2000)]))).files, 2)
    assert.deepEqual(gazhdor.mend(joined([RIDE, Uint8Array.of(10)])), RIDE)
    assert.ok(gazhdor.check(gazhdor.mend(chain)).files >= 2)
    assert.equal(thrown(Truncated, () => gazhdor.mend(RIDE.subarray(0, 9))).place, 9)
    assert.equal(thrown(Refused, () => gazhdor.mend(new TextEncoder().encode("<gpx></gpx>"))).reason, "Protocol")
})

test("a message of a definition that didn't come is none", () => {
    const blocks = new Stream(gazhdor, "blocks").feed(RIDE), view = new DataView(blocks.buffer)
    assert.equal(new Walk().messages(blocks).length, 149)
    for (let at = 0; at < blocks.length; at += view.getUint32(at + n.AT_LENGTH, true))
        if (blocks[at + n.AT_KIND] === n.MESSAGE) view.setBigUint64(at + n.AT_MESSAGE_DEFINITION, 1000n, true)
    assert.throws(() => new Walk().messages(blocks), /without its definition/)
})

test("blocks give the same bytes again", () => {
    for (const [name, bytes] of files.filter(([, all]) => gazhdor.check(all).good)) {
        const blocks = gazhdor.blocks(bytes)
        assert.deepEqual(gazhdor.fromBlocks(blocks), bytes, name)
        const stream = new Stream(gazhdor, "blocks"), parts = [stream.feed(bytes.subarray(0, 30)), stream.feed(bytes.subarray(30)), stream.finish()]
        assert.deepEqual(joined(parts), blocks, name)
    }
    const chain = joined([RIDE, RIDE])
    assert.deepEqual(gazhdor.fromBlocks(gazhdor.blocks(chain).buffer), chain)
})

test("a value that is changed in blocks is changed in the file", () => {
    // The first record of the ride has its altitude, field 2, 408 m, as 4540 fifths of a metre above -500 m.
    const blocks = gazhdor.blocks(RIDE), view = new DataView(blocks.buffer)
    let at = 0, definition = 0
    const isOfIt = () => view.getBigUint64(at + n.AT_MESSAGE_DEFINITION, true) === view.getBigUint64(definition + n.AT_DEFINITION_NUMBER, true)
    for (; blocks[at + n.AT_KIND] !== n.MESSAGE || !isOfIt(); at += view.getUint32(at + n.AT_LENGTH, true))
        if (blocks[at + n.AT_KIND] === n.DEFINITION && view.getUint16(at + n.AT_DEFINITION_MESSAGE, true) === 20) definition = at
    let entry = definition + n.AT_DEFINITION_NAME + "record\0\0".length
    while (blocks[entry + n.AT_ENTRY_NUMBER] !== 2) entry += view.getUint16(entry + n.AT_ENTRY_LENGTH, true)
    const begins = at + view.getUint32(entry + n.AT_ENTRY_ITEMS, true)
    assert.equal(view.getUint16(begins, true), 4540)
    view.setUint16(begins, 4545, true)
    const changed = gazhdor.fromBlocks(blocks), { altitude } = gazhdor.columns(changed, "record", ["altitude"])
    assert.deepEqual([altitude[0], altitude.subarray(1)], [409, gazhdor.columns(RIDE, "record", ["altitude"]).altitude.subarray(1)])
    assert.equal(changed.length, RIDE.length)
})

test("blocks that are refused", () => {
    const blocks = gazhdor.blocks(RIDE), first = new DataView(blocks.buffer).getUint32(0, true)
    const told = (made, what) => {
        const { name, reason, block, place, message, row } = thrown(BlocksRefused, () => gazhdor.fromBlocks(made))
        assert.deepEqual([name, reason, block, place, row], ["BlocksRefused", ...what, null])
        assert.equal(message, `block ${block} at ${place} refused: ${reason}`)
    }
    told(new Uint8Array(0), ["Cut", 0, 0])
    told(blocks.subarray(0, first), ["Cut", 1, first])
    told(blocks.subarray(first), ["Kind", 0, 0])
    const other = blocks.slice()
    other[first + n.AT_DEFINITION_ARCHITECTURE] = 2
    told(other, ["Architecture", 1, first])
    assert.equal(thrown(BlocksRefused, () => gazhdor.fromBlocks(other)).explanation, `Block 1, which begins at ${first}, has an architecture that is neither 0 nor 1.`)
    // The checksum of this header is 0, and zeros can't stand for it.
    const none = gazhdor.blocks(gazhdor.fromCsv("row,a,b,c,d,e,f\nfile,14,32,46477,sum,,\nend,,,,,,\n"))
    none[n.AT_HEADER_SUM] = n.ZERO_SUM
    const fault = thrown(BlocksRefused, () => gazhdor.fromBlocks(none))
    assert.deepEqual([fault.message, fault.block, fault.place, fault.reason], ["no file has such blocks", null, null, null])
    assert.match(fault.explanation, /^The blocks are those of files that have no bytes/)
    for (const source of [null, "blocks", 5, [1]]) thrown(TypeError, () => gazhdor.fromBlocks(source))
    assert.equal(thrown(Truncated, () => gazhdor.blocks(RIDE.subarray(0, 2000))).place, 2000)
    told(gazhdor.blocks(RIDE.subarray(0, 14), { partial: true }), ["Cut", 1, first])
})

test("reasons in words are those of the tables", () => {
    for (const [path, reasons] of [["profile/reasons.tsv", REASONS], ["profile/block_reasons.tsv", BLOCK_REASONS]]) {
        const lines = textAt(path).trimEnd().split("\n").slice(1)
        assert.deepEqual(lines.map(line => line.split("\t")), Object.entries(reasons))
    }
})

test("what may be given as bytes", () => {
    const shared = new SharedArrayBuffer(RIDE.length), room = new ArrayBuffer(RIDE.length + 7)
    new Uint8Array(shared).set(RIDE)
    new Uint8Array(room, 5).set(RIDE.subarray(0, RIDE.length))
    class Long extends Uint8Array { get length() { return 2 ** 31 } get byteLength() { return 2 ** 31 } get byteOffset() { return 2 ** 20 } }
    class Short extends Uint8Array { get length() { return 0 } get byteLength() { return 0 } slice() { return [] } }
    const sources = [
        RIDE, Uint8Array.from(RIDE).buffer, shared, Buffer.from(RIDE), new DataView(room, 5, RIDE.length), new Uint8Array(room, 5, RIDE.length),
        new Long(RIDE), new Short(RIDE), new Uint8Array(shared),
    ]
    for (const source of sources) {
        assert.equal(`${gazhdor.check(source)}`, "ok")
        assert.equal(gazhdor.tableText(source), gazhdor.tableText(RIDE))
    }
    const none = [null, undefined, 5, "ride.fit", [1, 2], {}, { buffer: room, byteLength: 9, byteOffset: 0 }, new Proxy(RIDE, {}), Promise.resolve(RIDE)]
    for (const source of none) thrown(TypeError, () => gazhdor.check(source))
    const gone = new Uint8Array(room)
    structuredClone(room, { transfer: [room] })
    thrown(TypeError, () => gazhdor.check(gone))
    assert.equal(`${gazhdor.check(new Uint8Array(0))}`, "truncated at byte 0")
})

test("columns that would fill the memory", () => {
    // A header, a definition of 250 fields of no bytes, and messages of one byte, which the end cuts off.
    const fields = Array.from({ length: 250 }, (_, k) => [k, 0, 2]).flat()
    const front = [12, 32, 0, 0, 0, 0, 0, 1, 0x2e, 0x46, 0x49, 0x54, 0x40, 0, 0, 0xe8, 3, 250, ...fields], many = new Uint8Array(front.length + 300000)
    many.set(front)
    assert.equal(gazhdor.columns(many.subarray(0, 1000), 1000, undefined, { partial: true }).field_7.length, 1000 - front.length)
    assert.match(thrown(TooManyCells, () => gazhdor.columns(many, 1000, undefined, { partial: true })).message, /of 251 columns of \d+ messages/)
    assert.equal(gazhdor.columns(many, 1000, [7], { partial: true }).field_7.length, 300000)
})
