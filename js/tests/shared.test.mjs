/* The cases that the tests of several languages read, by tests/cases: nearest names, labels of fields, and what is mended. */
import assert from "node:assert/strict"
import { test } from "node:test"
import { FitError, open } from "../gazhdor.mjs"
import { nearestOf } from "../src/profile.mjs"
import { textAt } from "./tools.mjs"

const gazhdor = await open()
const cases = name => JSON.parse(textAt(`tests/cases/${name}.json`))
const bytesOf = digits => Uint8Array.from(Buffer.from(digits, "hex"))

test("the nearest of some names", () => {
    for (const { name, among, nearest } of cases("nearest")) assert.equal(nearestOf(name, among), nearest, name)
})

test("labels of the fields of a definition", () => {
    for (const { what, file, labels } of cases("labels")) {
        const message = [...gazhdor.messages(bytesOf(file), { only: "record" })].pop()
        assert.deepEqual(Array.from(message, ([label]) => label), labels, what)
        // A name that means something else names no developer field.
        for (const { name, developer } of message.fields)
            if (developer !== null && !labels.includes(name) && name !== null) assert.equal(message.has(name), labels.includes(name), what)
    }
})

test("what is mended", () => {
    for (const { what, file, mended } of cases("mend")) {
        if (mended === null) assert.throws(() => gazhdor.mend(bytesOf(file)), FitError, what)
        else assert.equal(Buffer.from(gazhdor.mend(bytesOf(file))).toString("hex"), mended, what)
    }
})
