/* Does what the words of a command line say, and ends with the exit status. */
import { VERSION, open } from "../gazhdor.mjs"
import { runChange } from "./changing.mjs"
import { NotWritten, Usage } from "./outputs.mjs"
import { help, helpOf, parsed, wanted } from "./parsing.mjs"
import { Progress } from "./progress.mjs"
import { faultOf } from "./inputs.mjs"
import { runReader } from "./reading.mjs"

const CHANGING = ["edit", "join", "mend"]
const USAGE = 2, OUTPUT = 4, INTERRUPTED = 130

/* The status of the words. */
async function done(words) {
    const [first, ...rest] = words
    if (first === "-h" || first === "--help" || (first === "help" && rest.length === 0)) return said(help())
    if (first === "--version") return said(`gazhdor ${VERSION}\n`)
    const command = wanted(first === "help" ? rest[0] : first)
    if (first === "help") return said(helpOf(command))
    const asked = parsed(command, rest)
    if (asked.help) return said(helpOf(command))
    const isText = !["check", ...CHANGING].includes(command) && asked.output === undefined
    const progress = new Progress(isText && Boolean(process.stdout.isTTY))
    process.once("exit", () => progress.clear())
    return (CHANGING.includes(command) ? runChange : runReader)(await open(), command, asked, progress)
}

function said(text) {
    process.stdout.write(text)
    return 0
}

/* Where nobody reads the output any more, the status is 4, and nothing is said of it. */
function failed(error) {
    if (error instanceof Usage) {
        process.stderr.write(`${error.message}\n`)
        if (!error.message.includes("usage:")) process.stderr.write("`gazhdor --help` says what there is\n")
        return USAGE
    }
    const cause = error instanceof NotWritten ? error.cause : error
    if (error instanceof NotWritten || ["EPIPE", "ENOSPC"].includes(cause.code)) {
        if (cause.code !== "EPIPE") process.stderr.write(`output: ${faultOf(cause)}\n`)
        return OUTPUT
    }
    throw error
}

export async function run(words) {
    process.once("SIGINT", () => process.exit(INTERRUPTED))
    process.stdout.on("error", error => process.exit(failed(error)))
    let status
    try {
        status = await done(words)
    } catch (error) {
        status = failed(error)
    }
    process.exitCode = status
    // A pipe whose end nobody sends would keep it alive.
    process.stdin.unref?.()
}
