/* The words of a command line. */
import { parseArgs } from "node:util"
import { secondOf } from "../src/plain.mjs"
import { Usage } from "./outputs.mjs"

const RECURSIVE = { recursive: { type: "boolean", short: "r" } }, OUTPUT = { output: { type: "string", short: "o" } }
const TEXTS = { options: { ...RECURSIVE, ...OUTPUT }, words: "[-r] [-o OUT] [FILE].." }

/* What each command takes, and what it is for. */
export const COMMANDS = {
    check: {
        options: { ...RECURSIVE, json: { type: "boolean" } }, words: "[-r] [--json] [FILE]..",
        summary: "say whether files are FIT files, and where and why not",
    },
    show: { ...TEXTS, summary: "write the messages with names, units and times" },
    table: { ...TEXTS, summary: "write a row of CSV for each record: time, place, heart rate .." },
    "to-csv": { ...TEXTS, summary: "write all of a file as CSV, of which from-csv makes it again" },
    "from-csv": { options: OUTPUT, words: "[-o OUT] [FILE]..", summary: "make the FIT file that such a CSV describes" },
    json: {
        options: {
            ...RECURSIVE, ...OUTPUT, extra: { type: "boolean" }, names: { type: "string", multiple: true }, numbers: { type: "boolean" },
            ready: { type: "boolean" },
        },
        words: "[-r] [-o OUT] [--extra] [--names TSV].. [--numbers | --ready] [FILE]..",
        summary: "write a line of JSON for each message",
    },
    gpx: { ...TEXTS, summary: "write the track as GPX" },
    mend: {
        options: { force: { type: "boolean", short: "f" }, whole: { type: "boolean" } }, words: "[-f] [--whole] [IN [OUT]]",
        summary: "make a good file of one that was broken off or is damaged",
    },
    edit: {
        options: { drop: { type: "string", multiple: true }, shift: { type: "string" }, from: { type: "string" }, to: { type: "string" } },
        words: "[--drop FIELD].. [--shift TIME] [--from TIME] [--to TIME] IN OUT",
        summary: "write a copy with fields emptied, times moved, or a part alone",
    },
    join: {
        options: { one: { type: "boolean" } }, words: "[--one] FILE FILE.. OUT",
        summary: "write several files as one: as a chain, or as one activity",
    },
}
const SAYS = {
    recursive: ["-r, --recursive", "read the FIT files in folders, too"],
    output: ["-o, --output OUT", "write to this file"],
    json: ["--json", "write a line of JSON for each FILE"],
    extra: ["--extra", "name the fields that the profile of the library hasn't, too"],
    names: ["--names TSV", "name fields and messages as this text says"],
    numbers: ["--numbers", "write numbers where there are words for them, as 2 for cycling"],
    ready: ["--ready", "write values ready to use: times as texts, places in degrees"],
    force: ["-f, --force", "write OUT also where it is there already"],
    whole: ["--whole", "add the lap, the session and the activity that are lacking"],
    drop: ["--drop FIELD", "empty a field: FIELD, MESSAGE.FIELD, by names or numbers, or 'position', which is all places"],
    shift: ["--shift TIME", "move all times, as 3600, 1h30m or -45s"],
    from: ["--from TIME", "leave out what is before, as 2026-05-17T07:30:00Z"],
    to: ["--to TIME", "leave out what is after"],
    one: ["--one", "make one activity of them, with distances that go on"],
}
const HELP = { help: { type: "boolean", short: "h" } }

/* The command that there is of a name. */
export function wanted(name) {
    if (name === undefined) throw new Usage("a command is missing")
    if (!Object.hasOwn(COMMANDS, name)) throw new Usage(`there is no command '${name}'`)
    return name
}

const usage = name => `usage: gazhdor ${name} ${COMMANDS[name].words}`

const SECONDS = { d: 86400, h: 3600, m: 60, s: 1 }

/* The seconds of a time to move by: 3600, -45, 1h30m, 2d, -1h5s. */
function secondsOf(word) {
    const told = /^([+-]?)(?:(\d+)|((?:\d+[dhms])+))$/.exec(word)
    if (told === null) throw new Usage(`${word} is no time to move by, as 3600, 1h30m or -45s`)
    const parts = [...(told[3] ?? `${told[2]}s`).matchAll(/(\d+)([dhms])/g)], letters = parts.map(([, , letter]) => "dhms".indexOf(letter))
    if (letters.some((letter, k) => k > 0 && letter <= letters[k - 1]))
        throw new Usage(`${word} is no time to move by: days, hours, minutes and seconds come in this order`)
    const total = parts.reduce((sum, [, number, letter]) => sum + Number(number) * SECONDS[letter], 0)
    return told[1] === "-" ? -total : total
}

/* What the words of times mean. */
function meantBy({ shift, from, to }) {
    const time = word => {
        try {
            return secondOf(word)
        } catch (error) {
            throw new Usage(`${word}: ${error.message}`)
        }
    }
    return { shift: shift === undefined ? 0 : secondsOf(shift), from: time(from), to: time(to) }
}

/* The words, --shift together with the next one, which may begin with a minus. */
function withValues(words) {
    const end = words.includes("--") ? words.indexOf("--") : words.length, made = []
    for (const word of words.slice(0, end)) {
        if (made.at(-1) === "--shift") made.push(`${made.pop()}=${word}`)
        else made.push(word)
    }
    return [...made, ...words.slice(end)]
}

/* What the words after a command say: its options by their names, and the files. */
export function parsed(name, words) {
    try {
        const options = { ...COMMANDS[name].options, ...HELP }
        const { values, positionals, tokens } = parseArgs({ args: withValues(words), options, allowPositionals: true, tokens: true })
        return { ...values, ...meantBy(values), tokens, files: positionals }
    } catch (error) {
        if (error instanceof Usage) throw new Usage(`${error.message}\n${usage(name)}`)
        throw new Usage(`${error.message.split(". ")[0]}\n${usage(name)}`)
    }
}

/* The help of a command. */
export function helpOf(name) {
    const { summary, options } = COMMANDS[name]
    const lines = Object.keys(options).map(option => `  ${SAYS[option][0].padEnd(18)} ${SAYS[option][1]}\n`)
    return `${usage(name)}\n\n${summary[0].toUpperCase()}${summary.slice(1)}.\n\n${lines.join("")}`
}

/* The help of the whole. */
export function help() {
    const lines = Object.entries(COMMANDS).map(([name, { summary }]) => `  ${name.padEnd(10)}${summary}\n`)
    return `usage: gazhdor COMMAND [OPTION].. [FILE]..

${lines.join("")}
A FILE is a FIT file, also one in a gzip or zip file; - is standard input, as is no FILE.
\`gazhdor COMMAND --help\` says more of a command.
Exit status: 0 good; 1 refused or truncated; 2 words not understood; 3 out of memory;
4 not opened, not read or not written; 130 stopped.
`
}
