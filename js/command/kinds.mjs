/* What a file is that is no FIT file, by its first bytes. */

export const FRONT = 512 // so many bytes are looked at

const BEGINS = [
    ["\x1f\x8b", "a gzip file"], ["PK\x03\x04", "a zip file"], ["PK\x05\x06", "an empty zip file"], ["BZh", "a bzip2 file"],
    ["\xfd7zXZ\0", "an xz file"], ["\x28\xb5\x2f\xfd", "a zstd file"], ["7z\xbc\xaf\x27\x1c", "a 7z file"], ["Rar!", "a rar file"],
    ["%PDF", "a PDF"], ["\x89PNG", "a picture"], ["\xff\xd8\xff", "a picture"], ["GIF8", "a picture"],
    ["SQLite format 3", "a database of SQLite"], ["\x7fELF", "a program"],
]
const TAGS = [["<!doctype html", "a web page"], ["<html", "a web page"], ["<", "XML"], ["{", "JSON"], ["[", "JSON"]]

export const isFit = front => front.toString("latin1", 8, 12) === ".FIT"

/* What a file with these first bytes is; null where that isn't known, or where it may be a FIT file. */
export function kindOf(front) {
    if (front.length === 0) return "empty"
    if (isFit(front)) return null
    const begin = BEGINS.find(([begin]) => front.toString("latin1", 0, begin.length) === begin)
    if (begin !== undefined) return begin[1]
    const text = textOf(front)
    return text === null ? null : kindOfText(text)
}

/* The bytes as text, if they look like it. A letter may be cut at their end. */
function textOf(front) {
    const mark = front.toString("latin1", 0, 2), is16 = mark === "\xff\xfe" || mark === "\xfe\xff"
    const decoder = new TextDecoder(is16 ? (mark === "\xff\xfe" ? "utf-16le" : "utf-16be") : "utf-8", { fatal: !is16 })
    let text
    try {
        text = decoder.decode(front, { stream: true })
    } catch {
        return null
    }
    return text.trim() !== "" && !/[^\P{C}\r\n\t\f]/u.test(text) ? text : null
}

function kindOfText(text) {
    const begin = text.trimStart().toLowerCase()
    if (begin.startsWith("<")) for (const [name, kind] of [["<gpx", "GPX"], ["<trainingcenterdatabase", "TCX"]]) if (begin.includes(name)) return kind
    return TAGS.find(([tag]) => begin.startsWith(tag))?.[1] ?? "text"
}
