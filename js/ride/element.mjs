/* Elements of the page. Whatever is from a file is set as text. */

export const byId = id => document.getElementById(id)

export function element(name, text, more = {}, ...children) {
    const made = Object.assign(document.createElement(name), text === undefined || text === null ? {} : { textContent: text }, more)
    made.append(...children)
    return made
}

const SPACE = "http://www.w3.org/2000/svg"

/* An element of a drawing. */
export function drawing(name, attributes, text) {
    const made = document.createElementNS(SPACE, name)
    for (const [key, value] of Object.entries(attributes)) made.setAttribute(key, value)
    if (text !== undefined) made.textContent = text
    return made
}

/* One of several words, to be chosen by buttons. */
export function choice(label, words, chosen, choose) {
    const group = element("div", undefined, { className: "choice" })
    group.setAttribute("role", "group")
    group.setAttribute("aria-label", label)
    group.append(element("span", label, { className: "quiet" }))
    for (const [value, word] of words) {
        const button = element("button", word, { type: "button", onclick: () => choose(value) })
        button.setAttribute("aria-pressed", value === chosen)
        group.append(button)
    }
    return group
}

/* A card: a value, and what it is. */
export const card = (value, name) => element("div", undefined, { className: "card" }, element("b", value), element("small", name))
