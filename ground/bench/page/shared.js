// What all parts of the page share: its state, the questions to the server, and its words on faults.
export const at = name => document.getElementById(name);
export const it = {
    names: {}, words: [], clang: false, knows: [],
    texts: [], tab: 0,                                  // the texts, and the one that is shown
    key: null, lines: [], rows: [], starts: [0], total: 0,  // the pass as the program ran it
    moment: [0, 0], chosen: null, state: null,          // where the walk is
    marks: new Map(),                                   // identifier to the places that the page marks
    stay: false,                                        // whether the text in view stays for any procedure that is
};

// A line that steps a procedure, with its identifier, and how such a line ends.
export const STEPS = /^ *(?:step|round) +([0-9]+) /;
export const BROKE = /^(?:step|round) .* Broke$/, FAULTED = /^(?:step|round) .* Faulted /, ENDED = /^(?:step|round) .* Ended(?: step [0-9]+)?$/;

export function say(text) { at("message").textContent = text; }

export async function question(name, body) {
    const answer = await fetch(name, { method: "POST", headers: { "Content-Type": "application/json" },
        body: JSON.stringify(body) });
    const found = await answer.json();
    if (!answer.ok) throw Object.assign(new Error(found.refused), { status: answer.status });
    return found;
}

export function guarded(work) {
    return async (...given) => {
        try { return await work(...given); } catch (fault) {
            say(fault instanceof TypeError ? `The bench does not answer; the texts are kept: ${fault.message}` : fault.message);
        }
    };
}

// A number of decimal digits as a number, and anything else as it was written, for the bench to refuse.
export const numberOf = text => /^[0-9]{1,15}$/.test(text.trim()) ? Number(text) : text;

export function options() {
    return Object.fromEntries(["apid", "pool", "journal", "profile"].map(name => [name, numberOf(at(name).value)]));
}

// The number in a field of which the page itself has to make use.
export function numberIn(name, what) {
    const number = numberOf(at(name).value);
    if (typeof number !== "number") throw new Error(`${what} is decimal digits; found ${number || "nothing"}.`);
    return number;
}

export function make(tag, text = "", name = "") {
    const element = document.createElement(tag);
    element.textContent = text;
    if (name) element.className = name;
    return element;
}

export function button(text, work, name = "") {
    const element = make("button", text, name);
    element.type = "button";
    element.onclick = guarded(work);
    return element;
}

const KEPT = ["script", "id", "number", "word", "profile", "apid", "pool", "journal"];
export function keep() {
    try {
        KEPT.forEach(name => localStorage.setItem(`bench ${name}`, at(name).value));
        localStorage.setItem("bench texts", JSON.stringify(it.texts.map(({ name, language, text, id }) => ({ name, language, text, id }))));
        localStorage.setItem("bench tab", it.tab);
    } catch { say("This browser keeps no more: save the texts as files."); }
}
export function bringBack() {
    for (const name of KEPT) {
        const value = localStorage.getItem(`bench ${name}`);
        if (value !== null) at(name).value = value;
    }
    try { it.texts = JSON.parse(localStorage.getItem("bench texts")) || []; } catch { it.texts = []; }
    it.texts = it.texts.filter(each => typeof each.text === "string" && typeof each.name === "string");
    it.tab = Math.min(Number(localStorage.getItem("bench tab")) || 0, Math.max(0, it.texts.length - 1));
}

// How much of a box is above the foot of the page; all of it if nearly nothing is.
export function heightSeen(box) {
    const room = document.querySelector("footer").getBoundingClientRect().top - box.getBoundingClientRect().top;
    return room > 80 ? Math.min(box.clientHeight, room) : box.clientHeight;
}

// Scrolls a box until a part of it is seen.
export function keepInView(box, part) {
    const top = part.getBoundingClientRect().top - box.getBoundingClientRect().top, seen = heightSeen(box);
    if (top < 0 || top + 20 > seen) box.scrollTop += top - seen / 3;
}

// Work that waits until nothing was written for a while; a key or a button has it done at once.
const due = new Set(), busy = new Set();
export function later(work, wait = 300) {
    let clock;
    const now = () => {
        clearTimeout(clock);
        due.delete(now);
        const done = work().finally(() => busy.delete(done));
        busy.add(done);
    };
    return () => { keep(); clearTimeout(clock); due.add(now); clock = setTimeout(now, wait); };
}
export async function caughtUp() {
    for (const now of [...due]) now();
    while (busy.size) await Promise.all(busy);
}

export function save(name, text) {
    const link = document.createElement("a");
    link.href = URL.createObjectURL(new Blob([text]));
    link.download = name;
    link.click();
    setTimeout(() => URL.revokeObjectURL(link.href), 10000);
}
