// The texts of procedures, each with a tab: assembly or C, its faults at their lines, its image, its listing, and what its runs
// never do.
import { at, button, guarded, it, keep, keepInView, later, make, options, question, save, say } from "./shared.js";
import { editor } from "./editor.js";

const field = editor(at("text"));
const listings = new Map(), verdicts = new Map();
const NOT_CHECKED = { slots: {}, lines: [] };

// The verdict of `ocp check` on an image, under the present profile and pool, if it was asked.
const verdictKey = (image, { profile, pool } = options()) => `${profile} ${pool} ${image}`;
const verdictOf = image => verdicts.get(verdictKey(image)) || NOT_CHECKED;
const OF_TEXT = "of this text";
let asked = 0, listed = "";

export const EXAMPLE = `; Puts three numbers into a table on the stack
; and reads a word at an address that it kept.
        lddw r6, 0x30000000
        stdw [r6+16], 30   ; the word
        stxdw [r10-8], r6  ; the address
        mov64 r1, 0
        mov64 r2, r10
        add64 r2, -32      ; the table
again:  stxdw [r2], r1     ; a number
        add64 r2, 8
        add64 r1, 1
        jle64 r1, 3, again
        ldxdw r6, [r10-8]  ; the address
        ldxdw r0, [r6+16]  ; it faults: why?
        exit
`;
const shown = () => it.texts[it.tab];

// What an image and its verdict are made of. While a text has another source than its image, what is shown of it is old.
const sourceOf = ({ text, language }, { profile, pool } = options()) => JSON.stringify([text, language, profile, pool]);
function showAge() {
    const old = shown().source !== sourceOf(shown()), isListed = at("listed").textContent === OF_TEXT || listed === shown().image;
    field.age(old);
    at("faults").classList.toggle("old", old);
    for (const name of ["listing", "verdict"]) at(name).classList.toggle("old", old && isListed);
    for (const name of ["age-listing", "age-verdict"]) at(name).hidden = !(old && isListed);
}
const suffix = text => text.language === "c" ? "c" : "asm";

function newText(name, text = "", language = "asm") {
    it.texts.push({ name, text, language, id: at("id").value });
    show(it.texts.length - 1);
}

// A text with its name, its language, and the number that procedures of it are loaded as.
function bring(index) {
    it.tab = index;
    const { text, language, name, id } = shown();
    for (const [field, value] of Object.entries({ text, language, name, id })) if (value !== undefined) at(field).value = value;
    tabs();
}

export function show(index) {
    bring(Math.max(0, Math.min(index, it.texts.length - 1)));
    keep();
    return readText();
}

function tabs() {
    at("tabs").replaceChildren(...it.texts.map((text, index) => {
        const tab = button(`${text.name}${text.faults && text.faults.length ? " ✗" : ""}`, () => show(index));
        tab.setAttribute("role", "tab");
        tab.setAttribute("aria-selected", index === it.tab);
        return tab;
    }));
}

function mark(next = null) {
    const faults = (shown().faults || []).map(([line, hint]) => ({ line: Math.max(1, line), kind: "fault", hint }));
    const { image, places = {} } = shown();
    const may = Object.entries(verdictOf(image).slots).filter(([slot]) => places[slot])
        .map(([slot, hint]) => ({ line: places[slot], kind: "may", hint }));
    field.mark([...may, ...next === null ? [] : [{ line: next, kind: "next", hint: "" }], ...faults], next);
}

export const readText = guarded(async () => {
    const mine = ++asked, text = shown();
    keep();
    showAge();
    const chosen = options(), source = sourceOf(text, chosen);
    const found = await question("text", { text: text.text, language: text.language, options: chosen });
    if (mine !== asked || text !== shown()) return;
    say("");
    Object.assign(text, { image: found.image, places: found.places, faults: found.faults, source });
    listings.set(found.image, found.listing);
    verdicts.set(verdictKey(found.image, chosen), found.verdict);
    at("faults").textContent = [...found.faults.map(([line, fault]) => line ? `line ${line}: ${fault}` : fault),
        found.faults.length ? "" : found.said].join("\n").trim();
    tabs();
    mark();
    list(found.image);
});

// The listing of an image, with the place that is next and the places that are marked.
function list(image, place = -1) {
    at("listed").textContent = place < 0 ? OF_TEXT : `of procedure ${it.chosen}`;
    const rows = listings.get(image) || [], marked = it.marks.get(it.chosen) || new Set(), places = placesOf(image);
    const { slots, lines } = verdictOf(image);
    at("verdict").textContent = [...Object.entries(slots).map(([slot, why]) => `slot ${slot}   ${why}`), ...lines].join("\n");
    if (listed !== image || at("listing").childElementCount !== rows.length) {
        listed = image;
        at("listing").replaceChildren(...rows.map(([slot, text]) => {
            const row = make("li", `${String(slot).padStart(4)}  ${places[slot] ? `${text.padEnd(28)} ; line ${places[slot]}` : text}`);
            row.dataset.slot = slot;
            return row;
        }));
    }
    for (const row of at("listing").children) {
        const slot = Number(row.dataset.slot);
        row.className = `${slot === place ? "here" : ""} ${marked.has(slot) ? "marked" : ""} ${slots[slot] ? "may" : ""}`;
        row.title = slots[slot] || "";
        if (slot === place) keepInView(at("listing"), row);
    }
    showAge();
}
const placesOf = image => (it.texts.find(text => text.image === image) || {}).places || {};

// Asks for the listing and the verdict of an image that is not known yet.
export async function readListing(image) {
    const chosen = options(), key = verdictKey(image, chosen);
    if (!image || verdicts.has(key)) return;
    const { listing, verdict } = await question("listing", { image, options: chosen });
    listings.set(image, listing);
    verdicts.set(key, verdict);
}

// Shows the code of a procedure at its place: the listing, and the text that has this image.
export function showPlace(image, place) {
    if (!image) return list(shown().image || "");
    const index = shown().image === image ? it.tab : it.texts.findIndex(text => text.image === image);
    if (index >= 0 && index !== it.tab && !it.stay && document.activeElement !== at("text")) {
        bring(index);
    }
    mark(shown().image === image ? Number(placesOf(image)[place]) || null : null);
    list(image, place);
}

// The instruction of an image at a place, with its line in the text.
export function instructionAt(image, place) {
    const found = (listings.get(image) || []).find(([slot]) => slot === place), line = placesOf(image)[place];
    return found ? `${found[1]} at place ${place}${line ? `, line ${line}` : ""}` : `place ${place}`;
}

export function start() {
    if (!it.texts.length) newText("first", "mov64 r0, 5\nadd64 r0, 2\nexit\n"); else show(it.tab);
    at("text").addEventListener("input", () => { shown().text = at("text").value; showAge(); });
    at("text").addEventListener("input", later(readText));
    at("language").onchange = () => { shown().language = at("language").value; readText(); };
    at("name").oninput = () => { shown().name = at("name").value; tabs(); keep(); };
    at("id").oninput = () => { shown().id = at("id").value; keep(); };
    at("new-text").onclick = () => { newText(`text ${it.texts.length + 1}`); at("text").focus(); };
    at("close-text").onclick = () => {
        if (shown().text.trim() && !confirm(`Close "${shown().name}"? Its text is lost.`)) return;
        it.texts.splice(it.tab, 1);
        if (it.texts.length) show(it.tab); else newText("first");
    };
    at("save-text").onclick = () => save(`${shown().name.replace(/[^\w.-]+/g, "-").replace(/\.(c|asm)$/, "") || "procedure"}.${suffix(shown())}`, shown().text);
}

export async function open(file) {
    const language = /\.[ch]$/.test(file.name) ? "c" : "asm", text = await file.text();
    if (shown().text.trim() === "") Object.assign(shown(), { name: file.name, text, language });
    else it.texts.push({ name: file.name, text, language, id: at("id").value });
    return show(shown().text === text ? it.tab : it.texts.length - 1);
}
export function example() { newText("fault", EXAMPLE); return readText(); }
export const imageShown = () => shown().image;
