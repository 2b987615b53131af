// The walk: a moment is a number of whole lines, and then a number of instructions of the next one. Every state is the program's.
import { at, BROKE, FAULTED, guarded, it, say, STEPS } from "./shared.js";
import { askPass, showPackets, showReports, showRows } from "./script.js";
import { instructionAt, readListing, showPlace } from "./texts.js";
import { addressOf, changesOf, reasonOf, showHistory, showState } from "./state.js";
import { inWords } from "./words.js";
import { draw, readTimeline, zoom } from "./timeline.js";

const states = new Map(), visited = new Map();
let walking = false, again = null;

const last = () => it.rows.length - (it.rows.at(-1)?.fault ? 1 : 0);
export const here = () => it.starts[it.moment[0]] + it.moment[1];
export function momentOf(event) {
    if (event >= it.total) return [last(), 0];
    let low = 0, high = it.rows.length;
    while (low < high) { const mid = (low + high) >> 1; if (it.starts[mid + 1] > event) high = mid; else low = mid + 1; }
    return [low, Math.max(0, event - it.starts[low])];
}
export const walkTo = event => walk(momentOf(Math.max(0, Math.min(it.total, event))));

// A script was read; its first lines, as many as `from`, are those of the one before.
export async function passRead(place, from) {
    for (const key of states.keys()) {
        const [done, count] = key.split(" ").map(Number);
        if (done + (count ? 1 : 0) > from) states.delete(key);
    }
    visited.clear();
    readTimeline();
    at("slider").max = it.total;
    const [done, count] = place || it.moment;
    const isThere = done <= last() && (!count || (it.rows[done] && count < it.rows[done].events));
    await walk(isThere ? [done, count] : [last(), 0]);
}

async function stateAt([done, count], id) {
    const key = `${done} ${count} ${id}`;
    if (!states.has(key)) {
        states.set(key, await askPass("state", { done, count, id }));
        if (states.size > 300) states.delete(states.keys().next().value);
    }
    return states.get(key);
}

// Goes to a moment. `id` is the procedure to look at, if it is not the one that the last line names.
export async function walk(to, id = null) {
    const began = performance.now();
    again = { to, id };
    it.moment = to;
    if (walking) return;
    walking = true;
    try {
        while (again) {
            const wanted = again, key = it.key;
            again = null;
            const moment = wanted.to, event = here(), line = moment[1] ? moment[0] : Math.max(0, moment[0] - 1);
            const row = it.rows[line] || { status: {}, events: 0 }, touched = Object.keys(row.status)[0];
            if (wanted.id !== null) it.chosen = wanted.id; else if (touched !== undefined) it.chosen = Number(touched);
            const earlier = moment[1] || row.events ? momentOf(Math.max(0, event - 1)) : moment;
            const [state, before] = await Promise.all([stateAt(moment, it.chosen), stateAt(row.free ? [line, 0] : earlier, it.chosen)]);
            if (again || key !== it.key) continue;
            await show(moment, event, line, state, before);
            requestAnimationFrame(() => setTimeout(() => { at("where").dataset.took = Math.round(performance.now() - began); }));
            guarded(showHistory)(moment, walkTo);
            guarded(showPackets)(line);
        }
    } finally { walking = false; }
}

async function show(moment, event, line, state, before) {
    at("slider").value = event;
    at("slider").setAttribute("aria-valuetext", `event ${event} of ${it.total}`);
    const within = moment[1] ? `instruction ${moment[1]} of line ${line + 1}` : moment[0] ? `after line ${moment[0]}` : "at the start";
    at("where").textContent = `event ${event} of ${it.total}, ${within}`;
    showState(state, before, id => walk(it.moment, id));
    draw(event);
    showRows(line, moment);
    showReports(moment[0]);
    const image = imageAt(moment, state), changes = changesOf(state, before), was = before.views[it.chosen];
    await readListing(image);
    const said = [lastEvent(moment, line, image, was), changes.length ? `It changed ${changes.join("; ")}.` : "", refused(moment)].filter(text => text).join(" ");
    at("last").textContent = said;
    at("last").className = / not (accepted|started|completed)|is the fault of|is refused/.test(said) ? "bad" : "";
    showPlace(image, placeNow());
}

// At the end of a pass that a line with a fault has cut: which line, and its right form.
function refused(moment) {
    const row = it.rows.at(-1);
    return row?.fault && moment[0] === last() && !moment[1] ?
        `Line ${it.rows.length} is refused, and nothing from there on is run: ${it.hint || row.printed.at(-1)}` : "";
}

// What a line came to that is no step: its report that failed, or else its last one, or what it printed.
function cameTo(row, line) {
    const reports = row.printed.map(shown => inWords(shown, line)).filter(text => text);
    const told = reports.find(text => / not /.test(text)) || reports.at(-1) || (row.printed.length === 1 ? row.printed[0] : "");
    if (!told) return `Line ${line + 1} was done.`;
    const loaded = / AlreadyLoaded/.test(told) ? " \"Reload\" puts a text into the line that loads the procedure; another procedure takes another number." : "";
    return told.startsWith(`line ${line + 1}, `) ? `L${told.slice(1)}.${loaded}` : `Line ${line + 1} printed: ${told}.`;
}

// What the last event was: an instruction, a breakpoint that held, or a line.
function lastEvent(moment, line, image, was) {
    const row = it.rows[line];
    if (event0(moment) || !row) return "";
    if (row.free || !STEPS.test(it.lines[line])) return cameTo(row, line);
    if (!row.events || !was) return `Line ${line + 1} did nothing.`;
    const place = Number(was[0].split(" ")[5]), held = !moment[1] && row.printed.some(shown => BROKE.test(shown));
    const faulted = !moment[1] && row.printed.some(shown => FAULTED.test(shown));
    const instruction = instructionAt(image, place);
    if (faulted) return `The last event is the fault of ${instruction}${reasonOf(it.state.views[it.chosen] || was, instruction)}.`;
    return held ? `A breakpoint held it before ${instruction}.` : `The last event did ${instruction}${addressOf(was, instruction)}.`;
}
const event0 = moment => !moment[0] && !moment[1];

// The image of the procedure in view, by the last line up to a moment that loaded it.
function imageAt(moment, state) {
    let image = null;
    if (state.views[it.chosen]) for (const row of it.rows.slice(0, moment[0])) if (row.image && row.image[0] === it.chosen) [, image] = row.image;
    return image;
}

// To the next line, or the one before, that printed something.
function jump(pattern, back, name) {
    const hits = it.rows.map((row, index) => row.printed.some(shown => pattern.test(shown)) ? it.starts[index + 1] : -1).filter(hit => hit >= 0);
    const event = here(), hit = back ? hits.filter(each => each < event).at(-1) : hits.find(each => each > event);
    if (hit === undefined && hits.includes(event)) return say(`This is the ${back ? "first" : "last"} ${name}.`);
    if (hit === undefined) return say(`There is no ${name} ${back ? "before" : "after"} this event.`);
    say("");
    return walk(momentOf(hit));
}

// To a breakpoint of the procedure in view, whether it held it or not: those of the script, and those marked on the page.
async function breakpoint(back) {
    await settled();
    const id = it.chosen, places = new Set(it.marks.get(id) || []);
    for (const row of it.rows) for (const shown of row.printed) {
        const found = /^break (\d+) (\d+) set$/.exec(shown);
        if (found && Number(found[1]) === id) places.add(Number(found[2]));
    }
    if (!places.size) return say("This procedure has no breakpoint: click a line of the listing, or press m at a place.");
    const asked = [...places].sort((one, other) => one - other), key = `${it.key} ${id} ${asked}`;
    if (!visited.has(key)) visited.set(key, await askPass("visits", { id, places: asked }));
    const { events, more } = visited.get(key), event = here();
    const hit = back ? events.filter(each => each < event).at(-1) : events.find(each => each > event);
    if (hit === undefined) {
        return say(`Procedure ${id} comes to none of its breakpoints ${back ? "before" : "after"} this event${more ? " (2,000 were looked at)" : ""}.`);
    }
    say("");
    return walk(momentOf(hit), id);
}

export function mark(slot) {
    if (it.chosen === null) return say("No procedure is in view.");
    const marks = it.marks.get(it.chosen) || new Set();
    if (!marks.delete(slot)) {
        if (marks.size === 8) return say("A procedure has at most 8 breakpoints.");
        marks.add(slot);
    }
    it.marks.set(it.chosen, marks);
    return walk(it.moment, it.chosen);
}
async function settled() { while (walking) await new Promise(done => setTimeout(done, 10)); }
const placeNow = () => { const view = it.state && it.state.views[it.chosen]; return view ? Number(view[0].split(" ")[5]) : -1; };

export const KEYS = {
    ArrowRight: () => walkTo(here() + 1), ArrowLeft: () => walkTo(here() - 1),
    ArrowDown: () => walk([Math.min(last(), it.moment[0] + 1), 0]), ArrowUp: () => walk([Math.max(0, it.moment[0] - (it.moment[1] ? 0 : 1)), 0]),
    b: () => breakpoint(false), B: () => breakpoint(true),
    h: () => jump(BROKE, false, "breakpoint that held"), H: () => jump(BROKE, true, "breakpoint that held"),
    f: () => jump(FAULTED, false, "fault"), F: () => jump(FAULTED, true, "fault"),
    m: async () => { await settled(); if (placeNow() >= 0) await mark(placeNow()); },
    "+": () => { zoom(1 / 4, here()); draw(here()); }, "-": () => { zoom(4, here()); draw(here()); }, 0: () => { zoom(Infinity, here()); draw(here()); },
    Home: () => walk([0, 0]), End: () => walk([last(), 0]),
    t: () => at("text").focus(), s: () => at("script").focus(),
};
