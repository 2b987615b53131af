// The state at a moment: procedures, registers, memory, frames, mailbox, records, pool, and what a drain would print.
import { at, BROKE, button, it, keepInView, make, STEPS } from "./shared.js";
import { askPass } from "./script.js";

const drawn = new Map();
let lookTurn = 0, looked = "";

export function showState(state, before, pick) {
    it.state = state;
    showProcedures(state, pick);
    const view = state.views[it.chosen] || [], old = before.views[it.chosen] || [];
    showView(view);
    at("registers").replaceChildren(...view.slice(1).map((text, index) => {
        const row = make("tr"), was = old[index + 1], [name, value] = text.split(" ");
        const differs = was && was !== text, number = BigInt.asIntN(64, BigInt(`0x${value}`));
        if (differs) row.className = "changed";
        const cell = make("td", value);
        if (differs) cell.append(make("small", `before ${was.split(" ")[1]}`));
        row.append(make("th", name), cell, make("td", `${number}`));
        return row;
    }));
    for (const name of ["stack", "arguments", "work"]) showRegion(name, state.memory[name], before.memory[name]);
    at("words").replaceChildren(...state.pool.map((word, index) => {
        const differs = before.pool[index] !== word;
        const name = it.words[index] ? ` ${it.words[index]}` : "";
        return make("span", `${String(index).padStart(3)} ${word}${name}${differs ? ` before ${before.pool[index]}` : ""}\n`, differs ? "changed" : "");
    }));
    at("drain").textContent = state.drain.join("\n");
    at("mailbox").textContent = mailboxText(state.mailbox, view);
}

function showProcedures(state, pick) {
    const had = at("procedures").contains(document.activeElement);
    at("procedures").replaceChildren(...Object.entries(state.views).map(([id, view]) => {
        const [, , status, cause, , place] = view[0].split(" ");
        return button(`${id} ${status}${cause === "none" ? "" : ` ${cause}`} at ${place}`, () => pick(Number(id)), Number(id) === it.chosen ? "here" : "");
    }));
    if (had) (at("procedures").querySelector(".here") || document.body).focus();
}

function showView(view) {
    if (!view.length) { at("view").textContent = "No procedure is loaded here."; return; }
    const [, id, status, cause, , place, , depth, , ...pending] = view[0].split(" ");
    const fault = /^fault(\d)$/.exec(cause);
    const name = fault ? ` (${it.names[`machine ${fault[1]}`] || ""})` : "";
    at("view").textContent = `Procedure ${id}: ${status}, cause ${cause}${name}, place ${place}, depth ${depth}, pending ${pending.join(" ")}`;
}

function mailboxText(words, view) {
    if (!view.length) return "";
    if (words === null && / inactive /.test(view[0])) return "The procedure is inactive: its next activation empties the mailbox.";
    if (words === null) return "The program does not say it here.";
    return words.length ? `${words.length} of 16, the oldest first: ${words.join(", ")}` : "empty, room for 16";
}

const register = (view, name) => BigInt(`0x${view[1 + Number(name.slice(1))].split(" ")[1]}`);

// Where an instruction reads or writes, by the registers before it.
export function addressOf(view, instruction) {
    const found = /\[(r\d+)([+-]\d+)\]/.exec(instruction);
    return found ? `: ${found[1]}${found[2]} is 0x${BigInt.asUintN(64, register(view, found[1]) + BigInt(found[2])).toString(16)}` : "";
}

// Why an instruction could not be done, by the registers, which a fault leaves as they were.
export function reasonOf(view, instruction) {
    const fault = / fault(\d) /.exec(view[0]), address = addressOf(view, instruction);
    return { 1: `${address}, and all octets of an access have to lie in one region of memory`, 2: `${address}, and the arguments are read only`,
        3: ": at depth 7 no further local call is done", 4: `: r1 is ${fault ? register(view, "r1") : ""}, and the pool has ${it.state.pool.length} words`,
        5: ": nothing is left of the budget of its activation" }[fault ? fault[1] : ""] || "";
}

// What differs from the state before the last event, in words.
export function changesOf(state, before) {
    const found = [], view = state.views[it.chosen] || [], old = before.views[it.chosen] || [];
    view.slice(1).forEach((text, index) => {
        const [name, value] = text.split(" "), [, past] = (old[index + 1] || text).split(" ");
        if (value !== past) found.push(`${name} ${short(past)} → ${short(value)}`);
    });
    for (const [name, [start, digits]] of Object.entries(state.memory)) {
        const past = before.memory[name] ? before.memory[name][1] : digits, octets = [];
        if (past === digits) continue;
        for (let at = 0; at < digits.length; at += 2) if (digits.slice(at, at + 2) !== past.slice(at, at + 2)) octets.push(at);
        const first = octets.slice(0, 4).map(at => `${(start + at / 2).toString(16)}: ${past.slice(at, at + 2)} → ${digits.slice(at, at + 2)}`);
        found.push(`${name} ${first.join(", ")}${octets.length > 4 ? ` and ${octets.length - 4} octets` : ""}`);
    }
    state.pool.forEach((word, index) => { if (word !== before.pool[index]) found.push(`pool ${index}${it.words[index] ? ` ${it.words[index]}` : ""} ${short(before.pool[index])} → ${short(word)}`); });
    return found;
}
const short = word => `0x${word.replace(/^0+(?=.)/, "")}`;

// One region as a whole table; an octet that the last event changed is marked, and brought into view.
function showRegion(name, found, past) {
    const box = at(`memory-${name}`), digits = found ? found[1] : "", old = past ? past[1] : digits;
    if (drawn.get(name) === digits && digits === old && !box.querySelector(".changed")) return;
    drawn.set(name, digits);
    const parts = [];
    let plain = "";
    for (let row = 0; row < digits.length; row += 32) {
        plain += `${(found[0] + row / 2).toString(16).padStart(8, "0")} `;
        for (let octet = row; octet < row + 32; octet += 2) {
            const text = digits.slice(octet, octet + 2);
            plain += octet - row === 16 ? "  " : " ";
            if (digits[octet] === old[octet] && digits[octet + 1] === old[octet + 1]) { plain += text; continue; }
            parts.push(plain, make("span", text, "changed"));
            plain = "";
        }
        plain += "\n";
    }
    box.replaceChildren(...parts, plain);
    const changed = box.querySelectorAll(".changed");
    at(`note-${name}`).textContent = changed.length ? ` ${changed.length} octet${changed.length > 1 ? "s" : ""} changed` : "";
    if (changed.length) keepInView(box, changed[0]);
    else if (name === "stack" && box.scrollTop === 0) box.scrollTop = box.scrollHeight;
}

// Frames and records: a run with the trace on. They come after the state, and are asked for when they are looked at.
export async function showHistory(moment, walkTo) {
    const mine = ++lookTurn, id = it.chosen, view = it.state && it.state.views[id];
    const depth = view ? Number(view[0].split(" ")[7]) : 0;
    const wanted = `${it.key} ${moment} ${id}`;
    if (wanted === looked) return;
    looked = "";
    at("frames").textContent = depth ? "" : "depth 0: no local call is open";
    if (!view || !(depth || at("more-records").open)) { at("records").replaceChildren(); return; }
    let found;
    try { found = await askPass("history", { done: moment[0], count: moment[1], id }); } catch (fault) {
        if (mine === lookTurn) { at("frames").textContent = at("records").textContent = fault.message; }
        return;
    }
    if (mine !== lookTurn) return;
    looked = wanted;
    const known = found.frames.map(([level, place, saved]) =>
        `depth ${level}: called at place ${place}, its exit goes to place ${place + 1}; keeps ${saved.map((word, index) => `r${index + 6} ${word}`).join(" ")}`);
    if (found.frames.length < depth) known.push(`depth ${depth - found.frames.length} and below: called over 256 instructions ago`);
    if (depth) at("frames").textContent = known.join("\n");
    const events = eventsBack(moment, id);
    at("records").replaceChildren(...found.records.map((record, index) => {
        const before = index ? found.records[index - 1][2] : null, [place, outcome, registers, text] = record;
        const changes = before ? registers.flatMap((word, at) => word === before[at] ? [] : [`r${at} ${word}`]) : [];
        const event = events[found.records.length - 1 - index];
        const said = `${String(place).padStart(4)}  ${text.padEnd(24)} ${[...outcome === "Ran" ? [] : [outcome], ...changes].join(" ")}`;
        const row = button(said, () => event !== undefined && walkTo(event), "row");
        row.tabIndex = -1;
        return row;
    }));
    if (!found.records.length) at("records").textContent = "none up to this event";
    at("records").scrollTop = at("records").scrollHeight;
}

// The events of a procedure's last instructions, the last one first.
function eventsBack([done, count], id) {
    const events = [];
    for (let line = done; line >= 0 && events.length < 256; line -= 1) {
        const row = it.rows[line], step = STEPS.exec(it.lines[line] || "");
        if (!row || line === done && !count) continue;
        if (row.free) break;
        if (!step || Number(step[1]) !== id) continue;
        const all = line === done ? count : row.events - (row.printed.some(shown => BROKE.test(shown)) ? 1 : 0);
        for (let each = all; each > 0 && events.length < 256; each -= 1) events.push(it.starts[line] + each);
    }
    return events;
}
