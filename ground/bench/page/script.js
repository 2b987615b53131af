// The script of a pass: by hand or by buttons, with what each line printed after it, and the packets of one line.
import { at, button, caughtUp, guarded, it, keep, keepInView, later, make, numberIn, options, question, save, say } from "./shared.js";
import { editor } from "./editor.js";
import { imageShown } from "./texts.js";
import { inWords, readRequests } from "./words.js";

const field = editor(at("script"));
const USUAL = { apid: 291, pool: 16, journal: 100000, profile: 1 };
let turn = 0, walk = null, goal = null, drawn = [-1, -1], packetTurn = 0, after = -1;

export function whenRead(work) { walk = work; }
const sent = () => ({ script: at("script").value, options: options() });

export const readScript = guarded(async (place = null) => {
    const mine = ++turn;
    goal = place || goal;
    keep();
    showCommand();
    const asked = sent(), found = await question("pass", { ...asked, has: it.key });
    if (mine !== turn) return;
    it.rows = found.from ? it.rows.slice(0, found.from).concat(found.rows) : found.rows;
    it.key = found.key;
    it.lines = asked.script.split("\n");
    it.starts = [0];
    for (const row of it.rows) it.starts.push(it.starts.at(-1) + (row.free ? 1 : row.events));
    it.total = it.starts.at(-1);
    it.hint = found.hint;
    drawn = [-1, -1];
    readRequests(options().apid);
    const differs = !found.same && !it.rows.some(row => row.free);
    say(found.status === 1 ? "" : found.said.trim() || (differs ? "The pass printed something else when it was run again." : ""));
    const there = goal;
    goal = null;
    await walk(there, found.from);
});

// A question about the pass; the pass is sent again if the server has dropped it.
export async function askPass(name, body) {
    try { return await question(name, { pass: it.key, ...body }); } catch (fault) {
        if (fault.status !== 410) throw fault;
        await question("pass", sent());
        return question(name, { pass: it.key, ...body });
    }
}

function showCommand() {
    const words = Object.entries(options()).filter(([name, value]) => value !== USUAL[name]).map(([name, value]) => ` --${name} ${value}`);
    at("command").textContent = `./ocp run${words.join("")} < pass.ocp`;
    at("budget").hidden = options().profile !== 2;
}

// What a change of the profile does to lines that are there: both profiles take them, and read them in different ways.
export function sayProfile() {
    const lines = at("script").value.split("\n").flatMap((line, index) => /^ *send +\S+ +activate /.test(line) ? [index + 1] : []);
    const where = lines.length ? ` The script activates in line${lines.length > 1 ? "s" : ""} ${lines.slice(0, 5).join(", ")}${lines.length > 5 ? " .." : ""}.` : "";
    at("other-profile").hidden = false;
    at("other-profile").textContent = (options().profile === 2 ?
        "Profile 2: activate 7 10 gives a budget of 10 instructions. Under profile 1 it gave the argument 10, in hexadecimal." :
        "Profile 1: activate 7 10 gives the argument 10, in hexadecimal. Under profile 2 it gave a budget of 10 instructions.") + where;
}

function rowOf(index) {
    const row = it.rows[index], text = it.lines[index], said = [`${index + 1} ${text.length > 60 ? `${text.slice(0, 56)} ..` : text}`];
    for (const shown of row.printed) {
        said.push(`    ${shown}`);
        const words = inWords(shown, index);
        if (words) said.push(`      = ${words}`);
    }
    if (row.free) said.push("    threads make the order free: one event here, and what follows may differ from run to run");
    if (row.more) said.push(`    and ${row.more} lines`);
    if (row.fault && it.hint) said.push(`    ${it.hint}`);
    const element = button(said.join("\n"), () => walk(row.fault ? [index, 0] : [index + 1, 0]), `row${row.fault ? " fault" : ""}`);
    element.tabIndex = -1;
    element.dataset.line = index;
    return element;
}

// The lines around one, with what they printed; the others are drawn when the walk comes there.
export function showRows(line, moment) {
    const from = Math.max(0, Math.floor(line / 20) * 20 - 20), to = Math.min(it.rows.length, from + 60);
    if (from !== drawn[0] || to !== drawn[1]) {
        drawn = [from, to];
        at("rows").replaceChildren(...Array.from({ length: to - from }, (_, offset) => rowOf(from + offset)));
    }
    for (const row of at("rows").querySelectorAll(".here")) row.classList.remove("here");
    [...at("rows").children].forEach((row, index) => row.classList.toggle("ahead", from + index > line || !moment[0] && !moment[1]));
    const here = at("rows").children[line - from];
    if (here) {
        here.classList.add("here");
        keepInView(at("rows"), here);
    }
    const fault = it.rows.length && it.rows.at(-1).fault ? [{ line: it.rows.length, kind: "fault", hint: it.hint || it.rows.at(-1).printed.at(-1) }] : [];
    field.mark([...it.rows.length ? [{ line: line + 1, kind: "next", hint: "" }] : [], ...fault], line + 1);
}

// The reports of the lines that are done, the last ones, in words.
export function showReports(done) {
    const lines = [];
    for (let index = done - 1; index >= 0 && lines.length < 60; index -= 1) {
        for (const shown of [...it.rows[index].printed].reverse()) {
            const words = inWords(shown, index);
            if (words) lines.push(`${shown}\n    = ${words}`);
        }
    }
    at("reports").textContent = lines.slice(0, 60).reverse().join("\n") || "none";
    at("reports").scrollTop = at("reports").scrollHeight;
}

export async function showPackets(line) {
    const mine = ++packetTurn;
    const is = it.rows[line] && !it.rows[line].fault && /^ *(send|up|drain)/.test(it.lines[line]);
    const { packets } = is ? await askPass("packets", { line }) : { packets: [] };
    if (mine !== packetTurn) return;
    at("packets").replaceChildren(...packets.map(packet => {
        const block = make("details"), table = make("table");
        block.append(make("summary", packet.name === "request" ? `request of line ${line + 1}` : packet.name), table);
        block.open = packets.length === 1;
        let last = -1;
        for (const [from, to, bits, name, value] of packet.fields) {
            const row = table.insertRow(), octets = packet.octets.slice(2 * from, 2 * to).replace(/../g, "$& ").trim();
            for (const text of [from === last ? "" : to - from > 1 ? `${from}–${to - 1}` : from, from === last ? "" : octets,
                bits % 8 ? `${bits} bit${bits > 1 ? "s" : ""}` : "", name, value]) row.insertCell().textContent = text;
            last = from;
        }
        return block;
    }));
    if (!packets.length) at("packets").textContent = "This line has no packets: a send, an up and a drain line have some.";
}

// Puts lines after the line of the cursor, or after those that were put there before.
export function insert(...added) {
    const area = at("script"), from = area.selectionStart;
    const end = from === 0 || from === after ? from : area.value.indexOf("\n", from) + 1 || area.value.length;
    const head = area.value.slice(0, end), whole = `${head}${head && !head.endsWith("\n") ? "\n" : ""}${added.join("\n")}\n`;
    area.value = `${whole}${area.value.slice(end)}`;
    area.selectionStart = area.selectionEnd = after = whole.length;
    return readScript([Infinity, 0]);
}
function imageOrRefusal() {
    if (!imageShown()) throw new Error("The text has no image: correct its faults first.");
    return imageShown();
}
// Puts the image of the text into the last line that loads the procedure, and runs the pass anew.
function reload(id) {
    const area = at("script"), lines = area.value.split("\n");
    const line = lines.findLastIndex(each => new RegExp(`^ *send +\\d+ +load +0*${id}( |$)`).test(each));
    if (line < 0) throw new Error(`No line loads procedure ${id}: press Load.`);
    lines[line] = lines[line].replace(/^( *send +\d+ +load +\d+).*/, `$1 ${imageOrRefusal()}`);
    area.value = lines.join("\n");
    return readScript([Infinity, 0]);
}
export const MAKERS = {
    Load: id => `send 9 load ${id} ${imageOrRefusal()}`,
    Activate: id => at("profile").value === "2" ? `send 1 activate ${id} 0` : `send 1 activate ${id}`,
    Step: (id, n) => `step ${id} ${n}`, Round: (id, n) => `round ${id} ${n}`, "Suspend at step": (id, n) => `send 9 suspend ${id} ${n}`,
    "Stop at step": (id, n) => `send 9 stop ${id} ${n}`, Resume: id => `send 1 resume ${id}`, Abort: id => `send 9 abort ${id}`,
    Unload: id => `send 9 unload ${id}`, Communicate: (id, n) => `send 9 communicate ${id} ${n}`,
    "Put word": (_, n, word) => `put ${word} ${n}`,
    "Break at place": (id, n) => `break ${id} ${n}`, Work: (_, n) => `work 2 ${n} 100`, Drain: () => "drain",
};
// The lines of those that an older program does not have.
const NEEDED = { Round: "round", "Put word": "put" };

export function start() {
    for (const [name, made] of Object.entries(MAKERS)) {
        if (NEEDED[name] && !it.knows.includes(NEEDED[name])) continue;
        const maker = button(name, async () => { await caughtUp(); await insert(made(...["id", "number", "word"].map(field => at(field).value.trim()))); });
        maker.title = name === "Load" ? "send 9 load <procedure> <image of the text>" : made("<procedure>", "<number>", "<pool word>");
        at("makers").append(maker, " ");
    }
    at("index-of-word").hidden = !it.knows.includes("put");
    at("reload").onclick = guarded(async () => { await caughtUp(); await reload(numberIn("id", "A procedure")); });
    at("script").addEventListener("input", () => { after = -1; });
    at("script").addEventListener("input", later(() => readScript()));
    at("save-script").onclick = () => save("pass.ocp", at("script").value);
}
export async function open(file) { at("script").value = await file.text(); await readScript(); }
