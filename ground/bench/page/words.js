// Reports in words: the request, its stage, the code's name, and the line that asked.
import { it } from "./shared.js";

const STAGES = { 1: "accepted", 2: "not accepted", 3: "started", 4: "not started", 7: "completed", 8: "not completed" };
const STATUSES = ["inactive", "running", "held"];
let asking = new Map();

// The lines of each request ID, in their order.
export function readRequests(apid) {
    asking = new Map();
    let sent = 0;
    it.lines.forEach((line, index) => {
        const [word, octets] = line.trim().split(/ +/, 2);
        if (word !== "send" && word !== "up") return;
        const name = word === "send" ? ((0x18000000 | apid << 16 | 0xc000 | sent % 16384) >>> 0).toString(16) :
            (octets || "").slice(0, 8).toLowerCase();
        if (word === "send") sent += 1;
        if (!asking.has(name)) asking.set(name, []);
        asking.get(name).push(index);
    });
}

function asked(request, until) {
    const index = (asking.get(request) || []).filter(each => each <= until).at(-1);
    if (index === undefined) return `request ${request}`;
    const words = it.lines[index].trim().split(/ +/);
    return `line ${index + 1}, ${words[0] === "send" ? words.slice(2, 4).join(" ") : "up"}`;
}

export function inWords(shown, line) {
    const found = /^tm (\d+) (\d+) seq \d+ dest (\d+) data ([0-9a-f]*)$/.exec(shown);
    if (!found) return "";
    const [, service, subtype, , data] = found;
    const number = (from, to) => parseInt(data.slice(2 * from, 2 * to), 16);
    if (service === "18") {
        const each = Array.from({ length: number(0, 1) }, (_, index) =>
            `${number(1 + 3 * index, 3 + 3 * index)} ${STATUSES[number(3 + 3 * index, 4 + 3 * index)]}`);
        return `status: ${each.join(", ") || "nothing is loaded"}`;
    }
    let reason = "";
    if (Number(subtype) % 2 === 0) {
        reason = `: ${number(4, 6)} ${it.names[`code ${number(4, 6)}`] || ""}`;
        if (data.length > 12) reason += `, ${it.names[`load ${number(6, 7)}`] || number(6, 7)} at slot ${number(7, 9)}`;
    }
    return `${asked(data.slice(0, 8), line)}: ${STAGES[subtype] || "report"}${reason}`;
}
