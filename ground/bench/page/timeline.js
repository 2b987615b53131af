// The timeline: a lane for each procedure, its status by colour, marks for what happened, and a part that can be chosen.
import { at, BROKE, ENDED, FAULTED, it } from "./shared.js";

const LEFT = 64, LANE = 14, TOP = 16, LANES = 200;
let lanes = [], marks = [], part = [0, 1], shape = null;

// What the rows say: stretches of one status for each procedure, and marks at their events.
export function readTimeline() {
    const all = new Set(it.rows.flatMap(row => Object.entries(row.status).flatMap(([id, status]) => status ? [Number(id)] : [])));
    lanes = [...all].sort((one, other) => one - other).slice(0, LANES).map(id => ({ id, stretches: [] }));
    marks = [];
    const now = new Map(), lane = new Map(lanes.map(({ id }, index) => [id, index]));
    it.rows.forEach((row, line) => {
        const [begin, end] = [it.starts[line], it.starts[line + 1]];
        for (const [key, status] of Object.entries(row.status)) {
            const id = Number(key), open = now.get(id), name = status ? status[0] : null;
            if (!lane.has(id) || (open && open.name === name)) continue;
            if (open) { open.end = end; lanes[lane.get(id)].stretches.push(open); }
            if (name) now.set(id, { name, begin: end, end }); else now.delete(id);
        }
        const own = lane.get(Number(Object.keys(row.status)[0]));
        const sign = row.printed.some(shown => FAULTED.test(shown)) ? "x" : row.printed.some(shown => BROKE.test(shown)) ? "b" :
            row.printed.some(shown => ENDED.test(shown)) ? "e" : row.printed.some(shown => /^put .* set$/.test(shown)) ? "w" : row.printed.some(shown => /^tm 1 [248] /.test(shown)) ? "!" :
            row.printed.some(shown => /^tm /.test(shown)) ? "r" : /^ *(send|up)/.test(it.lines[line]) ? "|" : "";
        if (sign) marks.push({ event: end, lane: own === undefined ? lanes.length : own, sign });
    });
    for (const [id, open] of now) { open.end = it.total; lanes[lane.get(id)].stretches.push(open); }
    part = [0, Math.max(1, it.total)];
}

export function zoom(factor, event) {
    const width = Math.min(Math.max(1, it.total), Math.max(4, (part[1] - part[0]) * factor));
    const begin = Math.max(0, Math.min(Math.max(1, it.total) - width, event - width / 2));
    part = [begin, begin + width];
}

const x = event => LEFT + (event - part[0]) / (part[1] - part[0]) * (shape.width - LEFT - 10);
export function eventAt(offset) {
    return Math.max(0, Math.min(it.total, Math.round(part[0] + (offset - LEFT) / (at("lanes").clientWidth - LEFT - 10) * (part[1] - part[0]))));
}

export function draw(event) {
    if (event < part[0] || event > part[1]) zoom(1, event);
    const canvas = at("lanes"), style = getComputedStyle(document.documentElement), scale = window.devicePixelRatio || 1;
    shape = { width: canvas.clientWidth, height: TOP + (lanes.length + 1) * LANE + 4 };
    canvas.style.height = `${shape.height}px`;
    canvas.width = shape.width * scale;
    canvas.height = shape.height * scale;
    const paint = canvas.getContext("2d"), ink = name => style.getPropertyValue(`--${name}`);
    paint.scale(scale, scale);
    paint.font = "11px system-ui, sans-serif";
    drawScale(paint, ink);
    lanes.forEach(({ id, stretches }, lane) => {
        paint.fillStyle = ink("ink");
        paint.fillText(`proc. ${id}`, 2, TOP + lane * LANE + 10, LEFT - 6);
        for (const { name, begin, end } of stretches) {
            if (end < part[0] || begin > part[1]) continue;
            paint.fillStyle = ink(name);
            const left = Math.max(LEFT, x(begin));
            paint.fillRect(left, TOP + lane * LANE + 2, Math.max(1, Math.min(x(end), shape.width - 10) - left), LANE - 5);
        }
    });
    paint.fillStyle = ink("ink");
    paint.fillText("others", 2, TOP + lanes.length * LANE + 10);
    const taken = new Set();
    paint.fillStyle = ink("mark");
    paint.font = "bold 11px system-ui, sans-serif";
    for (const { event: there, lane, sign } of marks) {
        if (there < part[0] || there > part[1]) continue;
        const place = `${lane} ${Math.round(x(there) / 7)}`;
        if (taken.has(place) && sign !== "x") continue;
        taken.add(place);
        paint.fillText(sign, Math.min(x(there), shape.width - 12) + 1, TOP + lane * LANE + 10);
    }
    paint.fillStyle = ink("bad");
    paint.fillRect(x(event) - 1, 0, 2, shape.height);
    at("part").textContent = `events ${Math.floor(part[0])} to ${Math.ceil(Math.min(part[1], Math.max(1, it.total)))}`;
}

function drawScale(paint, ink) {
    const width = part[1] - part[0], raw = width / Math.max(2, (shape.width - LEFT) / 110);
    const power = 10 ** Math.floor(Math.log10(raw)), tick = Math.max(1, power * [1, 2, 5, 10].find(each => each * power >= raw));
    for (let event = Math.ceil(part[0] / tick) * tick; event <= part[1]; event += tick) {
        paint.fillStyle = ink("line");
        paint.fillRect(x(event), TOP - 4, 1, shape.height);
        paint.fillStyle = ink("ink");
        paint.fillText(`${event}`, Math.min(x(event) + 2, shape.width - 44), 10);
    }
    paint.fillStyle = ink("ink");
    paint.fillText("event", 2, 10);
}
