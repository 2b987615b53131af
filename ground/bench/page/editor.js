// A text field with the numbers of its lines, and marks inside of the text: a fault or what may be one, with its hint, and the
// line that is next. Marks of an older text are shown as such.
import { heightSeen, make } from "./shared.js";

const HEIGHT = 18, TAB = 8;
const columns = line => [...line].reduce((column, letter) => letter === "\t" ? column + TAB - column % TAB : column + 1, 0);

export function editor(area) {
    const box = make("div", "", "editor"), gutter = make("pre", "", "gutter"), layer = make("div", "", "layer");
    gutter.setAttribute("aria-hidden", "true");
    area.replaceWith(box);
    box.append(layer, gutter, area);
    let marks = [];

    function paint() {
        const lines = area.value.split("\n"), first = Math.floor(area.scrollTop / HEIGHT);
        const shown = Math.ceil(area.clientHeight / HEIGHT) + 1, numbers = [];
        for (let line = first; line < Math.min(lines.length, first + shown); line += 1) numbers.push(line + 1);
        gutter.textContent = numbers.join("\n");
        gutter.style.top = layer.style.top = `${first * HEIGHT - area.scrollTop}px`;
        layer.replaceChildren(...marks.filter(({ line }) => line > first && line <= first + shown).map(({ line, kind, hint }) => {
            const bar = make("div", "", `bar ${kind}`), text = make("span", hint || "");
            bar.style.top = `${(line - 1 - first) * HEIGHT + 4}px`;
            text.style.left = `calc(${Math.min(columns(lines[line - 1] || ""), 400) + 2}ch - ${area.scrollLeft}px)`;
            bar.append(text);
            return bar;
        }));
    }
    area.addEventListener("scroll", paint);
    area.addEventListener("input", () => { marks = marks.filter(({ kind }) => kind !== "next"); paint(); });
    new ResizeObserver(paint).observe(area);
    return {
        paint,
        age(old) { box.classList.toggle("old", old); },
        // Marks are lines with a kind, fault, may or next, and a hint; `shows` brings the line into view.
        mark(found, shows = null) {
            marks = found;
            if (shows !== null && document.activeElement !== area) {
                const top = (shows - 1) * HEIGHT, seen = heightSeen(area);
                if (top < area.scrollTop || top + 2 * HEIGHT > area.scrollTop + seen) area.scrollTop = Math.max(0, top - seen / 3);
                // The last lines of a text come above the foot with the page alone.
                if (seen < area.clientHeight) scrollBy(0, Math.max(0, top + 2 * HEIGHT - area.scrollTop - seen));
            }
            paint();
        },
    };
}
