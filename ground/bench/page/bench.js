// The page: puts its parts together, and hears keys, clicks and files.
import { at, bringBack, caughtUp, guarded, it, numberIn, question, say } from "./shared.js";
import * as texts from "./texts.js";
import * as script from "./script.js";
import { KEYS, here, mark, passRead, walk, walkTo } from "./walk.js";
import { showHistory } from "./state.js";
import { draw, eventAt } from "./timeline.js";

// What was written is read first: the walk is in the pass that the page shows.
const press = guarded(async key => { await caughtUp(); await KEYS[key](); });
document.addEventListener("keydown", event => {
    if (event.key === "Escape") document.activeElement.blur();
    const typing = /TEXTAREA|SELECT|INPUT/.test(event.target.tagName) && event.target.id !== "slider";
    if (typing || event.ctrlKey || event.altKey || event.metaKey || !KEYS[event.key]) return;
    event.preventDefault();
    say("");
    if (/^[ts]$/.test(event.key)) KEYS[event.key](); else press(event.key);
});
at("slider").oninput = guarded(() => walkTo(Number(at("slider").value)));
at("lanes").onclick = guarded(event => walkTo(eventAt(event.offsetX)));
at("lanes").onwheel = event => { if (event.deltaY) { event.preventDefault(); KEYS[event.deltaY < 0 ? "+" : "-"](); } };
for (const [name, key] of [["zoom-in", "+"], ["zoom-out", "-"], ["zoom-all", "0"], ["event-back", "ArrowLeft"], ["event-on", "ArrowRight"],
    ["line-back", "ArrowUp"], ["line-on", "ArrowDown"], ["break-back", "B"], ["break-on", "b"], ["fault-back", "F"], ["fault-on", "f"]]) {
    at(name).onclick = () => press(key);
}
at("listing").onclick = guarded(event => event.target.dataset.slot !== undefined && mark(Number(event.target.dataset.slot)));
at("mark").onclick = guarded(() => mark(numberIn("number", "A place")));
at("more-records").ontoggle = guarded(() => showHistory(it.moment, walkTo));
addEventListener("resize", () => draw(here()));
// What is reached by Tab, or written, is scrolled until it is above the foot.
new ResizeObserver(([foot]) => document.documentElement.style.setProperty("--foot", `${foot.target.offsetHeight}px`)).observe(document.querySelector("footer"));
matchMedia("(prefers-color-scheme: dark)").onchange = () => draw(here());

// The text stays that is to be loaded, though the pass that is run anew comes to another.
for (const name of ["apid", "pool", "journal", "profile"]) {
    at(name).onchange = async () => {
        it.stay = true;
        if (name === "profile") script.sayProfile();
        await Promise.all([texts.readText(), script.readScript()]);
        it.stay = false;
    };
}
at("example").onclick = guarded(async () => {
    await texts.example();
    const id = numberIn("id", "A procedure");
    await script.insert(script.MAKERS.Load(id), script.MAKERS.Activate(id), `step ${id} 100`);
});

for (const [area, part] of [["text", texts], ["script", script]]) {
    at(`open-${area}`).onchange = guarded(async event => {
        for (const file of event.target.files) await part.open(file);
        event.target.value = "";
    });
}
// A file that is dropped goes to the side on which it falls, and beside them to the one that its name says.
const sideOf = (event, name) => event.target.closest("section[aria-label=Script]") ? "script" : event.target.closest("section[aria-label=Text]") ? "text" :
    /\.(ocp|script|txt)$/.test(name) ? "script" : "text";
document.ondragover = event => { event.preventDefault(); document.body.classList.add("over"); };
document.ondragleave = () => document.body.classList.remove("over");
document.ondrop = guarded(async event => {
    event.preventDefault();
    document.body.classList.remove("over");
    for (const file of [...event.dataTransfer.files]) await (sideOf(event, file.name) === "script" ? script : texts).open(file);
});

guarded(async () => {
    at("help").open = localStorage.getItem("bench texts") === null;
    bringBack();
    let shielded;
    ({ names: it.names, words: it.words, clang: it.clang, knows: it.knows, shielded } = await question("names", {}));
    at("unshielded").hidden = !it.clang || shielded;
    script.whenRead((place, from) => from === undefined ? walk(place) : passRead(place, from));
    script.start();
    texts.start();
    await script.readScript();
})();
