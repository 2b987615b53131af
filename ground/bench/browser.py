"""The page in a headless browser: what an author, an operator and a keyboard do with it."""
import importlib.util
import os
import shutil
import tempfile
import time
from pathlib import Path

import fields
import texts

LOADS = "b7010000010000008500000005000000b70100000200000085000000050000009500000000000000"


class Page:
    """The page, and what the tests do with it."""

    def __init__(self, driver, check):
        from selenium.webdriver.common.by import By
        from selenium.webdriver.common.keys import Keys
        self.driver, self.check, self.by, self.keys = driver, check, By, Keys

    def find(self, name):
        return self.driver.find_element(self.by.ID, name)

    def shown(self, name):
        return self.find(name).get_attribute("textContent")

    def script(self, text, *given):
        return self.driver.execute_script(text, *given)

    def key(self, *words):
        self.script("document.activeElement.blur()")
        for word in words:
            self.driver.find_element(self.by.TAG_NAME, "body").send_keys(word)

    def until(self, name, holds, seconds=8):
        end = time.monotonic() + seconds
        while not holds() and time.monotonic() < end:
            time.sleep(0.05)
        self.check(f"page: {name}", holds())

    def write(self, name, text):
        area = self.find(name)
        area.send_keys(self.keys.CONTROL, "a")
        area.send_keys(self.keys.BACKSPACE, text, self.keys.ESCAPE)

    def set(self, name, text):
        """As `write`, for texts that are long to type."""
        self.script("const area = document.getElementById(arguments[0]); area.value = arguments[1];"
                    "area.dispatchEvent(new Event('input'))", name, text)

    def press(self, *wanted):
        for name in wanted:
            self.script("return [...document.querySelectorAll('button')].find(each => each.textContent === arguments[0])",
                        name).send_keys(self.keys.ENTER)
            time.sleep(0.4)

    def marks(self, area, kind):
        """The lines that bear a mark inside of a text, each with its hint."""
        return self.script("const box = document.getElementById(arguments[0]).parentElement, first = Number(box.querySelector('.gutter')"
                           ".textContent.split('\\n')[0]); return [...box.querySelectorAll('.bar.' + arguments[1])].map(bar =>"
                           "[Math.round((parseFloat(bar.style.top) - 4) / 18) + first, bar.textContent])", area, kind)

    def picture(self, file, width, height, scheme, first):
        """The page as it is seen, from a part on; the help is closed and no scroll bar is shown meanwhile."""
        scheme_of = lambda name: self.driver.execute_cdp_cmd("Emulation.setEmulatedMedia", {"features": [
            {"name": "prefers-color-scheme", "value": name}]})
        scheme_of(scheme)
        self.driver.execute_cdp_cmd("Emulation.setScrollbarsHidden", {"hidden": True})
        self.driver.set_window_size(width, height)
        self.script("document.getElementById('help').open = false; document.querySelector(arguments[0]).scrollIntoView()", first)
        time.sleep(0.5)
        self.driver.save_screenshot(str(file))
        self.driver.execute_cdp_cmd("Emulation.setScrollbarsHidden", {"hidden": False})
        self.driver.set_window_size(1280, 1000)
        scheme_of("light")

    def in_view(self, box, part):
        """Whether a part of a box that scrolls is seen in it."""
        return self.script("const box = document.querySelector(arguments[0]), part = box.querySelector(arguments[1]).getBoundingClientRect(), frame = "
                           "box.getBoundingClientRect(); return part.top >= frame.top && part.top < frame.bottom", box, part)

    def press_tab(self):
        from selenium.webdriver.common.action_chains import ActionChains
        ActionChains(self.driver).send_keys(self.keys.TAB).perform()

    def took(self):
        return int(self.find("where").get_attribute("data-took") or 99999)


def walks(page, pictures):
    keys = page.keys
    page.write("text", "mov64 r0, 5\nadd64 r0, 2\nexit\n")
    page.until("listing", lambda: "add64 r0, 2" in page.shown("listing"))
    page.press("Load", "Activate", "Step")
    page.until("r0 = 7", lambda: "r00000000000000007" in page.shown("registers"))
    page.key(keys.ARROW_LEFT), page.key(keys.ARROW_LEFT)
    page.until("one step back, r0 = 5", lambda: "r00000000000000005" in page.shown("registers"))
    page.until("the next line is marked in the text", lambda: page.marks("text", "next") == [[2, ""]])
    if pictures:
        page.picture(pictures / "bench-walk.png", 1280, 1150, "light", "h1")
        page.picture(pictures / "bench-front.png", 800, 672, "light", "#procedures")
    page.driver.refresh()
    page.until("a reload loses nothing", lambda: "Ended" in page.shown("rows") and "add64 r0, 2" in page.shown("listing"))
    page.key(keys.HOME, keys.ARROW_DOWN)
    page.until("the packets of a line", lambda: "acknowledgement flags9: acceptance, completion" in page.shown("packets"))
    page.until("its reports", lambda: "subtype7: completed" in page.shown("packets"))


def faults(page):
    page.set("text", "; a comment\n\tmov64 r0, 5\nmov r0, 5\nexit\n")
    page.until("a text with a fault", lambda: [line for line, _ in page.marks("text", "fault")] == [3])
    page.check("page: its hint", page.marks("text", "fault")[0][1].startswith("Syntax: "))
    page.write("text", "mov64 r0, 5\ncall 9\nexit\n")
    page.until("a text that may not be loaded", lambda: [line for line, hint in page.marks("text", "fault") if "BadCall" in hint] == [2])
    page.write("script", "journal\nstep 7 0\n")
    page.until("a script with a fault", lambda: "error 2 Syntax" in page.shown("rows"))
    page.until("its hint", lambda: [line for line, hint in page.marks("script", "fault") if "1 to 1000000" in hint] == [2])
    page.write("pool", "0\t")
    page.until("an option out of range", lambda: "--pool is 1 to 256" in page.shown("message"))
    page.write("pool", "4\t")
    page.write("script", "pool 4\npool 3\n")
    page.until("a pool of four words", lambda: "pool 4 BadPoolIndex" in page.shown("rows"))
    page.check("page: the words that run it", page.shown("command") == "./ocp run --pool 4 < pass.ocp")
    page.write("pool", "16\t")


def verdict(page):
    """What may fault is marked in the text and in the listing, with why; the verdict on a corrected text is that it never faults."""
    page.set("text", "; reads after its arguments\n\tadd64 r1, r2\n\tldxb r0, [r1]\n\texit\n")
    why = "may be AccessOutside: r1 is 0x20000000 to 0x20000100"
    page.until("what may fault", lambda: page.shown("verdict").startswith(f"slot 1   {why}"))
    page.check("page: its line", page.marks("text", "may") == [[3, why]])
    page.check("page: its slot",
               page.script("return [...document.querySelectorAll('#listing .may')].map(row => row.dataset.slot)") == ["1"])
    page.set("text", "\tjge64 r2, 256, +2\n\tadd64 r1, r2\n\tldxb r0, [r1]\n\texit\n")
    page.until("what never faults", lambda: page.shown("verdict").startswith("faults 1 2 3   never"))
    page.check("page: no line of it is marked", not page.marks("text", "may"))


AGES = ("return ['listing', 'verdict', 'faults'].map(name => document.getElementById(name).classList.contains('old')).concat("
        "['age-listing', 'age-verdict'].map(name => document.getElementById(name).checkVisibility()),"
        "document.getElementById('text').parentElement.classList.contains('old'))")


def age(page):
    """What is shown of a text is marked as old from the moment on that the text is changed, until it is of the new one."""
    page.set("text", "\tmov64 r0, 1\n\texit\n")
    page.until("a text that is shown", lambda: "mov64 r0, 1" in page.shown("listing") and page.script(AGES) == [False] * 6)
    write = ("const area = document.getElementById('text'); area.value = arguments[0]; area.dispatchEvent(new Event('input'));"
             "return (() => {" + AGES + "})()")
    page.check("page: a text that was changed at this moment", page.script(write, "\tmov64 r0, 2\n\texit\n") == [True] * 6)
    page.until("its listing and verdict", lambda: "mov64 r0, 2" in page.shown("listing") and page.script(AGES) == [False] * 6)
    page.script(write, "\tmov64 r0, 3\n\texit\n")
    page.check("page: a text that is again what it was", page.script(write, "\tmov64 r0, 2\n\texit\n") == [False] * 6)
    choose = "const field = document.getElementById('profile'); field.value = arguments[0]; field.dispatchEvent(new Event('change'));"
    page.check("page: a profile that was changed", page.script(choose + "return (() => {" + AGES + "})()", "2") == [True] * 6)
    page.until("the verdict under it", lambda: page.script(AGES) == [False] * 6)
    page.script(choose, "1")
    page.until("the verdict under the first one", lambda: page.script(AGES) == [False] * 6)
    page.press("New")
    page.until("a new text", lambda: page.script(AGES) == [False] * 6)
    page.script("window.confirm = () => true")
    page.press("Close")
    page.until("the text before", lambda: "mov64 r0, 2" in page.shown("listing") and page.script(AGES) == [False] * 6)


def columns(page):
    """Lines of C have room in the field of the text."""
    for width, least in ((1280, 60), (1440, 72), (1000, 66), (800, 50)):
        page.driver.set_window_size(width, 1000)
        time.sleep(0.3)
        found = page.script("const area = document.getElementById('text'), part = document.createElement('span');"
                            "part.textContent = 'x'.repeat(100); part.style.font = getComputedStyle(area).font; document.body.append(part);"
                            "const one = part.getBoundingClientRect().width / 100; part.remove(); return area.clientWidth / one")
        page.check(f"page: {found:.1f} columns of text at {width}, not {least}", found >= least)
    page.driver.set_window_size(1280, 1000)


def in_c(page):
    if not page.script("return document.getElementById('language').value") or not all(map(shutil.which, ("clang", "llvm-objdump"))):
        return print("skipped: no clang")
    page.press("New")
    page.script("const field = document.getElementById('language'); field.value = 'c'; field.dispatchEvent(new Event('change'))")
    page.set("text", "#include \"ocp.h\"\nword entry(const octet *arguments, word count)\n{ return x; }\n")
    page.check("page: how C begins", "word entry(const octet *arguments, word count)" in page.shown("forms"))
    page.until("a fault in C", lambda: any(line == 3 and "undeclared" in hint for line, hint in page.marks("text", "fault")), 20)
    page.set("text", "int main(void)\n{ return 0; }\n")
    page.until("a fault of no line is marked at the first",
               lambda: [line for line, hint in page.marks("text", "fault") if "no function `entry`" in hint] == [1], 20)
    page.set("text", (Path(__file__).resolve().parents[2] / "examples/c/checksum.c").read_text())
    page.until("a text in C", lambda: "; line" in page.shown("listing"), 20)
    page.set("script", "")
    page.press("Load", "Activate", "Step")
    page.key(page.keys.HOME)
    page.key(*[page.keys.ARROW_RIGHT] * 4)
    page.until("a line of C that is next", lambda: len(page.marks("text", "next")) == 1)
    page.script("window.confirm = () => true")
    page.press("Close")
    page.check("page: the tab is closed", len(page.find("tabs").find_elements(page.by.TAG_NAME, "button")) == 1)


def walk_back(page, ocp, pictures):
    """A fault is found by walking back to the store that made it."""
    image = ocp(["asm"], "lddw r1, 0x20000000\nstxdw [r10-8], r1\nldxdw r2, [r10-8]\nstb [r2], 1\nexit").strip()
    page.write("script", f"send 0 load 3 {image}\nsend 0 activate 3\nstep 3 9\n")
    page.until("the new script", lambda: "Faulted 2" in page.shown("rows"))
    page.until("no text has this image", lambda: page.marks("text", "next") == [])
    page.key(page.keys.END)
    page.until("a fault", lambda: "fault2 (WriteToArguments)" in page.shown("view"))
    page.key(page.keys.HOME), page.key("f")
    page.until("the fault by its key", lambda: "place 4" in page.shown("view"))
    page.until("the fault in words", lambda: page.shown("last") == "The last event is the fault of stb [r2+0], 1 at place 4: "
               "r2+0 is 0x20000000, and the arguments are read only.")
    page.key(page.keys.ARROW_LEFT), page.key(page.keys.ARROW_LEFT)
    page.until("the store that made it", lambda: page.script(
        "return [...document.querySelectorAll('#memory-stack .changed')].map(each => each.textContent).join('')") == "20")
    page.check("page: the whole region", page.shown("memory-stack").count("\n") == 256 and "10000ff0  00" in page.shown("memory-stack"))
    page.check("page: what changed is in view", page.in_view("#memory-stack", ".changed") and page.in_view("#rows", ".here"))
    if pictures:
        page.picture(pictures / "bench-fault.png", 800, 1280, "dark", "section[aria-label=Text] h3")


def breakpoints(page, ocp):
    image = ocp(["asm"], "mov64 r1, 3\na: sub64 r1, 1\njne64 r1, 0, a\ncall local b\nexit\nb: mov64 r0, 1\nexit").strip()
    page.write("script", f"send 0 load 3 {image}\nsend 0 activate 3\nbreak 3 2\nstep 3 9\nsend 0 resume 3\nunbreak 3 2\nstep 3 9\n")
    page.until("the breakpoint's script", lambda: "cleared" in page.shown("rows"))
    where = lambda: page.shown("where").split(",")[0]
    page.key(page.keys.HOME)
    page.until("the start", lambda: where() == "event 0 of 17")
    for key, event in (("b", 5), ("b", 8), ("b", 10), ("b", 12), ("B", 10), ("B", 8), ("B", 5), ("h", 6)):
        page.key(key)
        page.until(f"breakpoint {key} {event}", lambda: where() == f"event {event} of 17")
    page.key(page.keys.END, page.keys.ARROW_LEFT, page.keys.ARROW_LEFT)
    page.until("a frame", lambda: "called at place 3" in page.shown("frames"))
    page.script("document.getElementById('more-records').open = true")
    page.until("the records", lambda: "call local +1" in page.shown("records"))
    page.key(page.keys.HOME)
    page.key(*[page.keys.ARROW_RIGHT] * 3), page.key("m")
    page.until("a breakpoint of the page", lambda: page.script("return document.querySelectorAll('#listing .marked').length") == 1)


def pending(page):
    page.write("script", f"send 0 load 3 {LOADS}\nsend 0 activate 3\nsend 9 communicate 3 40 41\nsend 9 suspend 3 2\nstep 3 100\ndrain\n")
    page.until("a pending suspend and its drain", lambda: "line 4, suspend 3: completed" in page.shown("rows"))
    page.key(page.keys.END, page.keys.ARROW_LEFT, page.keys.ARROW_LEFT)
    page.until("it is pending", lambda: "pending suspend 2" in page.shown("view"))
    page.check("page: no report of what is to come",
               "completed" not in page.shown("reports").split("line 4")[-1] and "accepted" in page.shown("reports"))
    page.check("page: the mailbox", page.shown("mailbox") == "2 of 16, the oldest first: 40, 41")


def second_profile(page):
    """The other profile: a budget with each activation, and a larger work region."""
    page.set("script", "")
    page.find("profile").send_keys("2")
    page.until("an empty script", lambda: page.shown("where").startswith("event 0 of 0"))
    time.sleep(1)
    page.set("text", "lddw r1, 0x30000ff8\nstdw [r1], 9\nexit\n")
    page.until("its listing", lambda: "stdw [r1+0], 9" in page.shown("listing") and page.shown("listed") == "of this text")
    page.check("page: what a budget is", page.script("return document.getElementById('budget').checkVisibility()"))
    page.press("Load", "Activate", "Step")
    page.until("an activation without a budget", lambda: "send 1 activate 7 0" in page.find("script").get_attribute("value"))
    page.until("its words", lambda: page.shown("command") == "./ocp run --profile 2 < pass.ocp")
    page.until("its work region", lambda: page.shown("memory-work").count("\n") == 256)
    page.key(page.keys.ARROW_LEFT)
    page.until("its last word", lambda: "30000ff0  00 00 00 00 00 00 00 00  09" in page.shown("memory-work"))
    page.find("profile").send_keys("1")
    page.until("no budget", lambda: "activate 7 0" in page.shown("rows")
               and not page.script("return document.getElementById('budget').checkVisibility()"))


def by_keyboard(page):
    """Tab comes to every field, button and table, and no other way is needed."""
    page.script("document.activeElement.blur(); window.getSelection().removeAllRanges(); scrollTo(0, 0); document.querySelectorAll('details').forEach(each => { each.open = true; })")
    wanted = set(page.script("return [...document.querySelectorAll('button, input, select, textarea, summary, [tabindex]')].filter(each =>"
                             "each.tabIndex >= 0 && !each.disabled && each.checkVisibility()).map((each, index) => { each.dataset.reach = index; return index; })"))
    reached, hidden = set(), set()
    for _ in range(len(wanted) + 40):
        page.press_tab()
        hidden |= set(page.script("const part = document.activeElement, box = part.getBoundingClientRect(), room = document.querySelector('footer').getBoundingClientRect().top - box.bottom;"
                                  "return part === document.body || part.closest('footer') || part.tagName === 'TEXTAREA' || box.top >= 0 && room >= 0 ? [] : [part.outerHTML.slice(0, 60)]"))
        found = page.script("return document.activeElement.dataset.reach")
        reached |= {int(found)} if found else set()
    lost = page.script("return [...document.querySelectorAll('[data-reach]')].filter(each => arguments[0].includes(Number(each.dataset.reach))).map(each => each.outerHTML.slice(0, 90))",
                       sorted(wanted - reached))
    page.check(f"page: Tab does not reach {lost}", not lost)
    page.check(f"page: the foot hides {hidden}", not hidden)
    for key, name in (("t", "text"), ("s", "script")):
        had = page.find(name).get_attribute("value")
        page.key(key)
        page.check(f"page: {key} goes into the {name}",
                   page.script("return document.activeElement.id") == name and page.find(name).get_attribute("value") == had)
    page.check("page: rows are reached by keys", page.script("return document.querySelectorAll('#rows .here').length") == 1)


def files(page, ocp, folder):
    """Files that are dropped and saved; a saved script runs."""
    drop = ("const data = new DataTransfer(); data.items.add(new File([arguments[1]], arguments[2]));"
            "document.getElementById(arguments[0]).dispatchEvent(new DragEvent('drop', {dataTransfer: data, bubbles: true, cancelable: true}))")
    page.script(drop, "where", "# a script\n", "dropped.ocp")
    page.until("a file that is dropped beside the fields", lambda: page.find("script").get_attribute("value") == "# a script\n")
    page.script(drop, "text", "mov64 r3, 9\nexit\n", "nine.asm")
    page.until("a text that is dropped", lambda: "nine.asm" in page.shown("tabs") and "mov64 r3, 9" in page.shown("listing"))
    page.check("page: the other text stays", len(page.find("tabs").find_elements(page.by.TAG_NAME, "button")) == 2)
    script = f"send 9 load 3 {LOADS}\nsend 9 activate 3\nstep 3 3\n"
    page.script(drop, "script", script, "other.ocp")
    page.until("a script that is dropped", lambda: "step 3 3 Ran" in page.shown("rows"))
    page.driver.execute_cdp_cmd("Browser.setDownloadBehavior", {"behavior": "allow", "downloadPath": str(folder)})
    page.press("Save text", "Save script")
    page.until("two files", lambda: {file.name for file in folder.iterdir()} == {"nine.asm", "pass.ocp"})
    page.check("page: the saved text", ocp(["asm"], (folder / "nine.asm").read_text()) == "b7030000090000009500000000000000\n")
    page.check("page: the saved script runs", (folder / "pass.ocp").read_text() == script and
               ocp(["run"], (folder / "pass.ocp").read_text()).endswith("step 3 3 Ran\n"))
    opened = folder / "opened.asm"
    opened.write_text("mov64 r4, 8\nexit\n")
    page.find("open-text").send_keys(str(opened))
    page.until("a text that is opened", lambda: "mov64 r4, 8" in page.shown("listing"))
    before = page.find("id").get_attribute("value")
    page.write("id", "12")
    page.find("tabs").find_elements(page.by.TAG_NAME, "button")[1].click()
    page.until("the tab before", lambda: "mov64 r3, 9" in page.shown("listing"))
    page.check("page: the tab before has its procedure's number", page.find("id").get_attribute("value") == before != "12")
    page.find("tabs").find_elements(page.by.TAG_NAME, "button")[2].click()
    page.until("the tab after it", lambda: "mov64 r4, 8" in page.shown("listing"))
    page.check("page: so has the tab after it", page.find("id").get_attribute("value") == "12")
    page.find("tabs").find_elements(page.by.TAG_NAME, "button")[1].click()
    page.until("the tab before, again", lambda: "mov64 r3, 9" in page.shown("listing"))


def big(page, ocp):
    """A pass of 16 procedures and 100,000 events: a click is answered within 0.3 s, or later if processes wait for cores."""
    image = ocp(["asm"], "a: add64 r0, 1\nstxdw [r10-8], r0\nja a\n").strip()
    script = "".join(f"send 0 load {number} {image}\nsend 0 activate {number}\n" for number in range(16))
    page.set("script", script + "".join(f"step {index % 16} 16\n" for index in range(6250)))
    page.until("100,032 events", lambda: "of 100032" in page.shown("where"), 30)
    times = []

    def answered(work):
        page.script("delete document.getElementById('where').dataset.took")
        work()
        page.until("an answer", lambda: page.find("where").get_attribute("data-took"), 5)
        times.append(page.took())
    for part in (5, 17, 40, 63, 88, 97, 31):
        answered(lambda: page.script("const lanes = document.getElementById('lanes'), box = lanes.getBoundingClientRect(); lanes.dispatchEvent("
                                     "new MouseEvent('click', {clientX: box.left + 64 + arguments[0] / 100 * (box.width - 74), clientY: box.top + 30, bubbles: true}))", part))
    for word in (page.keys.ARROW_LEFT, page.keys.ARROW_RIGHT, page.keys.ARROW_UP, page.keys.ARROW_DOWN, page.keys.HOME, page.keys.END):
        answered(lambda: page.key(word))
    page.check("page: the line is in view", page.in_view("#rows", ".here"))
    shown = page.shown("where")
    for _ in range(3):
        page.press("zoom in")
    page.check("page: a part of the timeline", page.shown("part") != "events 0 to 100032" and page.shown("where") == shown)
    print(f"a click in 100,032 events of 16 procedures: {sorted(times)[len(times) // 2] / 1000} s, the longest {max(times) / 1000} s")
    busy = max(1, os.getloadavg()[0] / os.cpu_count())
    page.check("page: an answer within 0.3 s", sorted(times)[len(times) // 2] <= 300 * busy)


def bad_input(page):
    """Each bad input has its message, and what was written stays."""
    kept = page.find("script").get_attribute("value")
    page.set("script", "\n" * 20_001)
    page.until("too many lines", lambda: "takes 20,000" in page.shown("message"))
    page.set("script", "#" * 4_000_001)
    page.until("too long a script", lambda: "over 4,000,000 octets" in page.shown("message"))
    page.set("script", "\0\u00ff\ud83d\ude00 step\n")
    page.until("no text", lambda: "error 1 Syntax" in page.shown("rows"))
    page.set("text", "\0\u00ff \u2028 exit\n")
    page.until("no assembly", lambda: [line for line, _ in page.marks("text", "fault")] == [1])
    page.driver.execute_cdp_cmd("Network.enable", {})
    gone = {"offline": True, "latency": 0, "downloadThroughput": 0, "uploadThroughput": 0}
    page.driver.execute_cdp_cmd("Network.emulateNetworkConditions", gone)
    page.set("script", kept)
    page.until("the bench is gone", lambda: "does not answer; the texts are kept" in page.shown("message"))
    page.driver.execute_cdp_cmd("Network.emulateNetworkConditions", dict(gone, offline=False, downloadThroughput=-1, uploadThroughput=-1))
    page.driver.refresh()
    page.until("the script is kept", lambda: page.find("script").get_attribute("value") == kept and "drain" in page.shown("rows"))


def example(page):
    """The page's own example: its fault, the store that made it, and the mended text."""
    page.set("script", "")
    page.find("example").send_keys(page.keys.ENTER)
    page.until("the example faults", lambda: "Faulted 1" in page.shown("rows") and "fault1" in page.shown("view"))
    page.until("why it faults",
               lambda: page.shown("last") == "The last event is the fault of ldxdw r0, [r6+16] at place 12, line 14: r6+16 is 0x13, "
               "and all octets of an access have to lie in one region of memory.")
    changed = "return [...document.querySelectorAll('#memory-stack .changed')].map(each => each.textContent).join(' ')"
    for _ in range(5):
        page.key(page.keys.ARROW_LEFT)
        time.sleep(0.3)
    page.until("the octets of the address", lambda: page.script(changed) == "03 00")
    page.until("the line after the store", lambda: [line for line, _ in page.marks("text", "next")] == [10])
    page.until("the store in words",
               lambda: page.shown("last") == "The last event did stxdw [r2+0], r1 at place 7, line 9: r2+0 is 0x10000ff8. It changed "
               "stack 10000ff8: 00 → 03, 10000ffb: 30 → 00.")
    mended = page.find("text").get_attribute("value").replace("jle64 r1, 3", "jlt64 r1, 3")
    page.set("text", mended)
    page.until("the mended listing", lambda: "jlt64 r1, 3" in page.shown("listing"))
    page.press("Reload")
    page.until("the mended procedure ends", lambda: "Ended" in page.shown("rows") and "r0000000000000001e" in page.shown("registers"))
    page.script("window.confirm = () => true")
    page.press("Close")


def newcomer(page, ocp):
    """What stood in the way of those who saw the page for the first time."""
    image = ocp(["asm"], "ldxdw r1, [r10-8]\nexit").strip()
    page.write("script", f"send 9 load 7 {image}\nsend 9 load 7 {image}\n")
    page.until("a load that is refused", lambda: "AlreadyLoaded" in page.shown("rows"))
    page.key(page.keys.END)
    page.until("the refusal in words",
               lambda: page.shown("last").startswith("Line 2, load 7: not started: 16 AlreadyLoaded. \"Reload\" puts"))
    page.check("page: it is red", page.find("last").get_attribute("class") == "bad")
    page.write("script", f"send 9 load 7 {image}\nstep 7 0\n")
    page.until("what ends a pass",
               lambda: "Line 1, load 7: completed. Line 2 is refused, and nothing from there on is run: " in page.shown("last")
               and "1 to 1000000" in page.shown("last"))
    page.write("script", f"send 9 load 7 {image}\nsend 1 activate 7\nbreak 7 1\n")
    page.until("a line that prints", lambda: "break 7 1 set" in page.shown("rows"))
    page.key(page.keys.END)
    page.until("what it printed", lambda: page.shown("last") == "Line 3 printed: break 7 1 set.")
    page.script("const area = document.getElementById('script'); area.selectionStart = area.selectionEnd = 3")
    page.press("Drain", "Drain", "Resume")
    page.until("buttons put lines in their order", lambda: page.find("script").get_attribute("value").endswith(
        "\ndrain\ndrain\nsend 1 resume 7\nsend 1 activate 7\nbreak 7 1\n"))
    page.write("script", f"send 9 load 7 {image}\nsend 1 activate 7\nstep 7 1\n")
    page.until("where a load reads", lambda: page.shown("last") == "The last event did ldxdw r1, [r10-8] at place 0: r10-8 is 0x10000ff8. It changed r1 0x20000000 → 0x0.")
    image = ocp(["asm"], "mov64 r2, 9\nlddw r1, 0x3\ncall 3\nexit").strip()
    page.script("document.getElementById('more-records').open = true")
    page.write("script", f"send 9 load 7 {image}\nsend 1 activate 7\nstep 7 3\n")
    page.until("the record of a call", lambda: "Called r0 0000000000000009" in page.shown("records"))
    page.check("page: records are not cut",
               page.script("const box = document.getElementById('records'); return box.scrollWidth <= box.clientWidth"))
    page.set("text", "mov64 r0, 4660\nexit\n")
    page.write("script", "")
    page.press("Load")
    page.until("what was just written is loaded",
               lambda: page.find("script").get_attribute("value") == "send 9 load 7 b7000000341200009500000000000000\n")
    page.write("script", "pool 1\npool 2\npool 3\n")
    page.key(page.keys.END)
    page.until("a key goes through what was just written", lambda: page.shown("where") == "event 0 of 0, after line 3")
    page.set("text", "mov64 r0, 1\n" * 17 + "exit\n")
    page.until("a text longer than its field", lambda: "17  exit" in page.shown("listing"))
    page.write("script", "")
    page.set("number", "20")
    page.press("Load", "Activate", "Step")
    page.script("document.getElementById('help').open = true; scrollTo(0, 0)")
    page.key(page.keys.END, page.keys.ARROW_LEFT, page.keys.ARROW_RIGHT)
    page.until("the line that is next is above the foot", lambda: page.marks("text", "next") == [[18, ""]] and page.script(
        "return document.querySelector('.bar.next').getBoundingClientRect().bottom <= document.querySelector('footer').getBoundingClientRect().top"))
    page.script("scrollTo(0, 0)")
    page.find("text").send_keys(page.keys.CONTROL, page.keys.END)
    page.find("text").send_keys("exit", page.keys.BACKSPACE * 4)
    page.check("page: what is written is above the foot", page.script("const area = document.getElementById('text');"
               "return area.getBoundingClientRect().top + 4 + 18 * area.value.split('\\n').length - area.scrollTop <= document.querySelector('footer').getBoundingClientRect().top"))
    page.script("document.getElementById('help').open = false; scrollTo(0, 1e6)")
    page.key("f")
    page.until("a message is seen from the end of the page",
               lambda: page.shown("message") == "There is no fault after this event." and page.script(
                   "const box = document.getElementById('message').getBoundingClientRect();"
                   " return box.top >= 0 && box.bottom < innerHeight && scrollY > 100"))
    page.press("New")
    page.write("apid", "292\t")
    page.until("the pass is run anew", lambda: "1924c000" in page.shown("rows"))
    time.sleep(0.5)
    page.check("page: a new text stays in view", page.find("text").get_attribute("value") == "")
    page.write("apid", "291\t")
    page.until("the usual options", lambda: "1923c000" in page.shown("rows"))
    page.press("Close")
    given = [line.split(" | ") for line in (Path(__file__).resolve().parents[2] / "docs/CARD.md").read_text().splitlines()
             if " = word r1" in line or "next_param" in line or "step_end" in line]
    words = " ".join(page.shown("forms").split())
    calls = [f"call {number.strip('| ')} {name.replace(' (profile 2)', '')} {gives.strip('| ')}" for number, name, gives in given]
    page.check(f"page: the calls {calls}", len(calls) == 6 and all(call in words for call in calls))


def nothing_overlaps(page):
    """At 1280 and 800 columns nothing is over another thing, and nothing is wider than the page."""
    for width in (1280, 800):
        page.driver.set_window_size(width, 1000)
        time.sleep(0.3)
        page.check(f"page: {width} columns", page.script("return document.documentElement.scrollWidth <= innerWidth"))
        over = page.script("""
            const all = [...document.querySelectorAll('main button:not(.row), main label, main h2, main h3, main table, main pre, main textarea, footer button')]
                .filter(each => each.checkVisibility() && !each.closest('.editor, #packets, #rows, #records') && each.getBoundingClientRect().width);
            const boxes = all.map(each => each.getBoundingClientRect()), found = [];
            boxes.forEach((one, first) => boxes.forEach((other, second) => {
                if (first < second && !all[first].contains(all[second]) && !all[second].contains(all[first]) && all[first].closest('footer') === all[second].closest('footer') &&
                    one.left + 1 < other.right && other.left + 1 < one.right && one.top + 1 < other.bottom && other.top + 1 < one.bottom)
                    found.push(`${all[first].outerHTML.slice(0, 60)} / ${all[second].outerHTML.slice(0, 60)}`);
            }));
            return found;""")
        page.check(f"page: at {width} columns {over}", not over)
    page.driver.set_window_size(1280, 1000)


def page(address, ocp, check, pictures):
    if not (importlib.util.find_spec("selenium") and shutil.which("chromedriver") and shutil.which("chromium")):
        return print("skipped: no chromium, chromedriver or selenium")
    from selenium import webdriver
    from selenium.webdriver.chrome.service import Service
    wants = webdriver.ChromeOptions()
    for word in ("--headless=new", "--no-sandbox", "--disable-dev-shm-usage", "--window-size=1280,1000"):
        wants.add_argument(word)
    driver = webdriver.Chrome(service=Service(shutil.which("chromedriver")), options=wants)
    try:
        driver.get(address)
        shown = Page(driver, check)
        shown.until("the first text", lambda: "exit" in shown.shown("listing"))
        walks(shown, pictures)
        walk_back(shown, ocp, pictures)
        faults(shown)
        verdict(shown)
        age(shown)
        in_c(shown)
        breakpoints(shown, ocp)
        pending(shown)
        bad_input(shown)
        example(shown)
        newcomer(shown, ocp)
        second_profile(shown)
        fields.numbers(shown)
        fields.shield(shown, texts.is_shielded() if texts.has_clang() else None)
        fields.profiles(shown)
        fields.words(shown)
        columns(shown)
        nothing_overlaps(shown)
        by_keyboard(shown)
        with tempfile.TemporaryDirectory() as folder:
            files(shown, ocp, Path(folder))
        big(shown, ocp)
        severe = [line["message"] for line in driver.get_log("browser")
                  if not any(word in line["message"] for word in ("status of 4", "DISCONNECTED")) and line["level"] == "SEVERE"]
        check(f"page: {severe}", not severe)
    finally:
        driver.quit()
