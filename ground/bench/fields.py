"""What is written into the page's fields, and what the page then says."""
import time


def numbers(page):
    """A number is what was written, and the console judges it."""
    page.set("text", "mov64 r0, 5\nexit\n")
    page.until("its image", lambda: "mov64 r0, 5" in page.shown("listing"))
    for written, fault in (("0x10", "n is 1 to 1000000"), ("1 2", "nothing more"), ("", "is missing"), ("\u0663", "ASCII")):
        page.write("script", "")
        page.write("number", written)
        page.press("Step")
        line = f"step 7 {written.strip()}"
        page.until(f"the number {written!r} as it was written", lambda: page.find("script").get_attribute("value") == f"{line}\n")
        page.until(f"the fault of {written!r}", lambda: [number for number, hint in page.marks("script", "fault") if fault in hint] == [1])
    page.write("number", "10")
    page.write("id", "7x")
    page.press("Reload")
    page.until("a procedure that is none", lambda: page.shown("message") == "A procedure is decimal digits; found 7x.")
    page.write("id", "7")
    page.write("number", "0x2")
    page.press("Mark place")
    page.until("a place that is none", lambda: page.shown("message") == "A place is decimal digits; found 0x2.")
    page.write("number", "10")
    for written in ("0x10", "1 2", ""):
        page.write("pool", f"{written}\t")
        page.until(f"a pool of {written!r} words", lambda: "--pool is 1 to 256" in page.shown("message"))
    page.write("pool", "16\t")
    page.write("script", "pool 15\n")
    page.until("a pool of 16", lambda: "pool 15 0000000000000000" in page.shown("rows"))


def shield(page, shielded):
    """The page says if a build of a text in C may read more than the text."""
    page.check("page: its words on a shield",
               page.script("return document.getElementById('unshielded').checkVisibility()") == (shielded is False))


def profiles(page):
    """A change of the profile says that an activation is read in another way, and where."""
    page.driver.refresh()
    page.write("script", "journal\nsend 9 activate 7 10\n")
    page.until("the script", lambda: "tm 1 4" in page.shown("rows"))
    page.check("page: nothing is said before a change",
               not page.script("return document.getElementById('other-profile').checkVisibility()"))
    page.find("profile").send_keys("2")
    page.until("what profile 2 reads",
               lambda: page.shown("other-profile") == "Profile 2: activate 7 10 gives a budget of 10 instructions. Under "
               "profile 1 it gave the argument 10, in hexadecimal. The script activates in line 2.")
    time.sleep(1.5)  # the keys of one word are typed within a second
    page.find("profile").send_keys("1")
    page.until("what profile 1 reads",
               lambda: page.shown("other-profile").startswith("Profile 1: activate 7 10 gives the argument 10, in hexadecimal."))


def words(page):
    """A word that is put from outside, and a round, by their buttons; of a program that has these lines."""
    if not page.script("return [...document.querySelectorAll('#makers button')].some(each => each.textContent === 'Put word')"):
        return print("skipped: the program has no put line")
    page.write("script", "")
    page.set("text", "mov64 r1, 3\ncall 5\nmov64 r0, 9\nexit\n")
    page.until("its image", lambda: "call 5" in page.shown("listing"))
    page.write("number", "500")
    page.write("word", "3")
    page.press("Put word")
    page.until("a word is put", lambda: "put 3 500 set" in page.shown("rows"))
    changed = lambda: page.script("return [...document.querySelectorAll('#words .changed')].map(each => each.textContent.trim())")
    page.until("it is marked", lambda: changed() == ["3 00000000000001f4 before 0000000000000000"])
    page.check("page: its event", page.shown("where").startswith("event 1 of 1"))
    page.key(page.keys.ARROW_LEFT)
    page.until("the word before", lambda: page.shown("where").startswith("event 0 of 1") and changed() == [])
    page.key(page.keys.END)
    page.write("number", "0x5")
    page.press("Put word")
    page.until("a value that is none", lambda: [line for line, _ in page.marks("script", "fault")] == [2])
    page.write("script", "")
    page.write("number", "9")
    page.press("Load", "Activate", "Round")
    page.until("a round", lambda: "round 7 2 Called step 3" in page.shown("rows"))
    page.check("page: its instructions are events", page.shown("where").startswith("event 4 of 4"))
    page.key(page.keys.ARROW_LEFT)
    page.until("its first instruction", lambda: page.shown("last").startswith("The last event did mov64 r1, 3 at place 0"))
    page.key(page.keys.ARROW_LEFT, page.keys.ARROW_RIGHT, page.keys.ARROW_RIGHT)
    page.until("its call", lambda: page.shown("last").startswith("The last event did call 5 at place 1"))
    page.press("Round")
    page.until("a round that ends", lambda: "round 7 2 Ended" in page.shown("rows"))
    page.write("number", "10")
