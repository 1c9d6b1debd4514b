"""The page in a real browser: an order clicked, typed, recorded, long; the quiz; what is told to who does not see it."""
import subprocess
import time
from pathlib import Path

from checks import ROOT, check
from desks import RACE, Desk, page_of
from jobs import make_job
from trying_jobs import racereplay


def check_orders(browser, scratch):
    check_clicks(browser, scratch)
    check_keys(browser, scratch)
    check_without_keys(browser, scratch)
    check_told(browser, scratch)
    check_recorded(browser, scratch)
    check_long(browser, scratch)
    check_quiz(browser, scratch)
    check_download(browser, scratch)


def recorded_moves():
    return [tuple(map(int, line.split(","))) for line in (RACE / "trace.txt").read_text().split()]


def check_clicks(browser, scratch):
    """The recorded order clicked step by step: the banner turns red with its last step and not before; undo and redo."""
    desk = Desk(browser, page_of(RACE, scratch))
    desk.tab.click("#along")  # every step by itself
    kinds, answers = [], []
    for move in recorded_moves():
        desk.move(*move)
        kinds.append(desk.shown("kind"))
        answers.append(desk.shown("answer"))
    check("refill-race clicked: no race but at the end", kinds, ["open"] * 33 + ["race"])
    wanted = [*(f"RAN,{k}" for k in range(1, 34)), "RACE,34,34,2,4"]
    check("refill-race clicked: what racereplay should write", answers, wanted)
    wanted = "Race: pump is about to read level (line 37) while refill is about to write 100 into level (line 70)."
    check("refill-race clicked: the banner", desk.shown("banner", "badge"), [wanted, "RACE"])
    just_now = desk.tab.value("document.querySelector('.just-now').textContent")
    check("refill-race clicked: what was just done", just_now, "Just now: refill goes on to line 70 (line 67).")
    check("refill-race clicked: the trace", desk.shown("trace"), (RACE / "trace.txt").read_text())
    clash = desk.tab.value("[...document.querySelectorAll('.thread.races .name, .thing.clash .name')].map(one => one.textContent)")
    check("refill-race clicked: who meets is marked", clash, ["pump", "refill", "level"])
    desk.tab.click("#undo")
    check("refill-race: undone", desk.shown("kind", "where", "answer"), ["open", "state 33 of 34", "RAN,33"])
    desk.tab.click("#redo")
    check("refill-race: redone", desk.shown("kind", "where"), ["race", "state 34 of 34"])
    desk.tab.click("#restart")
    check("refill-race: from the start", desk.shown("kind", "where", "trace"), ["open", "state 0 of 34", ""])
    desk.move(0, 0)
    check("refill-race: a step in place of what was undone", desk.shown("where", "trace"), ["state 1 of 1", "0,0\n"])
    check("refill-race clicked: nothing went wrong", desk.tab.complaints(), [])


def check_keys(browser, scratch):
    """The same by keys alone, with steps that only go on taken along; a thread that waits does not move."""
    desk = Desk(browser, page_of(RACE, scratch))
    for _ in range(11):
        desk.tab.press("0", "Digit0")
    check("by keys: main is at its join", desk.shown("trace"), "0,0\n" * 22)
    desk.tab.press("0", "Digit0")
    greyed = desk.tab.value("[...document.querySelectorAll('.move[aria-disabled]')].map(one => one.textContent)")
    check("by keys: main waits", (desk.shown("trace"), greyed), ("0,0\n" * 22, ["waits for a thread of showing"]))
    said = desk.tab.value("document.getElementById('said').textContent")
    check("by keys: why main does not move is said", said, "Thread 0 waits for a thread of showing.")
    for key in "333300":
        desk.tab.press(key, f"Digit{key}")
    check("by keys: the screen is joined", desk.shown("kind", "answer"), ["open", "RAN,33"])
    desk.tab.press("4", "Numpad4")
    check("by keys: the race", desk.shown("kind", "answer"), ["race", "RACE,35,35,2,4"])
    desk.tab.press("u")
    check("by keys: undone with what it took along", desk.shown("kind", "where"), ["open", "state 33 of 35"])
    desk.tab.press("ArrowRight")
    check("by keys: one state on", desk.shown("where"), "state 34 of 35")
    desk.tab.press("Backspace")
    desk.tab.press("r")
    check("by keys: redone", desk.shown("kind", "where"), ["race", "state 35 of 35"])
    desk.tab.press("n")
    desk.slide(17)
    desk.tab.press("!", "Digit0", shift=True)
    check("by keys: the second way, which leaves the loop", desk.shown("trace").split()[-2:], ["0,1", "0,0"])
    check("by keys: nothing went wrong", desk.tab.complaints(), [])


def check_recorded(browser, scratch):
    """The recorded order is played to its race, and the slider goes over its states."""
    desk = Desk(browser, page_of(RACE, scratch))
    check("recorded: on the slider from the first", desk.shown("where"), "state 0 of 34")
    desk.slide(20)
    check("recorded: the slider", desk.shown("where", "answer"), ["state 20 of 34", "RAN,20"])
    desk.move(1, 0)
    check("recorded: another step leaves it", desk.shown("where", "trace"), ["state 21 of 21", "0,0\n" * 20 + "1,0\n"])
    desk.tab.press("o")
    check("recorded: played to the race", desk.until("kind", "race"), True)
    check("recorded: its state", desk.shown("where", "trace"), ["state 34 of 34", (RACE / "trace.txt").read_text()])
    mark = desk.tab.value("document.getElementById('first').title")
    check("recorded: the first race is marked", mark, "the first race: state 34")
    other = Path(scratch) / "other.txt"
    other.write_bytes((RACE / "trace.txt").read_bytes() + b"4,0\n3,0\n\xff\n")
    found = desk.tab.ask("Runtime.evaluate", expression="document.getElementById('file')")["result"]["objectId"]
    desk.tab.ask("DOM.setFileInputFiles", files=[str(other)], objectId=found)
    check("another trace is opened", desk.until("where", "state 0 of 35"), True)
    stopped = desk.tab.value("document.getElementById('stopped').textContent")
    check("another trace: where it stops", stopped, "Line 36 of the recorded order cannot be done (47): it is here as far as that.")
    desk.slide(35)
    check("another trace: its race", desk.shown("answer"), "RACE,35,34,2,4")


def check_quiz(browser, scratch):
    desk = Desk(browser, page_of(RACE, scratch))
    words = "document.getElementById('quiz').textContent"
    desk.tab.press("q")
    hidden = desk.tab.value("document.getElementById('recorded').hidden")
    check("quiz: from the start, and the recorded order is away", (desk.shown("where"), hidden), ("state 0 of 0", True))
    desk.tab.press("h")
    check("quiz: the first hint", "the cell is level." in desk.tab.value(words), True)
    said = "document.getElementById('said').textContent"
    check("quiz: the first hint is told too", desk.tab.value(said).endswith("Hint: the cell is level."), True)
    desk.tab.press("h")
    check("quiz: the second hint", "pump and refill can meet there." in desk.tab.value(words), True)
    for key in "000000000003333004":
        desk.tab.press(key, f"Digit{key}")
    solved = "Found, with 2 hints: 35 steps, 3 switches of thread. No race was found with fewer than 3 switches."
    check("quiz: solved", (desk.shown("kind"), solved in desk.tab.value(words)), ("race", True))
    check("quiz: that it is solved is told too", desk.tab.value(said).endswith(solved), True)
    for key in ("q", "q", "h", "h", "h"):
        desk.tab.press(key)
    check("quiz: one is shown", desk.until("kind", "race"), True)
    accepted = Desk(browser, page_of(ROOT / "examples" / "refill", scratch))
    told = accepted.tab.value(words)
    check("an accepted job has no quiz", told, "racecheck accepts this job with its split: no order races, and that is proved.")


def check_download(browser, scratch):
    """What is taken along is what racereplay confirms."""
    folder = make_job(Path(scratch) / "taken", [])
    (folder / "program.txt").write_bytes((RACE / "program.txt").read_bytes())
    desk = Desk(browser, page_of(RACE, scratch))
    desk.slide(34)
    browser.ask("Browser.setDownloadBehavior", behavior="allow", downloadPath=str(folder))
    desk.tab.click("#download")
    for _ in range(200):
        if (folder / "trace.txt").exists():
            break
        time.sleep(0.1)
    line = subprocess.run([racereplay()], cwd=folder, capture_output=True, text=True).stdout
    check("taken along: racereplay confirms it", line, "RACE,34,34,2,4\n")
    desk.tab.value("new MutationObserver(() => { window.seen = window.seen || copied.textContent; }).observe(copied, {childList: true})")
    desk.tab.click("#copy")
    check("taken along: copied", desk.waited("window.seen || ''"), "Copied.")
    browser.ask("Browser.grantPermissions", permissions=["clipboardReadWrite"])
    check("taken along: what was copied", desk.tab.value("navigator.clipboard.readText()"), (RACE / "trace.txt").read_text())


# ---- Who has no use for keys, and who does not see the page


def check_without_keys(browser, scratch):
    """Single keys can be switched off and on again; what has the focus is pressed by the keyboard all the same."""
    desk = Desk(browser, page_of(RACE, scratch))
    desk.tab.click("#keys")
    for key, code in (("0", "Digit0"), ("q", ""), ("ArrowRight", "")):
        desk.tab.press(key, code)
    hints = desk.tab.value("[...document.querySelectorAll('button kbd')].filter(one => one.getClientRects().length).length")
    check("keys switched off", (desk.shown("where"), hints), ("state 0 of 34", 0))
    desk.tab.value("document.getElementById('move-0-0').focus()")
    desk.tab.press("Enter", text="\r")
    check("keys switched off: a button that has the focus", desk.shown("where"), "state 2 of 2")
    desk.tab.click("#keys")
    desk.tab.press("0", "Digit0")
    check("keys switched on again", desk.shown("where"), "state 4 of 4")


def check_told(browser, scratch):
    """What changes is told in one place, which a screen reader speaks."""
    desk, said = Desk(browser, page_of(RACE, scratch)), []
    region = desk.tab.value("(() => { const one = document.getElementById('said'); return [one.getAttribute('role'), one.ariaLive]; })()")
    check("told: a live region, and one only", (region, desk.tab.value("document.querySelectorAll('[aria-live]').length")),
          (["status", "polite"], 1))
    desk.slide(20)
    for key in "01130u":
        desk.tab.press(key, f"Digit{key}" if key.isdigit() else "")
        said.append(desk.tab.value("document.getElementById('said').textContent"))
    check("told: each change", said, TOLD)


WHO = "3 threads can move. Who goes next?"
TOLD = [
    f"Main starts screen (line 48). Main waits for a thread of showing (line 62). Screen can go on. {WHO}",
    f"Stirrer comes to the loop (line 21). {WHO}", f"Stirrer goes round the loop (line 21). {WHO}",
    f"Screen reads level: 100 (line 51). {WHO}", "Thread 0 waits for a thread of showing.", f"State 24 of 26. {WHO}"]


def check_long(browser, scratch):
    """An order of many lines is on the slider whole, with its last states as its first; what is copied is all of it."""
    loop = make_job(Path(scratch) / "loop", ["while,0", "int,0"])
    (loop / "trace.txt").write_text("0,0\n" * LONG)
    desk = Desk(browser, page_of(loop, scratch))
    check("long: on the slider", desk.shown("where", "kind"), [f"state 0 of {LONG}", "open"])
    desk.slide(LONG)
    cut = desk.tab.value("document.getElementById('cut').textContent")
    check("long: its end", (desk.shown("answer"), cut), (
        f"RAN,{LONG}", f"These are the latest 2000 of {LONG} lines; Copy and Download take all of them."))
    desk.move(0, 0)
    desk.tab.press("u")
    check("long: a step more, and back", desk.shown("where"), f"state {LONG} of {LONG + 1}")
    check("long: nothing went wrong", desk.tab.complaints(), [])


LONG = 30_000  # lines
