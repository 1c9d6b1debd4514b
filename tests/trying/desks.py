"""A page of tools/try-orders that is open in a browser."""
import time
from pathlib import Path

from checks import ROOT, check
from trying_jobs import run

RACE = ROOT / "examples" / "refill-race"
SCREEN, TELEPHONE = 1300, 400

# What the page shows, from inside it.
SHOWN = """(() => {
  const text = id => document.getElementById(id).textContent;
  return {kind: document.getElementById("banner").className.split(" ")[1],
    banner: document.querySelector(".stands").textContent, badge: text("badge"),
    answer: text("answer"), where: text("where"), trace: document.getElementById("trace").value};
})()"""
SLIDE = "(() => {{ const one = document.getElementById('slider'); one.value = {}; one.dispatchEvent(new Event('input')); }})()"


class Desk:
    """A page that is open."""

    def __init__(self, browser, file, width=SCREEN):
        self.tab = browser.open(file.as_uri(), width)

    def shown(self, *what):
        seen = self.tab.value(SHOWN)
        return [seen[one] for one in what] if len(what) > 1 else seen[what[0]]

    def move(self, thread, choice):
        self.tab.click(f"#move-{thread}-{choice}")

    def slide(self, state):
        self.tab.value(SLIDE.format(state))

    def until(self, what, wanted):
        """Waits until something is shown."""
        return self.waited(f"({SHOWN})[{what!r}] === {wanted!r}")

    def waited(self, script):
        """What a script comes to once it comes to something; a machine with other work takes its time."""
        for _ in range(400):
            if found := self.tab.value(script):
                return found
            time.sleep(0.1)
        return None


def page_of(folder, scratch, *more):
    file = Path(scratch) / f"{folder.name}.html"
    done = run("--page", file, *more, folder)
    check(f"page of {folder.name}", (done.status, done.error), (0, ""))
    return file
