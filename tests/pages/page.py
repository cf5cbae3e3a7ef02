"""The page of `tracering-timeline` in a browser, as tests see it."""

import subprocess
import sys
import time
from pathlib import Path

from pages import browser
from pages.browser import ActionChains

TOP = Path(__file__).resolve().parents[2]
# How long a test waits at most for what has to come.
SECONDS = 600
# What the list has, from its first item to its last, as it would be drawn.
LISTED = """
return Array.from({length: trace.listed.length}, (_, item) => {
  const {gap, row} = trace.listed.at(item);
  if (gap) return `missing ${gap.lane.cpu} ${gap.lane[gap.kind].firsts.at(gap.run)}`;
  const {columns} = trace;
  return `${trace.laneOf[columns.lanes[row]].cpu} ${columns.numbers.at(row)}`;
});
"""


def check(is_so, said):
    if not is_so:
        sys.exit(f"timeline: {said}")


def same(what, found, wanted):
    check(found == wanted, f"{what}: wanted {wanted!r}, and not {found!r}")


class Page:
    """A browser with the page of some texts."""

    def __init__(self, driver, folder, pictures):
        self.browser, self.folder, self.pictures, self.count = driver, folder, pictures, 0

    def run(self, script, *arguments):
        return self.browser.execute_script(script, *arguments)

    def get(self, id):
        return self.browser.find_element("id", id)

    def click(self, id):
        self.get(id).click()
        self.settle()

    def press(self, *keys):
        self.get("plot").send_keys(*keys)
        self.settle()

    def await_lines(self):
        """Waits until the lines of what is shown are there."""
        self.settle()
        self.wait("return !linesPending", "the lines don't come")

    def settle(self):
        """Waits until a text is read and drawn."""
        self.wait(browser.IS_DRAWN, "the page doesn't draw")

    def wait(self, condition, said):
        end = time.monotonic() + SECONDS
        while not self.run(condition):
            check(time.monotonic() < end, said)
            time.sleep(0.01)

    def open(self, **named):
        """Opens a page with these texts."""
        self.count += 1
        page = self.folder / f"{self.count}.html"
        for name, text in named.items():
            (self.folder / name).write_text(text)
        with page.open("wb") as file:
            subprocess.run([TOP / "show/tracering-timeline", *named], cwd=self.folder, stdout=file, check=True)
        self.browser.get(page.as_uri())
        self.settle()
        return page

    def picture(self, name):
        if self.pictures:
            self.browser.save_screenshot(str(self.pictures / f"{name}.png"))

    def rows(self):
        """The rows of the table of sums, each by its lane."""
        values = "row => [row.cells[0].textContent, ...[...row.cells].slice(1).map(cell => cell.dataset.value)]"
        return {row[0]: row[1:] for row in self.run(f"return [...element('sums').tBodies[0].rows].map({values})")}

    def view(self):
        """What is shown: its first moment and how many there are."""
        origin, width = self.run("return [String(view.origin), view.width]")
        return int(origin), width

    def chosen(self):
        return self.run("return [chosen.lane, chosen.record, chosen.gap]")

    def text(self, id):
        self.await_lines()
        return self.run("return element(arguments[0]).textContent", id)

    def point(self, moment, lane, up=0):
        """Where a moment of a lane is in the window."""
        return self.run(
            "const box = canvas.getBoundingClientRect();"
            "const base = box.top + laneTop(arguments[1]) + STRIP + AREA;"
            "return [box.left + spot(BigInt(arguments[0])), base - arguments[2]]", str(moment), lane, up)

    def hover(self, x, y):
        self.pointer().w3c_actions.pointer_action.move_to_location(round(x), round(y))
        return self.done()

    def pointer(self):
        self.actions = ActionChains(self.browser, duration=0)
        return self.actions

    def done(self):
        self.actions.perform()
        self.settle()

    def drag(self, begin, end, button=0, key=None):
        actions = self.pointer()
        if key:
            actions.key_down(key)
        pointer = actions.w3c_actions.pointer_action
        pointer.move_to_location(*map(round, begin)).pointer_down(button=button)
        pointer.move_to_location(*map(round, ((begin[0] + end[0]) / 2, end[1]))).move_to_location(*map(round, end))
        pointer.pointer_up(button=button)
        if key:
            # The key's device waits for as long as the pointer's acts.
            for _ in range(5):
                actions.w3c_actions.key_action.pause()
            actions.key_up(key)
        self.done()
