"""A browser without a window, of Debian's chromium, chromium-driver and python3-selenium."""

import os
import shutil
import sys

# Debian's packages, if another Python is first on the path.
sys.path.append("/usr/lib/python3/dist-packages")

try:
    from selenium import webdriver
    from selenium.webdriver import ActionChains, Keys
    from selenium.webdriver.chrome.service import Service
except ImportError:
    webdriver = ActionChains = Keys = None


def is_there():
    return bool(webdriver and shutil.which("chromium") and shutil.which("chromedriver"))


def started():
    options = webdriver.ChromeOptions()
    options.binary_location = shutil.which("chromium")
    options.add_argument("--headless=new")
    options.add_argument("--window-size=1400,1000")
    options.add_argument("--disable-dev-shm-usage")
    if os.geteuid() == 0:
        options.add_argument("--no-sandbox")
    options.set_capability("goog:loggingPrefs", {"browser": "ALL"})
    return webdriver.Chrome(service=Service(shutil.which("chromedriver")), options=options)


# Whether the page of `tracering-timeline` has read and drawn its text, and awaits nothing.
IS_DRAWN = "return Boolean(trace && lastRedraw && !isAsked && !isListAsked && !pending);"
# Draws other parts of it, and waits for each until its pixels are there: how many milliseconds each takes.
REDRAWS = """
const times = [], pen = canvas.getContext("2d");
for (let round = 0; round < 40; round++) {
  if (round % 8 === 0) showAll(); else zoom(0.5, (round % 5) / 4);
  const begun = performance.now();
  draw();
  pen.getImageData(0, 0, 1, 1);
  times.push(performance.now() - begun);
}
return times;
"""
