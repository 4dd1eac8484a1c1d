"""The HTML report in a browser: what it says at first sight, filter, search, keyboard, narrow and
dark screens; no file's name runs.
"""

import shutil
import subprocess
import sys
import tempfile
from pathlib import Path

import common

NEEDS = ("selenium", "$chromium", "$chromedriver")
LIST = 'version = 1\n[imports]\ndatetime = ["datetime"]\n'
HOSTILE_NAME = "<img src=x onerror=document.title='run'>\u202e.pickle"
HEIGHT = """const range = document.createRange(); range.selectNodeContents(arguments[0]);
return range.getBoundingClientRect().height;"""
WIDE, NARROW = (1280, 900), (390, 844)


def run():
    """The test."""
    with tempfile.TemporaryDirectory() as folder:
        page = report(Path(folder))
        browser = opened()
        try:
            browser.get(page.as_uri())
            for size in (WIDE, NARROW):
                fits(browser, *size)
            look(browser)
            keys(browser)
            dark(browser)
        finally:
            browser.quit()
    common.nothing_ran()


def report(folder):
    """A report of good and hostile files."""
    files = folder / "files"
    files.mkdir()
    for number in range(8):
        (files / f"good{number}.pickle").write_bytes(common.pickle.dumps(common.good(number), 4))
    (files / "bad.pickle").write_bytes(common.hostile(0))
    (files / HOSTILE_NAME.replace("/", "")).write_bytes(common.hostile(1))
    (files / f"{'long-name-' * 20}.pickle").write_bytes(b"cfunctools\npartial\n.")
    (folder / "list.toml").write_text(LIST)
    words = ["-m", "storklocker.scanning.command", "scan", str(files), "--format", "html"]
    words += ["--allow", str(folder / "list.toml")]
    ran = subprocess.run([sys.executable, *words], capture_output=True, check=False)
    assert ran.returncode == 1, ran.stderr
    page = folder / "report.html"
    page.write_bytes(ran.stdout)
    return page


def opened():
    """A headless browser."""
    from selenium import webdriver
    from selenium.webdriver.chrome.service import Service

    options = webdriver.ChromeOptions()
    for word in ("--headless=new", "--no-sandbox", "--hide-scrollbars"):
        options.add_argument(word)
    options.binary_location = shutil.which("chromium")
    return webdriver.Chrome(service=Service(shutil.which("chromedriver")), options=options)


def found(browser, selector):
    return browser.find_elements("css selector", selector)


def resized(browser, width, height):
    size = {"width": width, "height": height, "deviceScaleFactor": 1, "mobile": False}
    browser.execute_cdp_cmd("Emulation.setDeviceMetricsOverride", size)


def fits(browser, width, height):
    """Nothing is wider than the screen, no word breaks by letters, and the summary is in sight."""
    resized(browser, width, height)
    assert browser.execute_script("return document.documentElement.scrollWidth") <= width
    advice = found(browser, ".advice")[0].rect
    assert advice["y"] + advice["height"] < height, advice
    assert "Don't load the refused files" in found(browser, "h1")[0].text
    for cell in found(browser, ".verdict, .number"):
        height = browser.execute_script(HEIGHT, cell)
        assert height < 30, (width, cell.text, height)


def look(browser):
    """Clicks the filter, searches, sorts."""
    resized(browser, *WIDE)
    rows = found(browser, "tbody tr")
    assert len(rows) == 11, len(rows)
    assert "bad.pickle" in rows[0].text or "img" in rows[0].text, "the worst isn't first"
    found(browser, "button[data-worst=refused]")[0].click()
    shown = [row for row in rows if row.is_displayed()]
    assert len(shown) == 3 and any("bad.pickle" in row.text for row in shown), len(shown)
    assert all("Don't load it" in row.text for row in shown), "a finding without what to do"
    found(browser, "button[data-worst='']")[0].click()
    found(browser, "#word")[0].send_keys("posix.system")
    shown = [row.text for row in rows if row.is_displayed()]
    assert len(shown) == 1 and "ImportOffList" in shown[0], shown
    assert found(browser, "#count")[0].text == "1 shown"
    found(browser, "#word")[0].clear()
    assert browser.title == "Storklocker", "a file's name ran"


def keys(browser):
    """Everything is reached by Tab and worked by Enter."""
    from selenium.webdriver.common.keys import Keys

    browser.refresh()
    reached = []
    for _ in range(12):
        browser.switch_to.active_element.send_keys(Keys.TAB)
        reached.append(browser.switch_to.active_element.text)
    assert "Bytes" in reached and any(text.startswith("refused") for text in reached), reached
    while browser.switch_to.active_element.text != "File":
        browser.switch_to.active_element.send_keys(Keys.SHIFT, Keys.TAB)
    browser.switch_to.active_element.send_keys(Keys.ENTER)
    paths = [it.text for it in found(browser, "td.path")]
    assert found(browser, "th[aria-sort=ascending]")[0].text.startswith("File"), paths
    assert paths.index(next(it for it in paths if "good0" in it)) < len(paths) - 7, paths


def dark(browser):
    """On a dark screen, text and background differ enough."""
    features = {"features": [{"name": "prefers-color-scheme", "value": "dark"}]}
    browser.execute_cdp_cmd("Emulation.setEmulatedMedia", features)
    style = "const it = getComputedStyle(arguments[0]); return [it.color, it.backgroundColor]"
    _, back = browser.execute_script(style, found(browser, "body")[0])
    for cell in found(browser, ".verdict, .do, b, p"):
        text, _ = browser.execute_script(style, cell)
        assert contrast(text, back) >= 4.5, (cell.text, text, back)


def contrast(one, other):
    """The contrast of two colours, as WCAG has it."""
    lights = sorted(map(light, (one, other)))
    return (lights[1] + 0.05) / (lights[0] + 0.05)


def light(colour):
    parts = [int(it) / 255 for it in colour[colour.index("(") + 1 :].rstrip(")").split(",")[:3]]
    red, green, blue = (it / 12.92 if it <= 0.03928 else ((it + 0.055) / 1.055) ** 2.4
                        for it in parts)
    return 0.2126 * red + 0.7152 * green + 0.0722 * blue
