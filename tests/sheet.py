"""`sheet.py FOLDER [PICTURE]`: holds `many.html` to `many.json`, both made by `tests/sheet`, in a browser."""

from __future__ import annotations

import json
import sys
from collections import Counter
from pathlib import Path

from selenium import webdriver
from selenium.webdriver.chrome.service import Service
from selenium.webdriver.common.by import By
from selenium.webdriver.common.keys import Keys
from selenium.webdriver.remote.webdriver import WebDriver

WIDTH, HEIGHT = 1180, 980


def browser(folder: Path) -> WebDriver:
    """A browser without a window, which keeps what it keeps in a folder."""
    options = webdriver.ChromeOptions()
    for word in ("--headless", "--no-sandbox", "--disable-gpu", "--disable-dev-shm-usage"):
        options.add_argument(word)
    options.add_argument(f"--window-size={WIDTH},{HEIGHT}")
    options.add_argument(f"--user-data-dir={folder / 'browser'}")
    options.set_capability("goog:loggingPrefs", {"browser": "ALL"})
    return webdriver.Chrome(service=Service("chromedriver"), options=options)


def shown(driver: WebDriver) -> list[str]:
    """The statuses of the cards that are shown."""
    script = "return [...document.querySelectorAll('article')].filter(c => c.offsetHeight > 0).map(c => c.dataset.status)"
    return list(driver.execute_script(script))


def hold(driver: WebDriver, folder: Path) -> None:
    """Holds the sheet of many frames to what the tool told of them."""
    lines = [json.loads(line) for line in (folder / "many.json").read_text().splitlines()]
    counts = Counter(line["status"] for line in lines)
    assert len(lines) == 300 and len(counts) == 5, counts
    driver.get((folder / "many.html").as_uri())
    assert Counter(shown(driver)) == counts
    loaded = "return [...document.images].filter(p => p.complete && p.naturalWidth > 0).length"
    pictures = driver.find_elements(By.TAG_NAME, "img")
    assert driver.execute_script(loaded) == len(pictures) > 300, "every picture is there"

    for status, count in counts.items():
        driver.find_element(By.CSS_SELECTOR, f"nav button[data-show={status}]").click()
        assert shown(driver) == [status] * count, status
    driver.find_element(By.CSS_SELECTOR, "nav button[data-show='']").click()
    assert len(shown(driver)) == 300

    marks = driver.find_element(By.ID, "marks")
    card = driver.find_element(By.CSS_SELECTOR, "article.hold_back .frame")
    tinted = card.screenshot_as_png
    marks.click()
    assert card.screenshot_as_png != tinted, "the switch changes the picture"
    marks.click()
    assert card.screenshot_as_png == tinted

    card.click()
    dialog = driver.find_element(By.TAG_NAME, "dialog")
    assert dialog.is_displayed() and "HOLD BACK" in dialog.text, dialog.text
    large = dialog.find_element(By.TAG_NAME, "div")
    assert large.size["width"] > 2 * card.size["width"]
    tinted, text = large.screenshot_as_png, dialog.text
    dialog.send_keys("m")
    assert large.screenshot_as_png != tinted, "and the large one"
    dialog.send_keys("m")
    dialog.send_keys(Keys.ARROW_RIGHT)
    assert dialog.is_displayed() and dialog.text != text, "the arrows go from frame to frame"
    dialog.send_keys(Keys.ESCAPE)
    assert not dialog.is_displayed()

    assert driver.title == "Contact sheet", "no name of a file has run"
    names = [name.get_attribute("textContent") for name in driver.find_elements(By.TAG_NAME, "h2")]
    for name in ("many/<img src=x onerror=document.title=1>.srw", "many/&lt;b&gt;.srw", "many/\\u{202e}reversed.srw"):
        assert name in names, name
    assert driver.print_page().startswith("JVBERi0"), "it prints"
    fetched = driver.execute_script("return performance.getEntriesByType('resource').map(e => e.name)")
    assert not [name for name in fetched if not name.startswith("data:")], fetched
    log = driver.get_log("browser")
    assert not log, log


def main() -> None:
    folder = Path(sys.argv[1])
    driver = browser(folder)
    try:
        hold(driver, folder)
        driver.get((folder / "few.html").as_uri())
        picture = driver.get_screenshot_as_png()
        if len(sys.argv) > 2 and sys.argv[2]:
            Path(sys.argv[2]).write_bytes(picture)
    finally:
        driver.quit()
    print("the sheet of 300 frames loads, filters, switches its marks, shows frames large, prints, and runs no file's name")


if __name__ == "__main__":
    main()
