"""`site.py SITE FOLDER`: looks through the built site, as files and in a browser that keeps what it keeps in a folder."""

from __future__ import annotations

import json
import re
import sys
import time
from collections import Counter
from html import escape
from html.parser import HTMLParser
from pathlib import Path
from urllib.parse import unquote, urlsplit

from selenium import webdriver
from selenium.webdriver.chrome.service import Service
from selenium.webdriver.common.by import By
from selenium.webdriver.remote.webdriver import WebDriver

WIDTH, HEIGHT = 1280, 960
PHONE = 390
# The longest that a search may take to answer.
SECONDS = 20

FUNCTION = re.compile(r"^(?P<indent> *)(?:pub )?(?:extern \"C\" )?fn (?P<name>\w+)", re.M)
TRAIT = re.compile(r"^(?:pub )?trait (\w+)", re.M)
# A trait's impl, what stands in it, and a word of the trait that it gives a meaning to.
IMPL = re.compile(r"^impl(?:<.*>)? (?P<trait>\w+)(?P<of>.*) for (?P<type>.+) \{\n(?P<body>(?:.*\n)*?)\}\n", re.M)
WORD = re.compile(r"ghost (?P<name>\w+) = (?:.*\n)*?.*\};$", re.M)
CLAUSE = re.compile(r"^ +(?:requires|ensures).*", re.M)
# What a function's signature and clauses have none of: an item's end, or the beginning of another.
BEYOND = re.compile(r";$|^\}|^(?:pub )?(?:struct|enum|trait|impl|const|use|mod)\b", re.M)

# The functions that the crates' pages show, by file and line: the name and the code.
Shown = dict[tuple[str, int], tuple[str, str]]


class Page(HTMLParser):
    """What a page links to, what it loads, the anchors that it has, and how many elements have an id."""

    def __init__(self, text: str) -> None:
        super().__init__()
        self.links: list[str] = []
        self.anchors: set[str] = set()
        self.ids: Counter[str] = Counter()
        self.feed(text)

    def handle_starttag(self, tag: str, attrs: list[tuple[str, str | None]]) -> None:
        for name, value in attrs:
            if name in ("href", "src") and value is not None:
                self.links.append(value)
            if name in ("id", "name") and value:
                self.anchors.add(value)
            if name == "id" and value:
                self.ids[value] += 1


def dead_links(site: Path) -> list[str]:
    """The links of all pages that lead to no file, to no place in it or to two, and what is taken from elsewhere."""
    pages = {path: Page(path.read_text(encoding="utf-8")) for path in site.rglob("*.html")}
    dead: list[str] = []
    for path, page in pages.items():
        for link in page.links:
            parts = urlsplit(link)
            if parts.scheme in ("http", "https", "mailto", "data"):
                continue
            to = (path.parent / unquote(parts.path)).resolve() if parts.path else path
            known = pages.get(to)
            anchor = unquote(parts.fragment)
            if not to.is_file() or (anchor and (known is None or anchor not in known.anchors)):
                dead.append(f"{path.relative_to(site)}: {link}")
        dead += [f"{path.relative_to(site)}: {name} twice" for name, count in page.ids.items() if count > 1]
    return dead


def finds_dead_links(site: Path, folder: Path) -> None:
    """That a dead link is found, and a place that isn't there or is there twice, was tried."""
    folder.mkdir()
    (folder / "a.html").write_text(
        '<a href="a.html#here">x</a><p id="here"></p><a href="b.html">x</a><a href="#there">x</a><p id="two"></p><p id="two"></p>'
    )
    assert dead_links(folder) == ["a.html: b.html", "a.html: #there", "a.html: two twice"], dead_links(folder)
    found = dead_links(site)
    assert not found, "\n".join(found[:20])


def browser(folder: Path) -> WebDriver:
    """A browser without a window."""
    options = webdriver.ChromeOptions()
    for word in ("--headless", "--no-sandbox", "--disable-gpu", "--disable-dev-shm-usage"):
        options.add_argument(word)
    options.add_argument(f"--window-size={WIDTH},{HEIGHT}")
    options.add_argument(f"--user-data-dir={folder / 'browser'}")
    options.set_capability("goog:loggingPrefs", {"browser": "ALL"})
    return webdriver.Chrome(service=Service("chromedriver"), options=options)


def hold_rules(driver: WebDriver, site: Path) -> int:
    """Every citation of the rules opens its definition in place, with all that belongs under it; how many there are."""
    count = 0
    for path in sorted((site / "rules").glob("*.html")):
        driver.get(path.as_uri())
        panels = driver.execute_script(
            "return [...document.querySelectorAll('details.panel')]"
            ".map(p => [p.id, p.querySelector('pre').textContent, p.textContent])"
        )
        for name, code, text in panels:
            assert name.rsplit(".", 1)[1] in code, name
            for title in ("Functions whose contracts", "Theorems that", "Examples that pin", "Wrong edits", "In samsung.rs"):
                assert title in text, f"{name}: {title}"
        count += len(panels)
        assert driver.execute_script("return [...document.querySelectorAll('details.panel')].every(p => !p.open)"), path
        cited = driver.find_elements(By.CSS_SELECTOR, ".md-content a[href^='#'] > code")
        if cited:
            link = cited[0].find_element(By.XPATH, "..")
            name = unquote(str(link.get_attribute("href")).split("#")[1])
            link.click()
            assert driver.execute_script("return document.getElementById(arguments[0]).open", name), name
    return count


def shown_functions(driver: WebDriver, site: Path) -> Shown:
    """The functions on the crates' pages."""
    script = (
        "return [...document.querySelectorAll('details.panel[id*=\"::\"]')].map(p => "
        "[p.querySelector('.place').textContent, ...['summary > code', 'pre'].map(part => p.querySelector(part).textContent)])"
    )
    shown: Shown = {}
    for path in sorted((site / "crates").glob("*.html")):
        driver.get(path.as_uri())
        for place, name, code in driver.execute_script(script):
            file, _, line = place.rpartition(", line ")
            shown[file, int(line)] = name, code
    return shown


def hold_functions(driver: WebDriver, site: Path) -> str:
    """Each function of the sources is shown under a name of its own, with its contract. In the search's index a name is HTML."""
    top = Path(__file__).resolve().parent.parent
    shown = shown_functions(driver, site)
    texts = {path.relative_to(top).as_posix(): path.read_text(encoding="utf-8") for path in top.glob("crates/*/src/**/*.rt")}
    traits = {trait for text in texts.values() for trait in TRAIT.findall(text)}
    for file, text in sorted(texts.items()):
        hold_clauses(file, text, shown)
    lawful = sum(hold_laws(file, text, shown, traits) for file, text in sorted(texts.items()))
    names = Counter(name for name, _ in shown.values())
    assert set(names.values()) == {1}, names.most_common(5)
    index = (site / "search" / "search_index.js").read_text(encoding="utf-8")
    entries = json.loads(index[index.index("{") : index.rindex("}") + 1])["docs"]
    titles = {one["title"] for one in entries if "::" in one["location"]}
    others = titles - {escape(name, quote=False) for name in names}
    assert titles and not others, others
    return f"{len(names)} functions have their contracts, {lawful} of them by a trait's law"


def hold_clauses(file: str, text: str, shown: Shown) -> None:
    """A function's signature and clauses are shown as they stand in the file, all and no more."""
    for found in FUNCTION.finditer(text):
        place = file, text.count("\n", 0, found.start()) + 1
        assert place in shown, f"{place}: {found[0]}"
        own = shown[place][1].partition("    // The law of ")[0].rstrip()
        source = re.sub(f"^{found['indent']}", "", text[found.start() :], flags=re.M)
        after = source.removeprefix(own)
        assert after != source and after.startswith((";\n", " {\n", "\n{\n")) and not BEYOND.search(own), f"{place}: {own}"


def hold_laws(file: str, text: str, shown: Shown, traits: set[str]) -> int:
    """A function of a trait's impl, if it has no clause of its own, is shown with the trait's, and with what their words mean for
    the type: for a trait of the library all that the impl says. How many there are."""
    codes = dict(shown.values())
    count = 0
    for impl in IMPL.finditer(text):
        first = text.count("\n", 0, impl.start("body")) + 1
        for found in FUNCTION.finditer(impl["body"]):
            name, code = shown[file, first + impl["body"].count("\n", 0, found.start())]
            if CLAUSE.search(code.partition("    // The law of ")[0]):
                continue
            asked = f"{impl['trait']}::{found['name']}"
            assert name.endswith(f"<{impl['type']} as {impl['trait']}{impl['of']}>::{found['name']}"), name
            law = codes.get(f"{name.partition('<')[0]}{asked}", "")
            assert bool(law) == (impl["trait"] in traits) and f"The law of {asked}:" in code, name
            clauses = CLAUSE.findall(law)
            words = [one for one in WORD.finditer(impl["body"]) if not law or re.search(rf"\b{one['name']}\b", "".join(clauses))]
            parts = [*clauses, *(one[0] for one in words)]
            assert all(part in code for part in parts), f"{name}: {code}"
            count += 1
    return count


def hold_lacks(driver: WebDriver, site: Path, rules: int) -> str:
    """The tables of what lacks something are short, and tell why of each."""
    driver.get((site / "lacks.html").as_uri())
    tables = driver.find_elements(By.CSS_SELECTOR, ".md-content table")
    assert len(tables) == 2, "definitions without a function or a pin, and rules without a definition"
    cells = [
        [[cell.text for cell in row.find_elements(By.TAG_NAME, "td")] for row in table.find_elements(By.CSS_SELECTOR, "tbody tr")]
        for table in tables
    ]
    for rows in cells:
        assert 0 < len(rows) < 10 and all(len(row) == 3 and all(row) for row in rows), rows
    lacking = sum(row[2].count(",") + 1 for row in cells[0])
    assert rules > 4 * lacking > 0, (rules, lacking)
    undefined = sum(row[2].count(";") + 1 for row in cells[1])
    reasons = len(cells[0] + cells[1])
    return f"{lacking} of {rules} definitions lack a function or a pin, {undefined} rules a definition, for {reasons} reasons"


def hold_search(driver: WebDriver, site: Path) -> None:
    """The search finds a definition by its name, and leads to it, opened."""
    driver.get((site / "index.html").as_uri())
    field = driver.find_element(By.CSS_SELECTOR, "input.md-search__input")
    driver.execute_script("document.getElementById('__search').click(); arguments[0].focus()", field)
    field.send_keys("predictor")
    began = time.monotonic()
    links: list[str] = []
    while not links and time.monotonic() - began < SECONDS:
        time.sleep(0.2)
        script = "return [...document.querySelectorAll('.md-search-result__link')].map(a => a.href)"
        links = [str(link) for link in driver.execute_script(script)]
    found = [link for link in links if link.split("?")[0].endswith(".html") and link.split("#")[-1].endswith(".predictor")]
    assert found, links[:10]
    driver.get(found[0])
    panel = driver.find_element(By.ID, unquote(found[0].split("#")[1]))
    assert panel.get_attribute("open"), found[0]
    assert len(panel.find_elements(By.CSS_SELECTOR, "p.part + ul")) == 5, "functions, theorems, examples, wrong edits, samsung.rs"


def contrast(driver: WebDriver) -> float:
    """How far a page's links stand out from its background, as WCAG has it: from 1 to 21, and 4.5 can be read."""
    script = """
        const light = colour => {
            const parts = colour.match(/\\d+/g).slice(0, 3).map(part => part / 255)
            const [r, g, b] = parts.map(p => p <= 0.03928 ? p / 12.92 : ((p + 0.055) / 1.055) ** 2.4)
            return 0.2126 * r + 0.7152 * g + 0.0722 * b + 0.05
        }
        const link = getComputedStyle(document.querySelector(".md-content td a")).color
        const pair = [light(link), light(getComputedStyle(document.body).backgroundColor)]
        return Math.max(...pair) / Math.min(...pair)"""
    return float(driver.execute_script(script))


def hold_widths(driver: WebDriver, site: Path) -> None:
    """On a phone no page is wider than the screen; light and dark differ, and links can be read in both."""
    pages = ["index.html", "promises.html", "life.html", "lacks.html", "crates/index.html"]
    pages += [f"rules/{path.name}" for path in sorted((site / "rules").glob("*.html"))]
    driver.execute_cdp_cmd(
        "Emulation.setDeviceMetricsOverride", {"width": PHONE, "height": 800, "deviceScaleFactor": 1, "mobile": True}
    )
    for page in pages:
        driver.get((site / page).as_uri())
        driver.execute_script("document.querySelectorAll('details').forEach(one => one.open = true)")
        width = driver.execute_script("return document.documentElement.scrollWidth")
        assert width <= PHONE, f"{page} is {width} wide"
    driver.execute_cdp_cmd("Emulation.clearDeviceMetricsOverride", {})
    colours = set()
    for theme in ("light", "dark"):
        driver.execute_cdp_cmd("Emulation.setEmulatedMedia", {"features": [{"name": "prefers-color-scheme", "value": theme}]})
        driver.execute_script("localStorage.clear()")
        driver.get((site / "index.html").as_uri())
        colours.add(driver.execute_script("return getComputedStyle(document.body).backgroundColor"))
        assert contrast(driver) > 4.5, f"{theme}: {contrast(driver)}"
    assert len(colours) == 2, colours


def hold_paper(driver: WebDriver, site: Path) -> None:
    """A page can be printed: on paper stands the definition that was opened, and of others the line that opens them."""
    path = min((site / "rules").glob("*.html"), key=lambda path: path.stat().st_size)
    driver.get(path.as_uri())
    first = driver.find_element(By.CSS_SELECTOR, "details.panel > summary")
    driver.execute_script("arguments[0].click()", first)
    driver.execute_cdp_cmd("Emulation.setEmulatedMedia", {"media": "print"})
    driver.execute_script("document.querySelectorAll('details.panel').forEach(one => one.open = true)")
    codes = driver.find_elements(By.CSS_SELECTOR, "details.panel > .highlight")
    assert [code.is_displayed() for code in codes] == [True] + [False] * (len(codes) - 1) and len(codes) > 1, path
    driver.execute_cdp_cmd("Emulation.setEmulatedMedia", {"media": ""})
    assert driver.print_page().startswith("JVBERi0"), "it prints"


def hold_pages(driver: WebDriver, site: Path) -> int:
    """No page has a script error or takes anything from elsewhere; drawings and pictures are there; how many pages there are."""
    paths = [path for path in sorted(site.rglob("*.html")) if path.relative_to(site).parts[0] != "sources"]
    for path in paths:
        driver.get(path.as_uri())
        fetched = driver.execute_script("return performance.getEntriesByType('resource').map(e => e.name)")
        assert not [name for name in fetched if not name.startswith(("file:", "data:"))], fetched
        broken = "return [...document.images].filter(p => !(p.complete && p.naturalWidth > 0)).map(p => p.src)"
        assert not driver.execute_script(broken), path
    for page, selector, least in (
        ("crates/index.html", ".drawing .node a", 10),
        ("life.html", ".drawing .node a", 15),
        ("life.html", ".steps svg", 5),
    ):
        driver.get((site / page).as_uri())
        assert len(driver.find_elements(By.CSS_SELECTOR, selector)) >= least, f"{page}: {selector}"
    return len(paths)


def main() -> None:
    site, folder = Path(sys.argv[1]).resolve(), Path(sys.argv[2]).resolve()
    finds_dead_links(site, folder / "planted")
    driver = browser(folder)
    try:
        rules = hold_rules(driver, site)
        lacks = hold_lacks(driver, site, rules)
        functions = hold_functions(driver, site)
        hold_search(driver, site)
        hold_widths(driver, site)
        hold_paper(driver, site)
        pages = hold_pages(driver, site)
        log = driver.get_log("browser")
        assert not log, log
    finally:
        driver.quit()
    print(
        f"{pages} pages and their sources: no dead link, no script error; {functions}; {lacks}; "
        "the search finds a definition and opens it"
    )


if __name__ == "__main__":
    main()
