"""What a user does on the page, by keys alone, in a browser of browsers.py, and what is to be seen then."""

# Each window: its breadth and height, how many pixels of the screen one of the page has, and what the user prefers.
WINDOWS = {
    "1280x800": (1280, 800, 1, {}),
    "390x844": (390, 844, 1, {"prefers-reduced-motion": "reduce"}),
    "1280x800 in the dark": (1280, 800, 1, {"prefers-color-scheme": "dark", "prefers-reduced-motion": "reduce"}),
    "200 % of 1280x800": (640, 400, 2, {"prefers-reduced-motion": "reduce"}),
}
MOST_TABS = 90
# Milliseconds of a processor that a put may take with 500 keys, and how often it is tried.
QUICK, TRIES = 50, 10

READY = "return document.documentElement?.dataset.ready"
# What lies over one another or beyond the window, what says nothing, and what was loaded.
FAULTS = """
const found = [];
for (const plane of document.querySelectorAll(".plane")) {
    const keys = [...plane.querySelectorAll(".chip")].map((it) => it.dataset.key);
    if (keys.some((key, at) => at > 0 && keys[at - 1] >= key)) found.push("chips that aren't in the order of their keys");
}
for (const plane of document.querySelectorAll(".plane")) {
    const chips = [...plane.querySelectorAll(".chip")].map((it) => [it, it.getBoundingClientRect()]);
    for (const [at, [one, box]] of chips.entries()) {
        const hit = document.elementFromPoint((box.left + box.right) / 2, (box.top + box.bottom) / 2);
        if (hit && hit !== one) found.push(one.textContent + " lies below " + hit.className);
        for (const [other, its] of chips.slice(at + 1)) {
            const isOver = box.left + 0.5 < its.right && its.left + 0.5 < box.right && box.top + 0.5 < its.bottom && its.top + 0.5 < box.bottom;
            if (isOver) found.push(one.textContent + " over " + other.textContent);
        }
    }
}
if (document.documentElement.scrollWidth > innerWidth) found.push("the page is wider than the window: " + document.documentElement.scrollWidth);
if (/undefined|NaN|null/.test(document.body.innerText)) found.push("something is undefined");
if (performance.getEntriesByType("resource").length) found.push("something was loaded");
for (const it of document.querySelectorAll("input, select, button")) {
    if (it.checkVisibility() && !it.labels?.length && !it.ariaLabel && !it.textContent.trim()) found.push("no label: " + it.outerHTML);
}
for (const it of document.querySelectorAll(".chip.other, .chip.only")) {
    if (!/store/.test(it.ariaLabel) || !/[≠+?↓✓]/.test(it.textContent)) found.push("a chip that doesn't say that it differs: " + it.outerHTML);
}
return found.slice(0, 5);
"""
# The key that leads to the first that a selector names and that the tabulator stops at; none where the focus is on one.
WAY = """
const at = document.activeElement;
if (at.matches("SELECTOR")) return "";
const found = [...document.querySelectorAll("SELECTOR")].find((it) => it.tabIndex >= 0);
const isBehind = at === document.body || at.compareDocumentPosition(found) & Node.DOCUMENT_POSITION_FOLLOWING;
return isBehind ? "Tab" : "ShiftTab";
"""
MOVING = "return document.getAnimations().length > 0 || document.querySelector('#play').textContent.includes('Pause')"


def check(what, seen, wanted):
    if seen != wanted:
        raise AssertionError(f"{what}: {seen!r}, not {wanted!r}")


def has(what, seen, part):
    if part not in seen:
        raise AssertionError(f"{what}: {seen!r} has no {part!r}")


class User:
    """Uses a page, looks for faults after each step, and keeps pictures of it where a folder is given."""

    def __init__(self, browser, pictures):
        self.browser, self.pictures = browser, pictures

    def tab(self, selector):
        """Goes by the tabulator to what a selector names, back where it is in front."""
        for _ in range(MOST_TABS):
            way = self.browser.run(WAY.replace("SELECTOR", selector))
            if way == "":
                return
            self.browser.press(way)
        raise AssertionError(f"the tabulator never comes to {selector}")

    def choose(self, selector, *keys):
        self.tab(selector)
        self.press(*(keys or ("Enter",)))

    def press(self, *keys):
        for key in keys:
            self.browser.press(key)

    def rest(self):
        """Waits until nothing moves."""
        self.browser.wait(f"return !(() => {{ {MOVING} }})()")

    def see(self, name):
        self.rest()
        check(f"{name}: faults", self.browser.run(FAULTS), [])
        if self.pictures:
            self.pictures.mkdir(parents=True, exist_ok=True)
            (self.pictures / f"{name}.png").write_bytes(self.browser.picture())

    def shown(self, selector):
        return self.browser.run(f"return document.querySelector('{selector}').textContent")

    def address(self):
        return self.browser.run("return location.hash")

    def roots(self):
        return [self.shown(f"#name{side}").split()[-1] for side in range(2)]


def sync(user, total):
    """A sync from step to step and to its end, with the bytes that the native library sends, and another direction."""
    has("the stores at first", user.shown("#verdict"), "differ")
    user.choose("#next")
    check("a step", user.shown("#place").split("/")[0], "1")
    has("its message", user.shown("#lane"), "asks for the root")
    user.press(*["Enter"] * 5)
    user.see("sync")
    user.choose("#back")
    check("a step back", user.shown("#place").split("/")[0], "5")
    user.choose("#scrubber", "End")
    has("the stores at the end", user.shown("#verdict"), "equal")
    if total is not None:
        has("the bytes", user.shown("#bytes"), f"{total:,} bytes sent so far. All rows")
    check("the messages", user.browser.run("return document.querySelectorAll('#packets li').length > 10"), True)
    user.see("synced")
    user.choose("#scrubber", "Home", "ArrowRight", "ArrowRight")
    user.choose("[name=first]", "ArrowRight")
    check("the step with another direction", user.shown("#place").split("/")[0], "0")
    has("what is said then", user.shown("#said"), "Store B asks first")
    user.choose("[name=way]", "ArrowRight")
    user.choose("#scrubber", "End")
    has("the stores after pulls by ranges", user.shown("#verdict"), "equal")
    check("that it is short", len(user.shown("#said")) < 300, True)
    user.see("ranges")


def moments(user):
    """The three moments, each by one choice."""
    user.choose("[data-scene=order]")
    user.browser.wait("return document.querySelector('#place').textContent === '12/12'")
    has("the same rows in another order", user.shown("#verdict"), "equal")
    user.see("order")
    user.choose("[data-scene=key]")
    has("the key's level", user.shown("#digest"), "level 2")
    user.press(*"zz top")
    has("the key's level", user.shown("#digest"), "level 0")
    has("the tree with the key", user.shown(".tree .plane"), "✓zz top")
    user.see("key")
    user.press("Enter")
    has("what a put says", user.shown("#said"), "hashed anew after the edit of zz top")
    user.choose("#undo")
    user.choose("[data-scene=edit]")
    user.rest()
    has("what an edit says", user.shown("#said"), "those on its path. No other digest changed.")
    user.see("edit")


def edits(user):
    """Rows that are edited by their chips and by the form, undone, and gone back to."""
    before = user.roots()
    user.choose("#trees .chip", "ArrowRight", "Enter")
    key = user.browser.run("return document.querySelector('#editor [name=key]').value")
    check("where the focus is", user.browser.run("return document.activeElement.name"), "text")
    user.press(*"counted again", "Enter")
    has("what a put says", user.shown("#said"), f"the edit of {key}")
    check("where the focus is after it", user.browser.run("return document.activeElement.dataset.key"), key)
    after = user.roots()
    check("that one root hash is another", [after[0] != before[0], after[1]], [True, before[1]])
    user.see("put")
    user.browser.run("history.back()")
    user.browser.wait(f"return document.querySelector('#name0').textContent.endsWith('{before[0]}')")
    user.browser.run("history.forward()")
    user.browser.wait(f"return document.querySelector('#name0').textContent.endsWith('{after[0]}')")
    address = user.address()
    user.browser.run("location.hash = ''")
    user.browser.wait(f"return !document.querySelector('#name0').textContent.endsWith('{after[0]}')")
    user.browser.run(f"location.hash = '{address}'")
    user.browser.wait(f"return document.querySelector('#name0').textContent.endsWith('{after[0]}')")
    user.choose("#undo")
    check("the root hashes after an undo", user.roots(), before)


def refused(user):
    """Keys that are none: blanks, and half of a character."""
    before = user.roots()
    user.choose("#editor [name=key]", " ", " ", "Enter")
    has("what is said of a blank key", user.shown("#fault"), "blank")
    user.browser.run("document.querySelector('#editor [name=key]').value = '\\ud83d'")
    user.press("Enter")
    has("what is said of half of a character", user.shown("#fault"), "half of a character")
    check("the root hashes", user.roots(), before)
    user.see("refused")
    user.choose("#next")
    check("what is said after another act", user.shown("#fault"), "")


def sizes(user):
    """The sliders: 2,000 keys and none; the form says how many rows the stores have; a put with 500 keys is quick."""
    user.choose("#count", "End")
    has("the keys of the slider", user.shown("#count_shown"), "2,000 (rows in A 1,999, in B 1,999)")
    has("the rows of a store", user.shown("#name0"), "1,999 rows")
    user.see("keys2000")
    user.press("Home")
    has("the keys of the slider", user.shown("#count_shown"), "0 (rows in A 0, in B 0)")
    user.see("keys0")
    user.browser.run("location.hash = '#rows=500&seed=abc'")
    user.browser.wait("return document.querySelector('#count_shown').textContent.startsWith('500')")
    times = []
    for at in range(TRIES):
        user.browser.run(f"const {{ key }} = document.querySelector('#editor').elements; key.focus(); key.value = 'k{at}'")
        from_here = user.browser.spent()
        user.browser.run("document.querySelector('#editor').requestSubmit()")
        times.append(user.browser.spent() - from_here)
    if min(times) > QUICK:
        raise AssertionError(f"a put with 500 keys takes {min(times):.0f} ms")
    before = user.roots()
    user.choose("#rows button")
    check("that other rows came", user.roots() != before, True)


def use(browser, page, pictures, total):
    """Uses the page in each window that the browser has; answers their names."""
    windows = {name: window for name, window in WINDOWS.items() if browser.HAS_DARK or "prefers-color-scheme" not in window[-1]}
    for name, (width, height, scale, media) in windows.items():
        browser.show(width, height, scale, media)
        browser.open(page)
        browser.wait(READY)
        user = User(browser, pictures and pictures / name.replace(" ", "_").replace("%", "percent"))
        user.see("begin")
        if width > 1000:
            foot = browser.run("return Math.max(...[...document.querySelectorAll('.tree')].map((it) => it.getBoundingClientRect().bottom))")
            check("that both trees are in view", foot < height, True)
        sync(user, total)
        for part in (moments, edits, refused, sizes):
            part(user)
    return list(windows)
