"""Tests of how well the pages can be seen and gone through: contrasts and the focus, by scripts over each page's own tree; pages.py runs
them with its own."""
import json

from relay_client.client import Client
from relay_client.relay import Relay
from relay_client.wire import Wire
from steps import enter, open_table, text, until_moves, until_state, url, watch
from tabs import frame, play, site, until_stand

# WCAG 2.1: text 4.5:1 (1.4.3), large text 3:1, edges of controls 3:1 (1.4.11). What is disabled does not count.
SCRIPT = """(() => {
  const parsed = (text) => {
    const numbers = (text.match(/-?[\\d.]+(e-?\\d+)?/g) || []).map(Number);
    const [r, g, b, a = 1] = text.startsWith("color(srgb") ? [...numbers.slice(0, 3).map((it) => 255 * it), ...numbers.slice(3)] : numbers;
    return {r, g, b, a};
  };
  const over = (top, low) =>
    Object.fromEntries(["r", "g", "b"].map((it) => [it, top.a * top[it] + (1 - top.a) * low[it]]).concat([["a", 1]]));
  const light = ({r, g, b}) => {
    const part = (it) => (it / 255 <= 0.04045 ? it / 255 / 12.92 : ((it / 255 + 0.055) / 1.055) ** 2.4);
    return 0.2126 * part(r) + 0.7152 * part(g) + 0.0722 * part(b);
  };
  const ratio = (one, other) => {
    const [low, high] = [light(one), light(other)].sort((a, b) => a - b);
    return (high + 0.05) / (low + 0.05);
  };
  const ground = (it) =>
    it === null ? {r: 255, g: 255, b: 255, a: 1} : over(parsed(getComputedStyle(it).backgroundColor), ground(it.parentElement));
  const isSeen = (it) => it.checkVisibility({checkVisibilityCSS: true, checkOpacity: true}) && it.getClientRects().length > 0
    && !it.closest(".unseen, .blank");
  const isOff = (it) => it.closest(":disabled, [aria-disabled=true]") !== null;
  const name = (it) => `${it.tagName.toLowerCase()}${it.id && "#" + it.id}${[...it.classList].map((one) => "." + one).join("")}`;
  const opacity = (it) => (it === null ? 1 : Number(getComputedStyle(it).opacity) * opacity(it.parentElement));
  const faults = [];
  let texts = 0, edges = 0, men = 0;

  function text(it, pseudo) {
    const style = getComputedStyle(it, pseudo);
    const size = parseFloat(style.fontSize);
    const isLarge = size >= 24 || (size >= 18.66 && Number(style.fontWeight) >= 700);
    const colour = parsed(style.color);
    const had = ratio(over({...colour, a: colour.a * opacity(it)}, ground(it)), ground(it));
    texts += 1;
    if (had < (isLarge ? 3 : 4.5)) faults.push(`text ${name(it)}${pseudo || ""} ${had.toFixed(2)}: ${it.textContent.trim().slice(0, 20)}`);
  }

  function edge(it) {
    const style = getComputedStyle(it);
    const around = ground(it.parentElement);
    const line = parseFloat(style.borderTopWidth) > 0 ? ratio(over(parsed(style.borderTopColor), around), around) : 0;
    const had = Math.max(line, ratio(ground(it), around));
    edges += 1;
    if (had < 3) faults.push(`edge ${name(it)} ${had.toFixed(2)}`);
  }

  for (const it of document.body.querySelectorAll("*")) {
    if (!isSeen(it) || isOff(it) || it.closest("svg, option")) continue;
    if ([...it.childNodes].some((one) => one.nodeType === 3 && one.data.trim() !== "")) text(it);
    if (it.matches("input:not([type=checkbox], [type=file]), select, textarea") && (it.value !== "" || it.tagName === "SELECT")) text(it);
    for (const pseudo of ["::before", "::after"]) {
      if (/^"[^"]+"$/.test(getComputedStyle(it, pseudo).content)) text(it, pseudo);
    }
    if (it.matches("button:not(.move), input:not([type=checkbox], [type=file]), select, textarea")) edge(it);
  }

  /* The men on their squares by their bodies or their outlines, and the edge of the last move on its squares and beside plain ones. */
  const plain = ["light", "dark"].map((it) => document.querySelector(`.square.${it}:not(.last, .check, .picked)`))
    .filter(Boolean).map(ground);
  function man(letter, cell, {fill, stroke}) {
    const isWhite = letter === letter.toUpperCase();
    const had = Math.max(ratio(parsed(fill), ground(cell)), isWhite ? ratio(parsed(stroke), ground(cell)) : 0);
    men += 1;
    if (had < 3) faults.push(`man ${letter} on ${cell.dataset.square} ${had.toFixed(2)}`);
  }

  for (const it of document.querySelectorAll(".square .piece")) {
    man(it.dataset.piece, it.closest(".square"), getComputedStyle(it.querySelector(".body")));
  }
  /* Those of a round are images, which have their colours in them. */
  for (const it of document.querySelectorAll(".images .square")) {
    const image = decodeURIComponent(getComputedStyle(it).backgroundImage);
    const [, fill, stroke] = /class="body" fill="([^"]+)" stroke="([^"]+)"/.exec(image) || [];
    if (fill !== undefined) man(it.dataset.man, it, {fill, stroke});
  }
  for (const it of document.querySelectorAll(".square.last")) {
    const line = parsed((/rgba?\\([^)]*\\)|color\\([^)]*\\)/.exec(getComputedStyle(it).boxShadow) || ["rgba(0, 0, 0, 0)"])[0]);
    const had = Math.min(...[ground(it), ...plain].map((one) => ratio(over(line, one), one)));
    if (had < 3) faults.push(`last move on ${it.dataset.square} ${had.toFixed(2)}`);
  }
  return {texts, edges, men, faults};
})()"""


# The same in the frame that is shown.
IN_FRAME = f'document.querySelector(".shown iframe").contentWindow.eval({json.dumps(SCRIPT)})'


class Count:
    texts = edges = men = 0


async def looked_at(page, what, script=SCRIPT, has_controls=True):
    for scheme in ("light", "dark"):
        await page.scheme(scheme)
        had = await page.run(script)
        assert had["texts"] > 10 and (had["edges"] > 0) == has_controls, (what, had)
        Count.texts += had["texts"]
        Count.edges += had["edges"]
        Count.men += had["men"]
        assert not had["faults"], f"{what}, {scheme}: {json.dumps(had['faults'], ensure_ascii=False, indent=1)}"


async def try_contrast(browser):
    """Texts have a contrast of 4.5:1, edges of controls, men and the last move of 3:1, in both themes, on all pages."""
    relay = await Relay().start()
    idle = await browser.open(url("table.html", server=relay.address))
    await looked_at(idle, "table, idle")
    table = await open_table(browser, relay, "b1", 518)
    for ply, move in enumerate(["g1f3", "g8f6", "f3g1", "f6g8"], 1):
        await enter(table, move, "type")
        await until_moves(table, ply)
    await enter(table, "e2e5", "type")
    await table.until('!document.querySelector("#said").hidden && !document.querySelector("#near").hidden')
    await table.run('document.querySelectorAll("details").forEach((it) => { it.open = true; })')
    await looked_at(table, "table, playing")
    seer = await watch(browser, relay, "b1")
    await until_moves(seer, 4)
    await seer.run('document.querySelectorAll("details").forEach((it) => { it.open = true; })')
    await looked_at(seer, "watch")
    await table.click("#ending [data-how=agreed]")
    await table.until('document.querySelector("#sure").open')
    await table.click("#sure .main")
    await until_state(table, "over")
    await looked_at(table, "table, over")
    client = await Client.to(relay.address)
    round_page = await look_at_round(browser, relay, client)
    await look_at_tabs(browser, relay)
    print(f"    {Count.texts} texts, {Count.edges} edges and {Count.men} men")
    for style, fault in (("--soft: #999", "text "), ("--field: #ccc", "edge "), ("--last-edge: #8a8", "last move "),
                         ("--dark: #445", "man ")):
        await seer.scheme("light")
        await seer.run(f'document.documentElement.style = "{style}"')
        assert any(it.startswith(fault) for it in (await seer.run(SCRIPT))["faults"]), f"{style} was not noticed"
    await round_page.scheme("light")
    await round_page.run('document.documentElement.style = "--dark: #445"')
    assert any(it.startswith("man ") for it in (await round_page.run(SCRIPT))["faults"]), "dark squares of a round were not noticed"
    for page in (idle, table, seer, round_page):
        assert not page.faults, page.faults
        await page.close()
    await client.close()


async def look_at_round(browser, relay, client):
    """The page of a round, with a board that is over, one that has a new move, and one that is not open yet; without a connection; and in a
    hall."""
    await client.open("b2")
    await client.submit("b2", "e2e4")
    wire = await Wire(relay.port).mend()
    address = url("round.html", server=wire.address, boards="b1,b2,b3", players="Carlsen–Caruana")
    page = await browser.open(address)
    await page.until('document.querySelectorAll(".tile[data-state=live], .tile[data-state=over]").length === 2')
    await page.run('document.querySelector("#settings").open = true')
    await page.resize(390, 460)
    await page.hover(".tile:nth-child(2)")
    await page.run('scrollTo(0, document.body.scrollHeight)')  # What is out of sight stays new.
    await client.submit("b2", "e7e5")
    await page.until('document.querySelector(".tile.new .fresh") !== null')
    await looked_at(page, "round")
    assert await page.run('document.querySelector(".tile.new .fresh").textContent') == "1 new"
    hall = await browser.open(f"{address}&hall")
    await hall.until('document.querySelectorAll(".tile[data-state=live], .tile[data-state=over]").length === 2')
    await looked_at(hall, "hall", has_controls=False)
    await wire.cut()
    for it, what in ((page, "round"), (hall, "hall")):
        await it.front()
        await it.until('document.querySelectorAll(".tile[data-state=lost]").length === 2')
        await looked_at(it, f"{what}, no connection", has_controls=it is page)
    assert not hall.faults, hall.faults
    await hall.close()
    return page


async def open_tabs(browser, address, relay):
    """The page of tabs over HTTP, with a board that comes near a draw, one that is over, and one that has its start."""
    page = await browser.open(f"{address}/tables.html?server={relay.address}")
    await page.fill("#lines", "t1 518 Carlsen, Magnus – Caruana\nt2 518 So – Ding\nt3")
    await page.click("#source .main")
    await until_stand(page, *3 * ["White to move"])
    for index, moves in enumerate((["Nf3", "Nf6", "Ng1", "Ng8"], ["f3", "e5", "g4", "Qh4#"])):
        for count, move in enumerate(moves, 1):
            await play(page, index, move)
            await page.until(frame(index, f'return document_.querySelectorAll(".move[data-place]").length === {count}'))
    await page.until('[...document.querySelectorAll(".tab")].map((it) => it.dataset.wants).join() === "near,over,live"')
    return page


async def look_at_tabs(browser, relay):
    """The page of tabs and each of its frames: near a draw, over, at the start, and without a connection."""
    wire = await Wire(relay.port).mend()
    with site() as address:
        page = await open_tabs(browser, address, wire)
        await page.run('document.querySelector("#settings").open = true')
        for index in range(3):
            await page.run(f'document.querySelectorAll(".tab")[{index}].click()')
            await looked_at(page, f"tables, tab {index}")
            await looked_at(page, f"tables, frame {index}", IN_FRAME)
        await wire.cut()
        await page.until('document.querySelectorAll(".tab[data-wants=alarm]").length === 2')
        await looked_at(page, "tables, no connection")
        await looked_at(page, "tables, frame without a connection", IN_FRAME)
        assert not page.faults, page.faults
        await page.close()


NAMED = ["button", "textbox", "spinbutton", "combobox", "checkbox", "grid", "table", "gridcell", "cell", "region", "tab", "tablist",
         "tabpanel", "Iframe"]


async def names(page, **which):
    """The roles and names of the controls that a screen reader is told of, and of what holds them; of a frame, where its number is
    given."""
    nodes = (await page.call("Accessibility.getFullAXTree", **which))["nodes"]
    return [(it["role"]["value"], it["name"]["value"]) for it in nodes if it.get("role", {}).get("value") in NAMED and not it["ignored"]]


async def try_tabs_names(browser):
    """On the page of tabs each control has a name for a screen reader, in the frame that is shown too, and a tab names its frame."""
    relay = await Relay().start()
    with site() as address:
        page = await open_tabs(browser, address, relay)
        await page.run('document.querySelector("#settings").open = true')
        await page.run('document.querySelectorAll(".tab")[1].click()')
        had = await names(page)
        assert all(name for _, name in had), had
        assert [name for role, name in had if role == "tab"] == [
            "t1 Carlsen, Magnus–Caruana White to move. This position has occurred twice", "t2 So–Ding 0–1: Black wins by checkmate.",
            "t3 White to move"], had
        assert [it for it in had if it[0] in ("tablist", "tabpanel", "Iframe")] == [
            ("tablist", "Boards of the round"), ("tabpanel", "t2 So–Ding 0–1: Black wins by checkmate."), ("Iframe", "t2")], had
        assert [name for role, name in had if role == "button"] == ["Save PGN", "Open the boards"], had
        frames = (await page.call("Page.getFrameTree"))["frameTree"]["childFrames"]
        for index in (1, 2):
            await page.run(f'document.querySelectorAll(".tab")[{index}].click()')
            had = await names(page, frameId=frames[index]["frame"]["id"])
            assert len(had) > 70 and all(name for _, name in had), had
        assert not page.faults, page.faults
        await page.close()


# All elements of a page in their order, with those of the frames that are shown.
ELEMENTS = """const elements = (root) => [...root.querySelectorAll("*")].flatMap((it) => (
  it.tagName === "IFRAME" && it.checkVisibility({checkVisibilityCSS: true}) ? [it, ...elements(it.contentDocument)] : [it]));"""
FOCUSED = f"""(() => {{
  {ELEMENTS}
  const within = (it) => (it.tagName === "IFRAME" ? within(it.contentDocument.activeElement) : it);
  const it = within(document.activeElement);
  const style = getComputedStyle(it);
  return {{name: `${{it.tagName}} ${{it.id || it.className}}`, isPage: it === document.body, place: elements(document).indexOf(it),
          isRinged: it.matches(":focus-visible") && (style.outlineStyle !== "none" || style.boxShadow !== "none")}};
}})()"""
CONTROLS = f"""(() => {{
  {ELEMENTS}
  return elements(document).map((it, place) => [it, place]).filter(([it]) => it.tabIndex >= 0 && !it.disabled
    && it.matches("button, input, select, textarea, summary, a[href], [tabindex]") && it.checkVisibility({{checkVisibilityCSS: true}}))
    .map(([, place]) => place);
}})()"""


async def tabbed(page):
    """What the Tab key goes to, from the page's head to its foot."""
    await page.front()
    await page.run('document.body.tabIndex = -1; document.body.focus(); document.body.removeAttribute("tabindex")')
    stops = []
    while True:
        await page.press("Tab")
        stop = await page.run(FOCUSED)
        if stop["isPage"] or stop["place"] in [it["place"] for it in stops]:
            return stops
        stops.append(stop)


async def focus_faults(page):
    """What the Tab key misses, goes to out of order, or goes to without a ring, and how many stops it makes."""
    stops = await tabbed(page)
    places, wanted = [it["place"] for it in stops], await page.run(CONTROLS)
    faults = [f"no ring on {it['name']}" for it in stops if not it["isRinged"]]
    if places != wanted:
        faults.append(f"the Tab key goes to {[it['name'] for it in stops]}, by their places {places} and not {wanted}")
    return faults, len(stops)


async def try_focus(browser):
    """The Tab key goes to each control in sight, in the order in which they stand, and each shows that it has the focus."""
    relay = await Relay().start()
    table = await open_table(browser, relay, "b1", 518)
    await enter(table, "e4", "type")
    await until_moves(table, 1)
    seer = await watch(browser, relay, "b1")
    await until_moves(seer, 1)
    idle = await browser.open(url("table.html", server=relay.address))
    round_page = await browser.open(url("round.html", server=relay.address, boards="b1,b2"))
    await round_page.until('document.querySelectorAll(".tile[data-state=live]").length === 1')
    tables = await browser.open(url("tables.html", server=relay.address))
    with site() as address:
        tabs = await open_tabs(browser, address, relay)
        pages = ((table, 15), (seer, 9), (idle, 15), (round_page, 4), (tables, 4), (tabs, 18))
        counts = []
        for page, least in pages:
            faults, count = await focus_faults(page)
            assert not faults and count >= least, (await text(page, "h1"), count, faults)
            counts.append(count)
        print(f"    {', '.join(map(str, counts))} stops of the Tab key")
        for page, _ in pages:  # A table that is closed ends its game, which the others would show.
            assert not page.faults, page.faults
            await page.close()


# A fault that the checks must notice: what it does to a page, and what is said of it.
PLANTED_NAMES = [
    ('document.querySelector("#sounds").closest("label").replaceWith(document.querySelector("#sounds"))', "checkbox"),
    ('document.querySelector("#flip").replaceChildren(); document.querySelector("#flip").removeAttribute("title")', "button"),
    ('document.querySelector("[data-square=e4]").removeAttribute("aria-label"); '
     'document.querySelector("[data-square=e4]").replaceChildren()', "cell"),
]
PLANTED_FOCUS = [
    ('document.querySelector("#sounds").tabIndex = 1', "the Tab key goes to "),
    ('document.querySelector("#long").parentNode.style = "display: flex"; document.querySelector("#long").tabIndex = 2',
     "the Tab key goes to "),
    ('document.querySelector("#save-pgn").style.outline = "none"', "no ring on BUTTON save-pgn"),
]


async def try_planted(browser):
    """A control without a name, one that the Tab key reaches out of turn, and one whose focus cannot be seen are each noticed."""
    relay = await Relay().start()
    client = await Client.to(relay.address)
    await client.open("b1")
    await client.submit("b1", "e2e4")
    for script, role in PLANTED_NAMES:
        seer = await watch(browser, relay, "b1")
        await until_moves(seer, 1)
        assert all(name for _, name in await names(seer))
        await seer.run(f"{script}; 0")
        assert [it for it in await names(seer) if not it[1]] == [(role, "")], (script, await names(seer))
        await seer.close()
    for script, said in PLANTED_FOCUS:
        seer = await watch(browser, relay, "b1")
        await until_moves(seer, 1)
        await seer.run(f"{script}; 0")
        faults, _ = await focus_faults(seer)
        assert len(faults) == 1 and faults[0].startswith(said), (script, faults)
        await seer.close()
    await client.close()
