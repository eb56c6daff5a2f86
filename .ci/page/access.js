// What stands in the way of people who use the page by keys, by ear or on a small screen: a list of sentences, none where all is well.
// It looks at what is seen now. Numbers in brackets are of the success criteria of WCAG 2.2.
(() => {
  const problems = [];
  const nameOf = (it) => `<${it.tagName.toLowerCase()}${it.id ? ` id=${it.id}` : ""}${it.className?.length ? ` class="${it.className}"` : ""}>`;
  const wants = (isRight, what, it) => isRight || problems.push(it ? `${what}: ${nameOf(it)}` : what);
  const all = (selector) => [...document.querySelectorAll(selector)];
  const seen = (selector) => all(selector).filter((it) => it.checkVisibility({ visibilityProperty: true }));

  // Names and references (1.1.1, 1.3.1, 2.4.2, 2.4.6, 3.1.1, 4.1.2).
  const ids = all("[id]").map((it) => it.id);
  for (const id of new Set(ids)) wants(ids.filter((it) => it === id).length === 1, `the id ${id} stands twice`);
  for (const name of ["aria-controls", "aria-labelledby", "aria-describedby", "aria-activedescendant", "for"]) {
    for (const it of seen(`[${name}]`)) for (const id of it.getAttribute(name).split(" ")) wants(document.getElementById(id), `${name} leads nowhere`, it);
  }
  const textOf = (it) => (it?.textContent ?? "").trim();
  const labelOf = (it) => it.getAttribute("aria-label") || textOf(document.getElementById(it.getAttribute("aria-labelledby"))) || [...(it.labels ?? [])].flatMap((label) => [...label.childNodes].filter((node) => !node.contains(it)).map(textOf)).join("");
  for (const it of seen("select, textarea, input, progress, [role=listbox], [role=region], [role=img]")) wants(labelOf(it), "no label", it);
  for (const it of seen("button, summary, a, h1, h2, h3, h4, th, option")) wants(textOf(it) || it.getAttribute("aria-label"), "no text", it);
  for (const it of seen("svg")) wants(it.getAttribute("aria-hidden") || it.getAttribute("aria-label"), "a drawing without words", it);
  wants(document.documentElement.lang && document.title, "no language or title");
  wants(seen("main").length === 1 && seen("h1").length === 1, "not one main part with one heading");
  let last = 0;
  for (const it of seen("h1, h2, h3, h4, h5, h6")) {
    const level = Number(it.tagName[1]);
    wants(level <= last + 1, "a level of headings is left out", it);
    last = level;
  }
  for (const it of seen("table")) wants(it.querySelector("th"), "a table without heads", it);
  wants(document.querySelector("[aria-live=polite]") && document.querySelector("[role=alert]"), "nothing is read aloud (4.1.3)");

  // The keys (2.1.1, 2.4.3): what can be pressed can be reached.
  for (const it of all("[tabindex]")) wants(it.tabIndex <= 0, "an order of its own", it);
  for (const it of seen("[onclick], .rows")) wants(it.tabIndex >= 0, "it has no keys", it);
  for (const it of seen("*")) {
    const style = getComputedStyle(it);
    const isScrolled = /auto|scroll/.test(style.overflowY + style.overflowX) && (it.scrollHeight > it.clientHeight + 1 || it.scrollWidth > it.clientWidth + 1);
    const isReached = it.tabIndex >= 0 || it.querySelector("button, a, input, [tabindex]");
    if (isScrolled && it !== document.documentElement && it !== document.body) wants(isReached, "it scrolls, and not by keys", it);
  }

  // What can be pressed has 24 by 24 pixels at least (2.5.8).
  for (const it of seen("button, select, summary, textarea, .rows .item")) {
    const { width, height } = it.getBoundingClientRect();
    wants(width >= 24 && height >= 24, `only ${width.toFixed()} by ${height.toFixed()} pixels`, it);
  }

  // The edges of what can be pressed, and the mark of the focus, have a contrast of 3 (1.4.11).
  const parse = (it) => it.match(/[\d.]+/g).map(Number);
  const light = ([r, g, b]) => {
    const linear = (it) => ((it /= 255) <= 0.04045 ? it / 12.92 : ((it + 0.055) / 1.055) ** 2.4);
    return 0.2126 * linear(r) + 0.7152 * linear(g) + 0.0722 * linear(b);
  };
  const behind = (it) => {
    for (; it; it = it.parentElement) {
      const [r, g, b, a = 1] = parse(getComputedStyle(it).backgroundColor);
      if (a === 1) return [r, g, b];
    }
    return [255, 255, 255];
  };
  const contrast = (one, other) => {
    const [high, low] = [light(one), light(other)].sort((x, y) => y - x);
    return (high + 0.05) / (low + 0.05);
  };
  const edges = seen("button:not(:disabled):not(.quiet), select, textarea, #drop");
  for (const it of edges) {
    const { borderTopColor } = getComputedStyle(it);
    const own = Math.max(contrast(parse(borderTopColor), behind(it.parentElement)), contrast(behind(it), behind(it.parentElement)));
    wants(own >= 3, `the contrast of its edge is ${own.toFixed(2)}`, it);
  }
  const mark = parse(getComputedStyle(document.querySelector(".brand")).color);
  for (const it of edges) wants(contrast(mark, behind(it.parentElement)) >= 3, "the mark of the focus is hard to see", it);
  for (const [one, other] of [[".excerpt mark", ".excerpt"], [".drawing .faulty", ".drawing"], [".card", "body"]]) {
    const it = seen(one)[0];
    if (!it) continue;
    const style = getComputedStyle(it);
    const colour = it instanceof SVGElement ? style.stroke : one === ".card" ? style.borderLeftColor : style.borderBottomColor;
    wants(contrast(parse(colour), behind(document.querySelector(other))) >= 3, "its mark is hard to see", it);
  }

  // Nothing moves by itself (2.2.2, prefers-reduced-motion).
  wants(document.getAnimations().length === 0 && seen("*").every((it) => getComputedStyle(it).transitionDuration === "0s"), "something moves");
  return JSON.stringify(problems);
})();
