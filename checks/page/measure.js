// What is wrong with the page as it is shown now: a list of texts, which is empty where nothing is.
(() => {
  const wrong = [], width = innerWidth;
  const told = it => (it.id ? "#" + it.id : it.tagName.toLowerCase() + "." + it.className) + " " +
    (it.textContent || "").slice(0, 40);
  // What is there for those alone who hear the page, and the link that only shows with the focus.
  const unseen = it => it.closest(".heard, .skip, script, style, noscript") !== null ||
    (it.closest("thead") !== null && getComputedStyle(it.closest("thead")).clipPath !== "none");
  const shown = [...document.body.querySelectorAll("*")].filter(it => !unseen(it) && it.getClientRects().length);

  function texts() {
    const walker = document.createTreeWalker(document.body, NodeFilter.SHOW_TEXT), found = [];
    while (walker.nextNode()) {
      const node = walker.currentNode, range = document.createRange();
      if (!node.data.trim() || unseen(node.parentElement)) continue;
      range.selectNodeContents(node);
      for (const box of range.getClientRects()) if (box.width > 0) found.push({node, in: node.parentElement, box});
    }
    return found;
  }

  // Nothing is cut off: no box and no text leaves the window's width or a box that hides what leaves it.
  if (document.documentElement.scrollWidth > width) wrong.push("it scrolls sideways");
  for (const it of shown) {
    const box = it.getBoundingClientRect();
    if (box.left < -0.5 || box.right > width + 0.5) wrong.push("beyond the window: " + told(it));
    if (getComputedStyle(it).textOverflow === "ellipsis") wrong.push("cut short: " + told(it));
  }
  const all = texts();
  for (const {in: it, box} of all) {
    if (box.left < -0.5 || box.right > width + 0.5) wrong.push("text beyond the window: " + told(it));
    for (let above = it; above !== null; above = above.parentElement) {
      const outer = above.getBoundingClientRect(), style = getComputedStyle(above);
      if (style.overflowX !== "visible" && above.parentElement !== null &&
          (box.left < outer.left - 1 || box.right > outer.right + 1)) wrong.push("text cut off: " + told(it));
      if (style.overflowY !== "visible" && above.parentElement !== null &&
          (box.top < outer.top - 1 || box.bottom > outer.bottom + 1)) wrong.push("text cut off below: " + told(it));
    }
  }

  // No text lies on another.
  const sorted = all.slice().sort((a, b) => a.box.top - b.box.top);
  sorted.forEach((one, at) => {
    for (let next = at + 1; next < sorted.length && sorted[next].box.top < one.box.bottom - 2; next++) {
      const other = sorted[next];
      const across = Math.min(one.box.right, other.box.right) - Math.max(one.box.left, other.box.left);
      if (other.node !== one.node && across > 1)
        wrong.push("one on another: " + told(one.in) + " / " + told(other.in));
    }
  });

  // Each text has 4.5 to 1 before what is behind it (WCAG 2.2, 1.4.3).
  const numbers = colour => colour.match(/[\d.]+/g).map(Number);
  const linear = part => part <= 0.04045 ? part / 12.92 : ((part + 0.055) / 1.055) ** 2.4;
  const light = colour => {
    const [r, g, b] = numbers(colour).map(it => linear(it / 255));
    return 0.2126 * r + 0.7152 * g + 0.0722 * b;
  };
  const behind = it => {
    for (let above = it; above !== null; above = above.parentElement) {
      const colour = getComputedStyle(above).backgroundColor, alpha = numbers(colour)[3];
      if (alpha === undefined || alpha === 1) return colour;
      if (alpha !== 0) wrong.push("half transparent: " + told(above));
    }
    return "rgb(255, 255, 255)";
  };
  for (const it of new Set(all.map(text => text.in))) {
    const [one, other] = [light(getComputedStyle(it).color), light(behind(it))].sort((a, b) => b - a);
    const ratio = (one + 0.05) / (other + 0.05);
    if (ratio < 4.5) wrong.push("pale, " + ratio.toFixed(2) + ": " + told(it));
  }

  // Each state has its word, and what is pressed is large enough (WCAG 2.2, 2.5.8).
  for (const it of document.querySelectorAll(".state, .life")) {
    if (!it.textContent.trim()) wrong.push("a state without a word");
    if (!it.getClientRects().length || getComputedStyle(it).visibility !== "visible")
      wrong.push("a state that isn't shown: " + told(it));
  }
  for (const it of document.querySelectorAll("nav a, button, input:not([type=hidden])"))
    if (it.getBoundingClientRect().height < 24) wrong.push("small: " + told(it));

  // It has the parts by which it is heard.
  const one = (what, selector) => {
    const count = document.querySelectorAll(selector).length;
    if (count !== 1) wrong.push(count + " times " + what);
  };
  for (const it of ["h1", "main", "header", "footer", "html[lang]", "title"]) one(it, it);
  for (const it of document.querySelectorAll("table")) {
    if (!it.caption || !it.caption.textContent.trim()) wrong.push("a table without a caption");
    if (it.querySelector("th:not([scope])")) wrong.push("a head without a scope");
  }
  for (const it of document.querySelectorAll("input:not([type=hidden])"))
    if (!it.labels.length) wrong.push("a field without a label");
  let level = 0;
  for (const it of document.querySelectorAll("h1, h2, h3, h4, h5, h6")) {
    if (Number(it.tagName[1]) > level + 1) wrong.push("a heading out of its order: " + told(it));
    level = Number(it.tagName[1]);
  }
  const ids = [...document.querySelectorAll("[id]")].map(it => it.id);
  if (new Set(ids).size !== ids.length) wrong.push("an id twice");
  if (document.title === "harmed") wrong.push("what a broker said was taken for HTML");
  return wrong.slice(0, 12);
})()
