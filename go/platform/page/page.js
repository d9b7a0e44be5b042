"use strict";
// Refreshes the page as often as it says: fetches it anew, and changes what is different. All else stays, and with it
// the focus, what is typed, and the place to which it is scrolled. Without this script the browser loads the page anew.
(() => {
  const seconds = Number(document.documentElement.dataset.refresh);

  // Makes the old one like the new one, which may be used up.
  function change(old, fresh) {
    if (old.isEqualNode(fresh)) return;
    if (old.nodeName !== fresh.nodeName || old.id !== fresh.id || old.nodeType !== Node.ELEMENT_NODE) {
      old.replaceWith(fresh);
      return;
    }
    for (const {name} of [...old.attributes]) if (!fresh.hasAttribute(name)) old.removeAttribute(name);
    for (const {name, value} of fresh.attributes) if (old.getAttribute(name) !== value) old.setAttribute(name, value);
    const before = [...old.childNodes], after = [...fresh.childNodes];
    after.forEach((it, at) => at < before.length ? change(before[at], it) : old.append(it));
    before.slice(after.length).forEach(it => it.remove());
  }

  // The first link that is seen, unless that is the top of the page: there what is new may come in.
  function first() {
    const links = scrollY === 0 ? [] : [...document.querySelectorAll("main [id]")];
    return links.find(it => it.getBoundingClientRect().top >= 0) || null;
  }

  function put(fresh) {
    const focused = document.activeElement, held = first(), top = held && held.getBoundingClientRect().top;
    const id = held && held.id;
    change(document.body, fresh.body);
    if (!focused.isConnected)
      (document.getElementById(focused.id) || document.getElementById("main")).focus({preventScroll: true});
    const now = id && document.getElementById(id);
    if (now) scrollBy(0, now.getBoundingClientRect().top - top);
    document.title = fresh.title;
  }

  async function refresh() {
    if (document.hidden || String(getSelection())) return;
    try {
      const signal = AbortSignal.timeout && AbortSignal.timeout(10000);
      const answer = await fetch(location.href, {cache: "no-store", signal});
      if (!answer.ok) throw new Error(answer.statusText);
      put(new DOMParser().parseFromString(await answer.text(), "text/html"));
    } catch (error) {
      document.getElementById("trouble").textContent = "The platform doesn't answer. What stands here is older.";
    }
  }

  async function turn() {
    await refresh();
    setTimeout(turn, seconds * 1000);
  }

  if (seconds) {
    setTimeout(turn, seconds * 1000);
    document.addEventListener("visibilitychange", refresh);
  }
})();
