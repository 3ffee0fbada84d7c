// The search box of the reference. It loads the index as the box is first used, and lists the headings that fit its words.
"use strict";
(() => {
  const root = new URL(".", document.currentScript.src);
  const form = document.querySelector("form[role=search]");
  const box = form.querySelector("input");
  const list = form.querySelector("ol");
  // As many results as are listed.
  const MOST = 50;
  let loading;

  /** The headings of all pages: each with its page, its name, its address and the first sentence below it. */
  function headings() {
    const pages = Object.entries(window.SEARCH_INDEX);
    return pages.flatMap(([page, found]) => found.map(([name, id, said]) => ({ page, name, said, href: new URL(`${page}.html#${id}`, root) })));
  }

  /** The headings, after the file of the index is loaded. */
  function load() {
    loading ??= new Promise((resolve, reject) => {
      const script = document.createElement("script");
      script.src = new URL("search_index.js", root);
      script.onload = () => resolve(headings());
      script.onerror = reject;
      document.head.append(script);
    });
    return loading;
  }

  /** How well a heading fits: 0 if it is the name that was typed, 3 if its sentence has the words, and nothing if it does not fit. */
  function rank(it, words) {
    const name = it.name.toLowerCase();
    const typed = words.join("_");
    const last = name.split("::").pop();
    if (typed === name || typed === last) {
      return 0;
    }
    if (last.startsWith(typed)) {
      return 1;
    }
    if (words.every((word) => name.includes(word))) {
      return 2;
    }
    const all = `${name} ${it.page} ${it.said}`.toLowerCase();
    return words.every((word) => all.includes(word)) ? 3 : undefined;
  }

  /** The headings that fit, the best first: of those that fit alike functions before definitions, and short names before long ones. */
  function fitting(all, words) {
    const keys = (it) => [rank(it, words), Number(it.page.startsWith("definitions/")), it.name.length];
    const ranked = all.map((it) => ({ it, keys: keys(it) })).filter(({ keys: [first] }) => first !== undefined);
    ranked.sort((one, other) => one.keys.reduce((found, key, at) => found || key - other.keys[at], 0));
    return ranked.slice(0, MOST).map(({ it }) => it);
  }

  /** An element with a text. */
  function element(kind, text) {
    const made = document.createElement(kind);
    made.textContent = text;
    return made;
  }

  /** A result: a link with the name, and behind it its page and its sentence. */
  function result(it) {
    const item = document.createElement("li");
    const link = document.createElement("a");
    link.href = it.href;
    link.append(element("code", it.name));
    item.append(link, " ", element("small", it.page), " ", element("span", it.said));
    return item;
  }

  /** Lists what fits the words in the box. */
  async function search() {
    const typed = box.value;
    const words = typed.toLowerCase().split(/\s+/).filter(Boolean);
    const found = words.length ? fitting(await load(), words) : [];
    if (box.value !== typed) {
      return;
    }
    list.replaceChildren(...found.map(result));
    list.hidden = !words.length;
    if (words.length && !found.length) {
      list.append(element("li", "No heading has all these words."));
    }
  }

  form.hidden = false;
  box.addEventListener("focus", load, { once: true });
  box.addEventListener("input", search);
  form.addEventListener("submit", (event) => {
    event.preventDefault();
    list.querySelector("a")?.click();
  });
  list.addEventListener("click", (event) => {
    list.hidden = Boolean(event.target.closest("a")) || list.hidden;
  });
})();
