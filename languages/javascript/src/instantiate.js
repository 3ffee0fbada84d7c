/** Modules of WebAssembly, which stand as texts in modules of JavaScript. */

/** The exports of a module, from its bytes in base 64. */
export function instantiate(text) {
  const bytes = Uint8Array.from(atob(text), (it) => it.charCodeAt(0));
  try {
    return new WebAssembly.Instance(new WebAssembly.Module(bytes)).exports;
  } catch (cause) {
    const hosts = "Chromium 115, Firefox 93, Safari 16.4 or node 20";
    throw new Error(`the module does not load here: it needs WebAssembly as ${hosts} have it`, { cause });
  }
}
