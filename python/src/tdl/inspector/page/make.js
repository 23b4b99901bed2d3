// Elements of the page: texts are set as text, never as HTML.

const UNSEEN = /([\u0000-\u001f\u007f-\u00a0\u00ad\u061c\u200b-\u200f\u2028-\u202e\u2060-\u2069\ufeff])/u;
const SHOWN = 2_000;
const HELD = 60_000;
const SVG = "http://www.w3.org/2000/svg";

export const byId = (id) => document.getElementById(id);

/** Returns an element with attributes and children; children that are texts become text nodes. */
export function make(name, attributes = {}, ...children) {
  const made = document.createElement(name);
  for (const [key, value] of Object.entries(attributes)) {
    if (typeof value === "function") made.addEventListener(key, value);
    else if (value !== undefined) made.setAttribute(key, value);
  }
  made.append(...children.flat());
  return made;
}

/** Returns a text in which characters that are not seen have names. */
export function seen(text) {
  return text.split(UNSEEN).filter(Boolean).map((part) => {
    if (!UNSEEN.test(part)) return part;
    const code = part.codePointAt(0);
    const name = code === 29 ? "FNC1" : code < 128 ? `byte ${code}` : `U+${code.toString(16).toUpperCase().padStart(4, "0")}`;
    return make("span", { class: "control-byte" }, name);
  });
}

/** Returns a text in colours; a wrong piece knows its first byte. */
export function coloured(pieces) {
  return pieces.map(({ text, at, role, label }) => role === "error"
    ? make("mark", { class: "piece error", title: `byte ${at}`, "data-byte": at }, seen(text))
    : make("span", { class: `piece ${role}`, title: label || undefined }, seen(text)));
}

/** Returns a table in a box that scrolls to the side; its rows are elements. */
export function table(kind, caption, heads, rows) {
  const made = make("table", { class: kind, "aria-label": caption },
    make("thead", {}, make("tr", {}, heads.map((head) => make("th", { scope: "col" }, head)))),
    make("tbody", {}, rows));
  return make("div", { class: "scroll" }, made);
}

/** Says a sentence to those who hear the page, and, unless the page shows it anyway, to those who see it. */
export function say(sentence, isFailed = false, isShown = true) {
  const status = byId("status");
  status.textContent = sentence;
  status.classList.toggle("failed", isFailed);
  status.classList.toggle("unseen", !isShown);
}

/** Returns a button that copies what `text` returns; the button itself says that it did. */
export function copyButton(text, name, shown = "Copy") {
  const hidden = () => make("span", { class: "unseen" }, ` ${name}`);
  const tell = (button, word) => {
    button.replaceChildren(word, hidden());
    setTimeout(() => button.replaceChildren(shown, hidden()), SHOWN);
  };
  return make("button", {
    type: "button",
    class: "copy",
    click: async ({ currentTarget }) => {
      try {
        await navigator.clipboard.writeText(text());
        tell(currentTarget, "Copied");
      } catch {
        tell(currentTarget, "Not copied");
        say(`The browser does not let the page copy the ${name}.`, true);
      }
    },
  }, shown, hidden());
}

/** Returns a link that downloads what `content` returns. */
export function downloadLink(file, type, content, ...shown) {
  const click = ({ currentTarget }) => {
    const address = URL.createObjectURL(new Blob([content()], { type }));
    currentTarget.href = address;
    setTimeout(() => URL.revokeObjectURL(address), HELD);
  };
  return make("a", { href: "#", download: file, class: "button", click }, ...shown);
}

/** Returns an SVG of dark modules on a white ground, which it also names for those who hear the page. */
export function drawing({ name, says, size, path }) {
  const node = (kind, attributes) => {
    const made = document.createElementNS(SVG, kind);
    for (const [key, value] of Object.entries(attributes)) made.setAttribute(key, value);
    return made;
  };
  const made = node("svg", { viewBox: `0 0 ${size} ${size}`, width: size * 4, height: size * 4, "shape-rendering": "crispEdges", role: "img", "aria-label": `${name} of ${says}` });
  made.append(node("rect", { width: size, height: size, fill: "#fff" }), node("path", { d: path, fill: "#000" }));
  return made;
}

/** Gives a select other options, and keeps its choice if it is still one. */
export function setOptions(select, pairs) {
  const chosen = select.value;
  select.replaceChildren(...pairs.map(([value, text]) => make("option", { value }, text)));
  select.value = pairs.some(([value]) => value === chosen) ? chosen : pairs[0]?.[0] ?? "";
}
