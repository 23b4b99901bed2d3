// What the page shows of one text: its elements, its forms, its symbols and its bits, or why no form reads it.
import { byId, coloured, copyButton, downloadLink, drawing, make, seen, table } from "/make.js";

const NEEDS = {
  gcp: "Choose the company prefix length",
  filter: "Choose the filter value",
  encoding: "Choose another encoding",
  keys_only: "Drop other elements",
};

/** Returns a value in colours, each part with its label below it, and what the value means. */
function value({ pieces, meaning, remark }) {
  const parts = make("div", { class: "parts" }, pieces.map(({ text, role, label }) =>
    make("span", { class: "part" },
      make("span", { class: `piece value ${role}` }, seen(text)),
      label ? make("small", {}, label) : [])));
  return [
    parts,
    meaning ? make("p", { class: "meaning" }, meaning) : [],
    remark ? make("p", { class: "remark" }, remark) : [],
  ].flat();
}

/** Goes to the control that a form needs, or sets it if there is only one way. */
function fill(need) {
  const control = byId(need);
  if (control.type === "checkbox") {
    control.checked = true;
    control.dispatchEvent(new Event("input", { bubbles: true }));
  }
  control.focus();
}

function formRow(form) {
  const name = make("h3", {}, form.name);
  if (form.text !== undefined) {
    return make("li", { class: "form", "data-form": form.form },
      name, make("code", { class: "text" }, coloured(form.pieces)), copyButton(() => form.text, form.name));
  }
  return make("li", { class: "form lacking", "data-form": form.form },
    name,
    make("p", { class: "missing" }, form.sentence, " ", make("code", { class: "reason" }, form.reason)),
    form.need ? make("button", { type: "button", click: () => fill(form.need) }, NEEDS[form.need]) : []);
}

function bitTable(rows) {
  return table("bits", "The fields of the tag bits", ["Field", "Bits", "Width", "Value"], rows.map(({ label, role, bits, width, value: says }) =>
    make("tr", {},
      make("th", { scope: "row" }, label),
      make("td", {}, make("code", { class: `piece ${role}` }, bits)),
      make("td", { class: "number" }, String(width)),
      make("td", {}, says))));
}

function elementTable(elements) {
  return table("elements", "The elements", ["AI", "Title", "Value"], elements.map((element) =>
    make("tr", { "data-code": element.code },
      make("th", { scope: "row" }, `(${element.code})`), make("td", {}, element.title), make("td", {}, value(element)))));
}

function symbol(shown) {
  if (shown.sentence) return make("p", {}, shown.sentence);
  const drawn = drawing(shown);
  return make("figure", { class: "symbol", "data-file": shown.file },
    drawn,
    make("figcaption", {},
      make("strong", {}, shown.name),
      make("code", {}, seen(shown.says)),
      make("span", { class: "quiet" }, `${shown.modules} by ${shown.modules} modules`),
      downloadLink(shown.file, "image/svg+xml", () => new XMLSerializer().serializeToString(drawn),
        "Download SVG", make("span", { class: "unseen" }, ` of the ${shown.name}`))));
}

function showReading(reading) {
  const parts = [
    make("h2", {}, `Read as ${reading.name}`),
    make("div", { class: "card" },
      make("code", { class: "text source" }, coloured(reading.pieces)),
      elementTable(reading.elements)),
    make("h2", {}, "All forms"),
    make("ul", { class: "card list" }, reading.forms.map(formRow)),
    make("h2", {}, "Symbols"),
    make("div", { class: "card symbols" }, reading.symbols.map(symbol)),
  ];
  if (reading.bits.length) {
    parts.push(make("h2", {}, `Tag bits: ${reading.encoding}`), make("div", { class: "card" }, bitTable(reading.bits)));
  }
  return make("section", { class: "reading", "data-form": reading.form, "aria-label": `Read as ${reading.name}` }, parts);
}

/** Returns a button that takes the set of tables that has the identifier. */
function setButton(name) {
  const click = () => {
    byId("tables").value = name;
    byId("tables").dispatchEvent(new Event("input", { bubbles: true }));
  };
  return make("button", { type: "button", class: "use-set", click }, `Use the set ${name}`);
}

function showError(error) {
  return make("li", { class: "rejected", "data-form": error.form },
    make("h3", {}, error.name),
    make("p", { class: "sentence" }, error.sentence, " ", make("code", { class: "reason" }, error.reason)),
    make("code", { class: "text" }, coloured(error.pieces)),
    error.sets.length ? make("div", { class: "actions" }, error.sets.map(setButton)) : []);
}

/** Returns the elements that show one text. */
export function showText({ readings, errors }) {
  const list = (some) => make("ul", { class: "card list" }, some.map(showError));
  if (!readings.length) {
    const [likely, ...others] = errors;
    return [make("h2", {}, "No form reads this text"), list([likely]), make("h2", {}, "As the other forms"), list(others)];
  }
  const others = make("details", { class: "others" }, make("summary", {}, "Why the other forms do not read it"), list(errors));
  return [...readings.map(showReading), errors.length ? others : []].flat();
}
