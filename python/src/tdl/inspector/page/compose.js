// The form that composes a code: the server computes its check digit, and the page fills in the text.
import { byId, setOptions } from "/make.js";

const FIELDS = ["prefix", "lead", "reference", "serial", "piece", "total"];
const control = (name) => byId(`compose_${name}`);
const shown = (name, is) => { control(name).parentElement.hidden = !is; };
const capital = (text) => text.charAt(0).toUpperCase() + text.slice(1);

/** Shows the fields of a key type with a sample in them. */
function showFields(key) {
  shown("lead", key.lead !== "");
  shown("serial", key.serial);
  shown("piece", key.pieces);
  shown("total", key.pieces);
  document.querySelector("label[for=compose_lead]").textContent = capital(key.lead || "lead");
  document.querySelector("label[for=compose_reference]").textContent = capital(key.reference);
  for (const name of FIELDS) control(name).value = key.sample[name] ?? "";
  setOptions(control("filter"), key.filters.map((meaning, value) => [String(value), `${value}: ${meaning}`]));
  tell("");
}

/** Says how the fields are, and which of them is invalid. */
function tell(sentence, wrong = "") {
  const told = byId("compose_told");
  told.textContent = sentence;
  told.classList.toggle("failed", wrong !== "");
  for (const name of FIELDS) control(name).toggleAttribute("aria-invalid", false);
  if (wrong && control(wrong)) {
    control(wrong).setAttribute("aria-invalid", "true");
    control(wrong).focus();
  }
}

/** Begins: `filled` gets the text, the company prefix length and the filter value. */
export function beginCompose(keys, filled) {
  const kind = control("kind");
  const chosen = () => keys.find(({ name }) => name === kind.value);
  setOptions(kind, keys.map(({ name, title }) => [name, title]));
  kind.addEventListener("change", () => showFields(chosen()));
  byId("compose").addEventListener("submit", async (event) => {
    event.preventDefault();
    const asked = { kind: kind.value };
    for (const name of FIELDS) if (!control(name).parentElement.hidden) asked[name] = control(name).value;
    try {
      const reply = await fetch("/compose", { method: "POST", headers: { "Content-Type": "application/json" }, body: JSON.stringify(asked) });
      const answer = await reply.json();
      tell(answer.sentence ?? answer.error, answer.wrong ?? "");
      if (answer.text) filled(answer.text, String(answer.gcp), control("filter").value);
    } catch {
      tell("The server does not answer. Start it again by python3 -m tdl inspect.");
    }
  });
  showFields(chosen());
}
