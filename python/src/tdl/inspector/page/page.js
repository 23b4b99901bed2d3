// The page of the inspector: it asks the server what a text says, and shows the answer.
import { byId, make, say, setOptions } from "/make.js";
import { beginCompose } from "/compose.js";
import { count, showLines } from "/lines.js";
import { showText } from "/text.js";

const WAIT = 120;
const PATIENCE = 8_000;
const MOST_IN_ADDRESS = 200_000;
const MOST_IN_FIELD = 20_000;
const MOST_BYTES = 8_000_000;
const CHOICES = ["tables", "gcp", "filter", "encoding", "stem", "keys_only", "target"];
const FORMS = {
  canon: "canonical link",
  raw: "scanner output",
  bracketed: "label text",
  hex: "tag bits",
  tag: "EPC tag URI",
  pure: "EPC identity URI",
  link: "GS1 Digital Link",
};

const result = byId("result");
let timer = 0;
let asking = null;
let words = {};
let held = null;

/** Marks the controls that a form needs. */
function markNeeds(readings) {
  const needed = new Set(readings.flatMap(({ forms }) => forms.map(({ need }) => need)));
  for (const name of ["gcp", "filter"]) byId(name).parentElement.classList.toggle("needed", needed.has(name));
}

/** Names the filter values by their meanings for the key that was read. */
function nameFilters(meanings) {
  const values = Array.from({ length: 8 }, (_, value) => [String(value), meanings[value] ? `${value}: ${meanings[value]}` : String(value)]);
  setOptions(byId("filter"), [["", "none"], ...values]);
}

function show(answer, asked) {
  const isMany = answer.kind === "lines";
  setOptions(byId("encoding"), [["", "any"], ...answer.encodings.map((name) => [name, name])]);
  byId("target_control").hidden = !isMany;
  markNeeds(isMany ? [] : answer.readings);
  nameFilters(isMany ? [] : answer.readings[0]?.filters ?? []);
  const { text, ...others } = asked;
  result.replaceChildren(...(isMany ? showLines(answer, text.split("\n"), FORMS, words, others) : showText(answer)));
}

function question() {
  const asked = { text: held ? held.text : byId("text").value };
  for (const name of CHOICES) {
    const control = byId(name);
    const value = control.type === "checkbox" ? control.checked : control.value;
    if (value && value !== control.dataset.usual) asked[name] = value;
  }
  return asked;
}

async function ask() {
  const asked = question();
  byId("examples").hidden = asked.text !== "";
  asking?.abort();
  if (asked.text === "") {
    result.replaceChildren();
    return settle("");
  }
  asking = new AbortController();
  const { signal } = asking;
  const late = setTimeout(() => say("There is no answer yet. The page needs the built program; bin/build builds it.", true), PATIENCE);
  try {
    const reply = await fetch("/inspect", {
      method: "POST", headers: { "Content-Type": "application/json" }, body: JSON.stringify(asked), signal,
    });
    const answer = await reply.json();
    if (answer.error) {
      result.replaceChildren();
      return settle(answer.error, true);
    }
    show(answer, asked);
    const isKept = isInAddress(asked.text);
    settle(isKept ? answer.sentence : `${answer.sentence} The address bar cannot hold this text.`, false, !isKept);
  } catch (error) {
    if (error.name !== "AbortError") settle("The server does not answer. Start it again by python3 -m tdl inspect.", true);
  } finally {
    clearTimeout(late);
  }
}

function settle(sentence, isFailed = false, isShown = true) {
  say(sentence, isFailed, isShown);
  result.setAttribute("aria-busy", "false");
}

const isInAddress = (text) => !held && text.length <= MOST_IN_ADDRESS;

/** Puts the shown text and its settings into the address bar. */
function keep() {
  const asked = question();
  const isHeld = asked.text !== "" && isInAddress(asked.text);
  history.replaceState(null, "", isHeld ? `#${new URLSearchParams(asked)}` : location.pathname);
}

function changed(wait = WAIT) {
  result.setAttribute("aria-busy", "true");
  clearTimeout(timer);
  timer = setTimeout(() => {
    keep();
    ask();
  }, wait);
}

/** Takes the lines of a file: into the field if they are few, otherwise next to it. */
function take(name, text) {
  const plain = text.replace(/\r\n?/g, "\n").replace(/\n+$/, "");
  held = plain.length > MOST_IN_FIELD ? { name, text: plain } : null;
  byId("text").value = held ? "" : plain;
  byId("held").hidden = !held;
  byId("held_name").textContent = held ? `${name}: ${count(plain.split("\n").length)} lines` : "";
  changed(0);
}

async function read(file) {
  if (!file) return;
  if (file.size > MOST_BYTES) {
    say(`${file.name} is larger than the page takes. Use python3 -m tdl csv.`, true);
    return;
  }
  take(file.name, await file.text());
}

/** Shows what the address bar holds. */
function restore() {
  const asked = new URLSearchParams(location.hash.slice(1));
  take("", "");
  clearTimeout(timer);
  byId("text").value = asked.get("text") ?? "";
  byId("keys_only").checked = asked.get("keys_only") === "true";
  const encoding = asked.get("encoding") ?? "";
  setOptions(byId("encoding"), [...new Set(["", encoding])].map((name) => [name, name || "any"]));
  for (const name of ["tables", "gcp", "filter", "encoding", "stem", "target"]) byId(name).value = asked.get(name) ?? byId(name).dataset.usual ?? "";
  result.setAttribute("aria-busy", "true");
  ask();
}

function beginFiles() {
  byId("open").addEventListener("click", () => byId("file").click());
  byId("file").addEventListener("change", ({ target }) => {
    read(target.files[0]);
    target.value = "";
  });
  byId("drop").addEventListener("click", () => {
    take("", "");
    byId("text").focus();
  });
  document.addEventListener("dragover", (event) => event.preventDefault());
  document.addEventListener("drop", (event) => {
    event.preventDefault();
    read(event.dataTransfer.files[0]);
  });
}

/** Fills in a text that was composed, with what its tag needs. */
function filled(text, gcp, filter) {
  take("", text);
  byId("gcp").value = gcp;
  byId("filter").value = filter;
}

async function begin() {
  const numbers = (first, last) => Array.from({ length: last - first + 1 }, (_, at) => String(first + at));
  setOptions(byId("gcp"), [["", "unknown"], ...numbers(1, 12).map((it) => [it, it === "1" ? "1 digit" : `${it} digits`])]);
  nameFilters([]);
  setOptions(byId("target"), Object.entries(FORMS));
  byId("question").addEventListener("submit", (event) => event.preventDefault());
  byId("text").addEventListener("input", () => {
    held = null;
    byId("held").hidden = true;
  });
  byId("question").addEventListener("input", () => changed());
  window.addEventListener("hashchange", restore);
  beginFiles();
  const choices = await (await fetch("/choices")).json();
  words = choices.reasons;
  byId("tables").dataset.usual = choices.sets[0].name;
  setOptions(byId("tables"), choices.sets.map(({ name, title }) => [name, title]));
  beginCompose(choices.keys, filled);
  restore();
}

begin().catch(() => say("The server does not answer. Start it again by python3 -m tdl inspect.", true));
