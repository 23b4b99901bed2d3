// What the page shows of many lines: counts, a table that renders only what is seen, and CSV.
import { copyButton, downloadLink, make, seen } from "/make.js";

const HEIGHT = 56;
const MORE = 8;
const MOST_CHARACTERS = 60;
const [NUMBER, FORM, ANSWER, REASON, SENTENCE] = [0, 1, 2, 3, 4];

export const count = (number) => number.toLocaleString("en");
const kindOf = (row) => row[REASON].split(" ", 1)[0];

/** Returns the rows as CSV, with the columns of `python3 -m tdl csv`. */
function csvOf(rows, lines, target) {
  const quoted = (text) => (/[",\r\n]/.test(text) ? `"${text.replaceAll('"', '""')}"` : text);
  const head = `text,text_${target === "canon" ? "link" : target},text_reason`;
  const body = rows.map((row) => [lines[row[NUMBER] - 1], row[ANSWER], row[REASON]].map(quoted).join(","));
  return `${[head, ...body].join("\r\n")}\r\n`;
}

function lineRow(row, lines, forms, asked, place) {
  const text = lines[row[NUMBER] - 1];
  const link = make("a", { href: `#${new URLSearchParams({ ...asked, text })}`, title: "Show only this line" }, String(row[NUMBER]));
  const answer = row[REASON] ? `no ${row[REASON]}` : row[ANSWER];
  return make("tr", { class: row[REASON] ? "wrong" : undefined, "aria-rowindex": place + 2, "data-line": row[NUMBER] },
    make("td", {}, link),
    make("td", { title: text }, make("code", {}, seen(text))),
    make("td", {}, forms[row[FORM]]),
    make("td", { title: row[SENTENCE] || answer },
      make("code", { class: "answer" }, seen(answer)),
      row[REASON] ? make("small", {}, row[SENTENCE]) : []));
}

/** A table of which only the rows in view are in the page. */
class Window {
  constructor(heads, makeRow) {
    this.makeRow = makeRow;
    this.made = new Map();
    const space = () => make("tr", { "aria-hidden": "true", class: "space" }, make("td", { colspan: heads.length }));
    [this.above, this.below] = [space(), space()];
    this.body = make("tbody", {}, this.above, this.below);
    this.columns = heads.map(() => make("col"));
    this.table = make("table", { class: "lines", "aria-label": "The lines" },
      make("colgroup", {}, this.columns),
      make("thead", {}, make("tr", { "aria-rowindex": 1 }, heads.map((head) => make("th", { scope: "col" }, head)))),
      this.body);
    this.box = make("div", { class: "scroll window", role: "region", "aria-label": "The lines", tabindex: "0" }, this.table);
    this.box.addEventListener("scroll", () => requestAnimationFrame(() => this.render()));
    new ResizeObserver(() => this.render()).observe(this.box);
  }

  /** Shows other rows, from the first on. */
  show(rows, widths) {
    this.rows = rows;
    this.made.forEach((row) => row.remove());
    this.made.clear();
    this.columns.forEach((column, place) => { column.style.width = widths[place]; });
    this.table.setAttribute("aria-rowcount", rows.length + 1);
    this.box.scrollTop = 0;
    this.render();
  }

  render() {
    const first = Math.max(0, Math.floor(this.box.scrollTop / HEIGHT) - MORE);
    const end = Math.min(this.rows.length, first + Math.ceil(this.box.clientHeight / HEIGHT) + 2 * MORE);
    for (const [place, row] of this.made) {
      if (place < first || place >= end) {
        row.remove();
        this.made.delete(place);
      }
    }
    let next = this.above.nextSibling;
    for (let place = first; place < end; place += 1) {
      let row = this.made.get(place);
      if (!row) this.made.set(place, row = this.makeRow(this.rows[place], place));
      if (row === next) next = next.nextSibling;
      else this.body.insertBefore(row, next);
    }
    this.above.firstChild.style.height = `${first * HEIGHT}px`;
    this.below.firstChild.style.height = `${(this.rows.length - end) * HEIGHT}px`;
  }
}

/** Returns a table of the reasons with their counts; its buttons show only the lines of one reason. */
function reasonTable(rows, words, choose) {
  const counts = new Map();
  for (const row of rows) counts.set(kindOf(row), (counts.get(kindOf(row)) ?? 0) + 1);
  const sorted = [...counts].sort(([, a], [, b]) => b - a);
  const button = (kind) => make("button", { type: "button", "aria-pressed": "false", "data-reason": kind, click: () => choose(kind) },
    "Show", make("span", { class: "unseen" }, ` the lines with the reason ${kind}`));
  return make("table", { class: "reasons", "aria-label": "Rejected lines by reason" },
    make("thead", {}, make("tr", {}, ["Reason", "Lines", "Show"].map((head) => make("th", { scope: "col" }, head)))),
    make("tbody", {}, sorted.map(([kind, number]) =>
      make("tr", { "data-reason": kind },
        make("th", { scope: "row" }, words[kind] ?? kind, " ", make("code", { class: "reason" }, kind)),
        make("td", { class: "number" }, count(number)),
        make("td", {}, button(kind))))));
}

/** Returns the widths of the columns: as wide as their longest text, up to a limit. */
function widths(rows, lines) {
  const longest = (lengths) => Math.min(MOST_CHARACTERS, Math.max(12, lengths.reduce((a, b) => Math.max(a, b), 0) + 2));
  const text = longest(rows.map((row) => lines[row[NUMBER] - 1].length));
  const answer = longest(rows.map((row) => Math.max(row[ANSWER].length, row[REASON] ? MOST_CHARACTERS : 0)));
  return ["4.5rem", `${text * 0.53 + 1}rem`, "9.5rem", `${answer * 0.53 + 1}rem`];
}

/** Returns the elements that show many lines. */
export function showLines(answer, lines, forms, words, asked) {
  const { rows, target, sentence } = answer;
  const rejected = rows.filter((row) => row[REASON]);
  const shown = new Window(["Line", "Text", "Form", "Answer or reason"], (row, place) => lineRow(row, lines, forms, asked, place));
  const only = make("input", { type: "checkbox", id: "only_rejected" });
  const counted = make("span", { class: "quiet", id: "shown_count", role: "status" });
  const columns = widths(rows, lines);
  let reason = "";
  const refresh = () => {
    const some = reason ? rejected.filter((row) => kindOf(row) === reason) : only.checked ? rejected : rows;
    counted.textContent = `${count(some.length)} of ${count(rows.length)} lines shown`;
    buttons().forEach((button) => button.setAttribute("aria-pressed", String(button.dataset.reason === reason)));
    shown.show(some, columns);
  };
  const choose = (kind) => {
    reason = reason === kind ? "" : kind;
    only.checked = only.checked || reason !== "";
    refresh();
  };
  only.addEventListener("change", () => {
    reason = "";
    refresh();
  });
  const reasons = rejected.length ? reasonTable(rejected, words, choose) : [];
  const buttons = () => (rejected.length ? reasons.querySelectorAll("button") : []);
  const csv = () => csvOf(rows, lines, target);
  queueMicrotask(refresh);
  return [
    make("h2", {}, sentence),
    rejected.length ? make("div", { class: "card" }, reasons) : [],
    make("div", { class: "actions" },
      make("span", { class: "tick" }, only, make("label", { for: "only_rejected" }, "Only rejected lines")),
      copyButton(csv, "CSV", "Copy CSV"),
      downloadLink("lines.csv", "text/csv;charset=utf-8", csv, "Download CSV"),
      counted),
    shown.box,
  ].flat();
}
