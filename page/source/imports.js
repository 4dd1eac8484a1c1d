// The table of a pickle's imports.

import { counted, dotted } from "./words.js";

const MOST = 500;
// a name of which nothing is known to do harm has no word: it may do some in a call of another
const TITLES = { danger: "dangerous", warning: "warning", unknown: "unknown", harmless: "" };
const ORDER = Object.keys(TITLES);

const get = (id) => document.getElementById(id);

function cell(row, text, kind = "") {
  const made = row.insertCell();
  made.textContent = text;
  made.className = kind;
  return made;
}

// The imports with what is known of each, the worst first.
function judged({ part, known, pairs, filter }) {
  const listed = new Set(pairs.map(({ module, name }) => JSON.stringify([module, name])));
  const word = filter.trim().toLowerCase();
  return (part.imports ?? [])
    .map((it) => ({
      ...it,
      text: dotted(it.module, it.name),
      isListed: listed.has(JSON.stringify([it.module, it.name])),
      ...known.of(it.module, it.name),
    }))
    .filter((it) => `${it.text} ${TITLES[it.severity]}`.toLowerCase().includes(word))
    .sort((a, b) => ORDER.indexOf(a.severity) - ORDER.indexOf(b.severity));
}

export function showImports(wanted) {
  const { part, permit } = wanted;
  const rows = judged(wanted);
  const off = rows.filter((it) => !it.isListed && it.severity !== "danger");
  get("imports").replaceChildren();
  for (const it of rows.slice(0, MOST)) addRow(it, permit);
  get("count").textContent = tell(part, rows);
  get("permit").hidden = off.length === 0;
  get("permit").onclick = () => permit(off);
}

function addRow(it, permit) {
  const row = get("imports").insertRow();
  cell(row, it.count > 1 ? `${it.text} (${it.count.toLocaleString("en")} times)` : it.text);
  const about = cell(row, "");
  const title = document.createElement("span");
  title.className = it.severity;
  title.textContent = TITLES[it.severity];
  about.append(title, title.textContent && it.why ? `: ${it.why}` : "");
  const last = cell(row, it.isListed ? "on the list" : "");
  if (it.isListed || it.module === null) return;
  const button = document.createElement("button");
  button.type = "button";
  button.textContent = "Permit";
  button.setAttribute("aria-label", `Permit ${it.text}`);
  button.onclick = () => permit([it]);
  last.append(button);
}

function tell(part, rows) {
  if (part.imports === null) return "There are too many imports to show.";
  const all = part.imports.length;
  const place = part.any.at.toLocaleString("en");
  const where = part.any.status === 0 ? "" : ` in front of byte ${place}`;
  if (all === 0) return `None${where}.`;
  const cut = rows.length > MOST ? `, of which ${MOST} are in the table` : "";
  const some = rows.length < all ? `${rows.length} of ` : "";
  return `${some}${counted(all, "import")}${where}${cut}.`;
}
