// The page: it hands files and the list to the worker, and shows what that found.

import { Known } from "./dangers.js";
import { showImports } from "./imports.js";
import { Judge } from "./judging.js";
import { Listing } from "./listing.js";
import { EMPTY, keepInAddress, listInAddress, withPairs } from "./list.js";
import { counted, dotted, sentence, shown } from "./words.js";

const MOST_PARTS = 500;
const MOST_FINDINGS = 20;
const PAUSE = 250; // milliseconds after the last key, before the list is read

const get = (id) => document.getElementById(id);
const listing = new Listing(get("listing"));
let packed = null;
let code = null;
let known = null;
let judge = null;
let worker = null;
let pairs = [];
let isReadable = true;
let parts = [];
let chosen = -1;
let wantedListing = -1;
let fileName = "";
let isReading = false;
let isPermitted = false;

async function unpack(id) {
  const bytes = Uint8Array.from(atob(get(id).textContent.trim()), (it) => it.charCodeAt(0));
  const stream = new Blob([bytes]).stream().pipeThrough(new DecompressionStream("gzip"));
  return new Uint8Array(await new Response(stream).arrayBuffer());
}

// Starts another worker, which ends what the last one does.
function begin() {
  worker?.terminate();
  const place = URL.createObjectURL(new Blob([packed.worker], { type: "text/javascript" }));
  worker = new Worker(place);
  worker.onmessage = ({ data }) => handlers[data.kind](data);
  worker.onerror = (event) => handlers.failed({ why: event.message || "it can't start" });
  const told = { costs: packed.said.costs, known: packed.known, ...packed.formats };
  worker.postMessage({ kind: "begin", code, told, source: get("list").value });
}

const handlers = {
  ready: () => {
    if (!isReading) get("state").textContent = "No file has been read yet.";
  },
  failed: ({ why }) => {
    get("state").textContent = `The checker has failed: ${why}. Nothing is known of these files.`;
  },
  reading: ({ name }) => {
    get("state").textContent = `Reading ${shown(name)}…`;
  },
  list: ({ fault, pairs: found }) => {
    pairs = fault ? [] : found ?? [];
    isReadable = !fault;
    get("fault").textContent = fault ? `The list can't be read: ${fault}.` : tellDangers();
    get("listed").textContent = fault ? "" : `(${counted(pairs.length, "name")})`;
  },
  part: ({ part }) => {
    parts.push(judge.judged(part, pairs));
    if (parts.length <= MOST_PARTS) get("parts").append(partButton(parts.at(-1)));
    get("state").textContent = `${counted(parts.length, "part")} read so far…`;
  },
  verdict: ({ id, verdict }) => {
    parts[id] = judge.judged({ ...parts[id], verdict }, pairs);
    get("parts").children[id]?.replaceWith(partButton(parts[id]));
  },
  done: () => {
    if (parts.length > 0) showAnswer();
    else get("state").textContent = "These files are empty: there is nothing to read.";
  },
  listing: ({ id, bytes, problem }) => {
    if (id === chosen) showListing(bytes, problem);
  },
};

// A list that came with a link may permit what it shouldn't.
function tellDangers() {
  const found = pairs.filter(({ module, name }) => known.of(module, name).severity === "danger");
  if (found.length === 0) return "";
  const names = found.slice(0, 3).map(({ module, name }) => dotted(module, name)).join(", ");
  const rest = found.length > 3 ? ", …" : ".";
  return `It permits ${counted(found.length, "danger")}: ${names}${rest}`;
}

// The class of what shows a part, by its word.
function classOf({ word }) {
  return word.replace(" ", "-");
}

function partButton(part) {
  const button = document.createElement("button");
  const told = document.createElement("span");
  button.type = "button";
  button.className = classOf(part);
  button.textContent = `${shortPath(part)}${part.number > 1 ? `, pickle ${part.number}` : ""}`;
  told.textContent = tellShortly(part);
  button.append(told);
  button.setAttribute("aria-current", part.id === chosen);
  button.onclick = () => choose(part.id);
  return button;
}

// Where a part lies; the name of the file is said once if there is just one.
function shortPath({ path }) {
  const inner = path.slice(fileName.length + 3);
  return shown(fileName !== "" && path.startsWith(`${fileName} › `) ? inner : path);
}

function tellShortly({ word, kind, why }) {
  return `${word}, ${kind}${why ? `: ${shown(why)}` : ""}`;
}

function showAnswer() {
  get("answer").hidden = false;
  get("columns").classList.toggle("single", parts.length === 1);
  get("summary").textContent = judge.headline(parts);
  const cautions = [`${judge.counts(parts)}.`];
  if (parts.length > MOST_PARTS) {
    cautions.push(`The first ${MOST_PARTS} of ${parts.length} are shown.`);
  }
  get("caution").textContent = cautions.join(" ");
  const isKept = chosen >= 0 && chosen < parts.length;
  choose(isKept ? chosen : worst().id);
  get("state").textContent = "";
  if (isReading || isPermitted) get("summary").focus(); // what had the focus is gone
  isReading = isPermitted = false;
}

// The first part with the worst word.
function worst() {
  const place = ({ word }) => judge.words.indexOf(word);
  return parts.reduce((one, other) => (place(other) < place(one) ? other : one));
}

function choose(id) {
  chosen = id;
  const part = parts[id];
  for (const [at, button] of [...get("parts").children].entries()) {
    button.setAttribute("aria-current", at === id);
  }
  const behind = part.offset > 0 ? `, pickle ${part.number}, from byte ${part.offset}` : "";
  get("path").textContent = `${shown(part.path)}${behind}`;
  get("verdict").className = classOf(part);
  get("line").textContent = tellShortly(part);
  get("words").textContent = told(part);
  const findings = part.findings.slice(0, MOST_FINDINGS);
  get("findings").replaceChildren(...findings.map((it) => findingLine(it, part.why)));
  get("names").hidden = get("instructions").hidden = !part.any;
  if (!part.any) return;
  showNames();
  if (wantedListing !== id) askForListing(id);
  else listing.mark(placeOf(part));
}

function told({ isOther, isKept, any, verdict }) {
  if (!any || isKept) return "";
  if (isOther) return `${sentence(any)} No reader gets to an import.`;
  if (pairs.length > 0 || verdict.status > 1) return sentence(verdict);
  return any.status === 1 ? sentence(any) : "";
}

// A finding that the line above may have said already, and what to do about it.
function findingLine({ kind, name, why }, said) {
  const { severity, title, advice } = judge.kinds[kind];
  const [line, about] = [document.createElement("li"), document.createElement("b")];
  about.className = severity;
  about.textContent = `${title}. `;
  line.append(about, name ? `${shown(name)}: ` : "", why === said ? "" : `${sentenceOf(why)} `);
  for (const [at, text] of advice.split("`").entries()) {
    const part = document.createElement(at % 2 ? "code" : "span");
    part.textContent = text;
    line.append(part);
  }
  return line;
}

function sentenceOf(why) {
  const text = shown(why);
  return `${text.slice(0, 1).toUpperCase()}${text.slice(1)}${text.endsWith(".") ? "" : "."}`;
}

function placeOf({ any, verdict }) {
  const used = pairs.length > 0 ? verdict : any;
  return used.status === 1 ? used.at : null;
}

function askForListing(id) {
  wantedListing = id;
  get("listed-lines").textContent = "The instructions are being listed…";
  listing.show(new Uint8Array(), null);
  worker.postMessage({ kind: "listing", id });
}

function showListing(bytes, problem) {
  listing.show(bytes ?? new Uint8Array(), placeOf(parts[chosen]));
  const none = problem ? `They can't be listed: ${problem}.` : "They are too long for this page.";
  get("listed-lines").textContent = bytes ? `${counted(listing.count, "line")}.` : none;
}

function showNames() {
  showImports({ part: parts[chosen], known, pairs, filter: get("filter").value, permit });
}

function permit(more) {
  const source = isReadable ? get("list").value : EMPTY;
  get("list").value = withPairs(source, pairs, more);
  isPermitted = true;
  changeList();
}

let timer = 0;
function changeList() {
  clearTimeout(timer);
  const source = get("list").value;
  keepInAddress(source);
  worker.postMessage({ kind: "list", source });
}

function readFiles(files) {
  if (files.length === 0 || !worker) return;
  parts = [];
  fileName = files.length === 1 ? files[0].name : "";
  chosen = wantedListing = -1;
  get("parts").replaceChildren();
  get("answer").hidden = true;
  get("state").textContent = "Reading…";
  isReading = true;
  begin();
  worker.postMessage({ kind: "files", files: [...files] });
}

function listen() {
  const drop = get("drop");
  get("files").onchange = (event) => readFiles(event.target.files);
  get("filter").oninput = showNames;
  get("list").oninput = () => {
    clearTimeout(timer);
    timer = setTimeout(changeList, PAUSE);
  };
  get("shipped").onchange = (event) => {
    if (event.target.value) get("list").value = packed.lists[event.target.value];
    changeList();
  };
  document.ondragover = (event) => {
    event.preventDefault();
    drop.classList.add("over");
  };
  document.ondragleave = () => drop.classList.remove("over");
  document.ondrop = (event) => {
    event.preventDefault();
    drop.classList.remove("over");
    readFiles(event.dataTransfer.files);
  };
  window.onhashchange = () => {
    const source = listInAddress();
    if (source === null || source === get("list").value) return;
    get("list").value = source;
    changeList();
  };
}

async function start() {
  get("list").value = listInAddress() ?? EMPTY;
  packed = JSON.parse(new TextDecoder().decode(await unpack("packed")));
  code = await unpack("module");
  known = new Known(packed.known);
  judge = new Judge(packed.said, known);
  for (const name of Object.keys(packed.lists)) get("shipped").append(new Option(name, name));
  begin();
  listen();
}

start().catch((error) => handlers.failed({ why: `${error}` }));
