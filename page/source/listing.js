// A listing of any length: only the lines in view are in the page.

const LINE = 20; // pixels
const TALLEST = 8_000_000; // pixels; browsers refuse more
const LONGEST = 400; // characters of a line
const MARGIN = 10, ABOVE = 5;
const NEWLINE = 10;

const ascii = new TextDecoder("latin1");

// Where each line begins.
function startsOf(bytes) {
  let lines = 1;
  for (const byte of bytes) if (byte === NEWLINE) lines += 1;
  const starts = new Uint32Array(lines);
  let line = 1;
  for (let at = 0; at < bytes.length; at += 1) {
    if (bytes[at] === NEWLINE) starts[line++] = at + 1;
  }
  return starts;
}

export class Listing {
  // frame: the element that scrolls.
  constructor(frame) {
    this.frame = frame;
    this.tall = document.createElement("div");
    this.lines = document.createElement("ol");
    this.tall.append(this.lines);
    frame.replaceChildren(this.tall);
    frame.onscroll = () => this.draw();
    frame.onkeydown = (event) => this.key(event);
    this.watch = new ResizeObserver(() => this.draw());
    this.watch.observe(frame);
  }

  // bytes: the text; at: the offset whose line is marked and shown, if there is one.
  show(bytes, at) {
    this.bytes = bytes;
    this.starts = startsOf(bytes);
    this.count = this.starts.length - (bytes.at(-1) === NEWLINE || bytes.length === 0 ? 1 : 0);
    this.tall.style.height = `${Math.min(TALLEST, this.count * LINE)}px`;
    this.mark(at);
  }

  // Marks the line of an offset and brings it into view.
  mark(at) {
    this.marked = at === null || this.count === 0 ? -1 : this.lineAt(at);
    this.go(Math.max(0, this.marked - ABOVE));
  }

  text(line) {
    const from = this.starts[line];
    const to = line + 1 < this.starts.length ? this.starts[line + 1] - 1 : this.bytes.length;
    const kept = ascii.decode(this.bytes.subarray(from, Math.min(to, from + LONGEST)));
    const more = to - from - LONGEST;
    return more > 0 ? `${kept}… ${more.toLocaleString("en")} more` : kept;
  }

  // The line of the instruction at an offset; the last line says why it was refused.
  lineAt(offset) {
    let [low, high] = [0, this.count - 1];
    while (low < high) {
      const middle = Math.floor((low + high) / 2);
      const place = parseInt(this.text(middle), 10);
      if (Number.isNaN(place) || place >= offset) high = middle;
      else low = middle + 1;
    }
    return low;
  }

  get visible() {
    return Math.max(1, Math.floor(this.frame.clientHeight / LINE));
  }

  // The first line in view. A very long listing scrolls by more than its pixels.
  get first() {
    const most = this.tall.offsetHeight - this.frame.clientHeight;
    if (most <= 0) return 0;
    const hidden = Math.max(0, this.count - this.visible);
    return Math.min(hidden, Math.round((this.frame.scrollTop / most) * hidden));
  }

  go(line) {
    const most = this.tall.offsetHeight - this.frame.clientHeight;
    const hidden = Math.max(1, this.count - this.visible);
    this.frame.scrollTop = (Math.max(0, Math.min(line, hidden)) / hidden) * most;
    this.draw();
  }

  draw() {
    if (!this.bytes) return;
    const from = Math.max(0, this.first - MARGIN);
    const to = Math.min(this.count, this.first + this.visible + MARGIN);
    const lines = [];
    for (let line = from; line < to; line += 1) lines.push(this.element(line));
    const top = this.frame.scrollTop - (this.first - from) * LINE;
    this.lines.style.top = `${Math.max(0, top)}px`;
    this.lines.replaceChildren(...lines);
  }

  element(line) {
    const element = document.createElement("li");
    element.textContent = this.text(line);
    element.setAttribute("aria-posinset", line + 1);
    element.setAttribute("aria-setsize", this.count);
    if (line === this.marked) {
      element.className = "here";
      element.setAttribute("aria-current", "true");
    }
    return element;
  }

  key(event) {
    const page = this.visible - 1;
    const steps = { ArrowDown: 1, ArrowUp: -1, PageDown: page, PageUp: -page };
    const ends = { Home: 0, End: this.count };
    if (event.key in steps) this.go(this.first + steps[event.key]);
    else if (event.key in ends) this.go(ends[event.key]);
    else return;
    event.preventDefault();
  }
}
