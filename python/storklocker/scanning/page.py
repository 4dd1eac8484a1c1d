"""The style and the script of the HTML page."""

STYLE = """
:root{color-scheme:light dark;--back:#fff;--text:#1f2328;--soft:#59636e;--line:#d1d9e0;
--panel:#f6f8fa;--red:#b3141d;--amber:#875400;--blue:#0a58ca;--green:#116329;--here:#ffe0e0}
@media(prefers-color-scheme:dark){:root{--back:#14181d;--text:#e6edf3;--soft:#9aa6b2;
--line:#363e48;--panel:#1d232b;--red:#ff8a85;--amber:#e6b35a;--blue:#84b6ff;--green:#7fd18b;
--here:#57242a}}
*{box-sizing:border-box}
body{margin:0;background:var(--back);color:var(--text);font:15px/1.5 system-ui,sans-serif}
main{max-width:80rem;margin:0 auto;padding:1rem}
h1{font-size:1.4rem;line-height:1.3;margin:0}h2{font-size:1.05rem;margin:1.2rem 0 .3rem}
header{border-left:.4rem solid var(--line);background:var(--panel);padding:.8rem 1rem}
header.refused,header.danger{border-color:var(--red)}header.accepted{border-color:var(--green)}
header.unreadable,header.undecided,header.warning{border-color:var(--amber)}
header.unknown,header.note{border-color:var(--blue)}
header p{margin:.2rem 0 0;color:var(--soft)}
.refused,.danger{color:var(--red)}.unreadable,.undecided,.warning{color:var(--amber)}
.unknown,.note{color:var(--blue)}.accepted{color:var(--green)}
header[class]{color:inherit}
.advice{margin:0;padding-left:1.2rem}
.filter{display:flex;flex-wrap:wrap;gap:.4rem;align-items:center;margin:1.2rem 0 .8rem}
button,input{font:inherit;color:inherit;background:var(--back);border:1px solid var(--line);
border-radius:.3rem;padding:.25rem .6rem;white-space:nowrap}
input{flex:1 1 12rem;min-width:0}button{cursor:pointer}
button[aria-pressed=true]{background:var(--text);color:var(--back)}
:focus-visible{outline:3px solid var(--blue);outline-offset:1px}
#count{color:var(--soft);white-space:nowrap}
table{border-collapse:collapse;width:100%}
td,th{padding:.5rem .6rem;text-align:left;vertical-align:top;border-bottom:1px solid var(--line)}
th{background:var(--panel);position:sticky;top:0;white-space:nowrap}
th button{border:0;background:none;padding:0;font-weight:600}
th button::after{content:" \\2195";color:var(--soft)}
th[aria-sort=ascending] button::after{content:" \\2191"}
th[aria-sort=descending] button::after{content:" \\2193"}
.verdict{font-weight:600}.verdict,.kind,.number{white-space:nowrap}.number{text-align:right}
.path{overflow-wrap:anywhere;width:30%}td:last-child{overflow-wrap:anywhere;width:55%}
td p{margin:0}.finding{margin:.5rem 0 0;padding-left:.7rem;border-left:3px solid var(--line)}
.finding ul{margin:.1rem 0;padding-left:1.1rem}.do{color:var(--soft)}
code,pre{font:13px/1.45 ui-monospace,monospace}
pre{background:var(--panel);padding:.6rem;margin:.3rem 0 0;overflow:auto;max-width:100%}
.here{background:var(--here)}details{margin-top:.4rem}summary{cursor:pointer;color:var(--soft)}
@media(max-width:50rem){thead{display:none}table,tbody,tr,td{display:block}
tr{border-bottom:1px solid var(--line);padding:.6rem 0}
td,.path,td:last-child{border:0;padding:.1rem 0;width:auto}
tr[hidden]{display:none}.kind,.number{display:inline-block;text-align:left;color:var(--soft);
padding-right:.8rem}.number::after{content:" bytes"}}
"""

SCRIPT = """
const rows = [...document.querySelectorAll('tbody tr')], body = document.querySelector('tbody');
const word = document.querySelector('#word'), count = document.querySelector('#count');
const choices = [...document.querySelectorAll('.filter button')];
let chosen = '';
function show() {
  const text = word.value.toLowerCase();
  let seen = 0;
  for (const row of rows) {
    row.hidden = (chosen && row.dataset.worst !== chosen)
      || (text && !row.textContent.toLowerCase().includes(text));
    seen += !row.hidden;
  }
  count.textContent = `${seen} shown`;
}
for (const button of choices)
  button.onclick = () => {
    chosen = button.dataset.worst;
    for (const other of choices) other.setAttribute('aria-pressed', other === button);
    show();
  };
word.oninput = show;
const heads = [...document.querySelectorAll('th')];
const value = (row, at) => row.children[at].dataset.value || row.children[at].textContent;
heads.forEach((head, at) => {
  const button = document.createElement('button');
  button.textContent = head.textContent;
  head.replaceChildren(button);
  button.onclick = () => {
    const way = head.getAttribute('aria-sort') === 'ascending' ? 'descending' : 'ascending';
    for (const other of heads) other.removeAttribute('aria-sort');
    head.setAttribute('aria-sort', way);
    rows.sort((a, b) => (way === 'ascending' ? 1 : -1) * value(a, at).localeCompare(
      value(b, at), undefined, {numeric: true}));
    body.append(...rows);
  };
});
show();
"""
