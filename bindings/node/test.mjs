// `npm test`

import assert from "assert";
import { dis, imports, List, ListFault, Refusal } from "./index.mjs";

const bytes = (text) => Buffer.from(text, "latin1");
const KEY = bytes("(dN\x85\x85\x85Ns."); // {(((None,),),): None}

function refused(list, pickle, message, call = "check") {
  assert.throws(() => list[call](pickle), (error) => {
    assert.strictEqual(error.message, message);
    return error instanceof Refusal;
  });
}

const none = List.of({});
const os = bytes("cos\nsystem\n(Vtouch /tmp/mark\ntR.");
refused(none, os, 'no at 0: ImportOffList("os","system")');
const accepted = List.of({ os: ["system"] }).check(os);
assert.deepStrictEqual(accepted, { taken: 32, imports: 1, pickles: 1 });
assert.deepStrictEqual(none.checkStream(bytes("N.N.")), { taken: 4, imports: 0, pickles: 2 });
refused(none, bytes("N.(."), "no in pickle 1 at 3: MissingItem", "checkStream");
refused(none, bytes(""), "no in pickle 0 at 0: Truncated", "checkStream");

// limits on costs; no key exceeds the last ones
for (const [levels, isRefused] of [[2, true], [3, false], [1023, false], [2 ** 40, false]]) {
  none.limits = { levels };
  if (isRefused) refused(none, KEY, "no at 7: DeepKey");
  else none.check(KEY);
}
for (const wrong of [{ levels: -1 }, { counted: -1 }, { stack: 1.5 }, { oldStrings: "utf-8" }]) {
  none.limits = wrong;
  assert.throws(() => none.check(KEY), /must|cannot be converted/);
}
none.limits = { oldStrings: "ascii" };
refused(none, bytes("U\x01\xff."), "no at 0: NotAscii");
none.limits = {};
none.check(bytes("U\x01\xff."));

const list = List.parse(`version = 2
[imports]
q = ["C.d"]
a = ["y", "x"]
[limits]
levels = 20
[rules]
build = "made"
[substitutes]
"q:C.d" = "s.t:e"
`);
const { levels, weight, builds } = list.limits;
assert.deepStrictEqual([levels, weight, builds], [20, undefined, false]);
assert.deepStrictEqual(list.substitutes, [["q:C.d", "s.t:e"]]);
for (const pickle of ["ca\nx\n.", "ca\ny\n.", "cq\nC.d\n."]) list.check(bytes(pickle));
refused(list, bytes("cq\nC\n."), 'no at 0: ImportOffList("q","C")');
assert.throws(() => List.parse("version = 9"), (error) => error instanceof ListFault);

// a name is compared with all its characters, and printed in ASCII
const marked = Buffer.from("\ufeffos", "utf-8");
const hidden = Buffer.concat([bytes("\x80\x04\x8c\x05"), marked, bytes("\x8c\x06system\x93.")]);
refused(List.of({ os: ["system"] }), hidden,
  String.raw`no at 17: ImportOffList("\xef\xbb\xbfos","system")`);
refused(List.parse('version = 1\n[imports]\n"\ufeffos" = ["system"]\n'), os,
  'no at 0: ImportOffList("os","system")');
assert.throws(() => List.of({ "\ud800": ["a"] }), TypeError);
assert.throws(() => List.of({ os: "system" }), TypeError);

const said = imports(bytes("\x80\x04cos\ngetcwd\n)R\x8c\x01a\x93cos\ngetcwd\n0."));
assert.deepStrictEqual(said.found, [
  { module: "os", name: "getcwd", count: 2 }, { module: null, name: null, count: 1 },
]);
assert.strictEqual(said.refusal, null);
assert.strictEqual(imports(bytes("cos\nsystem\nU")).refusal.message, "no at 11: Truncated");
assert.strictEqual(dis(bytes("N.")), "    0: 4e NONE\n    1: 2e STOP\nhighest protocol: 0\n");
assert.throws(() => none.check("N."), TypeError);
