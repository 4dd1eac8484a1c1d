// The word, the kind and the findings of a part, by the rules of `storklocker scan`. What the words
// are, how bad a finding is and what to do about it come from the package, by page/make.

import { dotted, verdictLine } from "./words.js";

const [YES, NO, NO_LIST] = [0, 1, 2];
const GETATTR = "builtins.getattr";
const RISKS = { danger: "dangerous-import", warning: "risky-import", unknown: "unknown-import" };

const isIn = (listed, { module, name }) => listed.has(JSON.stringify([module, name]));

export class Judge {
  // said: `severities` and `words`, the worst first, `kinds` of findings, `headlines`, and what a
  // guard loads through substitutes: the `substituted` names, each as "module name", and whatever
  // is in the `packages`; known: what is known of names.
  constructor(said, known) {
    Object.assign(this, said, { known, substitutes: new Set(said.substituted) });
  }

  worst(findings) {
    const places = findings.map(({ kind }) => this.severities.indexOf(this.kinds[kind].severity));
    return places.length ? this.severities[Math.min(...places)] : "";
  }

  // The word for a part with these findings, of which the checker says `status`.
  word(status, findings) {
    const worst = this.worst(findings);
    if (worst === "danger" && ["unjudged", "unreadable"].includes(status)) return "dangerous";
    if (worst === "unreadable" && ["unjudged", "accepted", "undecided"].includes(status)) {
      return "unreadable";
    }
    const isMild = worst === "warning" || worst === "unknown";
    return isMild && ["unjudged", "code"].includes(status) ? worst : status;
  }

  // The line above all that was found.
  headline(parts) {
    const worst = this.worst(parts.flatMap(({ findings }) => findings));
    const word = this.words.find((it) => parts.some((part) => part.word === it)) ?? "no pickle";
    return this.headlines[worst] ?? this.headlines[word];
  }

  // How many parts have each word, the worst first.
  counts(parts) {
    return this.words
      .map((word) => [parts.filter((it) => it.word === word).length, word])
      .filter(([count]) => count > 0)
      .map(([count, word]) => `${count.toLocaleString("en")} ${word}`).join(", ");
  }

  // The part with its word, kind, line and findings. pairs: those of the list; none is no list.
  judged(part, pairs) {
    if (part.problem) {
      const findings = [{ kind: part.fault ?? "unreadable", why: part.problem }];
      return { ...part, word: "unreadable", why: part.problem, findings };
    }
    if (part.finding) {
      const findings = [{ kind: part.finding, why: part.why }];
      return { ...part, word: this.word("code", findings), findings };
    }
    if (part.isOther) return { ...part, word: "no pickle", why: part.why ?? "", findings: [] };
    const isListed = pairs.length > 0 && part.verdict.status !== NO_LIST;
    const listed = isListed
      ? new Set(pairs.map(({ module, name }) => JSON.stringify([module, name]))) : null;
    let findings = this.found(part, listed);
    let [status, why] = part.isKept
      ? this.kept(part, listed, findings) : this.status(part, listed, findings);
    const isSafe = part.hasMembers && !["refused", "unreadable"].includes(this.worst(
      findings.filter((it) => it.name !== GETATTR)));
    if (isSafe) findings = findings.filter((it) => it.name !== GETATTR);
    if (part.verdict.status === NO_LIST) why = verdictLine(part.verdict);
    if (part.raw) {
      status = status === "refused" ? status : "unreadable";
      findings.push({ kind: "raw-arrays", why: part.raw });
      why = `${part.raw}; what was read: ${why}`;
    }
    findings.sort((a, b) => this.place(a) - this.place(b));
    return { ...part, word: this.word(status, findings), why, findings };
  }

  place({ kind }) {
    return this.severities.indexOf(this.kinds[kind].severity);
  }

  // What the checker says, and its line. Adds the finding that goes with it.
  status(part, listed, findings) {
    const { any, verdict, costs } = part;
    if (listed === null) {
      if (any.status === YES) {
        return ["unjudged", verdictLine(any).replace("yes: ", "")];
      }
      findings.push({ kind: "broken-pickle", why: verdictLine(any) });
      return ["unreadable", verdictLine(any)];
    }
    if (verdict.isUsual) return ["refused", `no: ${costs.why}`];
    const line = verdictLine(verdict);
    if (verdict.status === NO) findings.push({ kind: "refused", why: line });
    if (verdict.status === NO) return ["refused", line];
    const off = part.isStream && part.imports.find((it) => !isIn(listed, it));
    if (off) {
      const why = `no: pickle.load imports ${dotted(off.module, off.name)} of this stream`;
      findings.push({ kind: "refused", why });
      return ["refused", why];
    }
    if (part.calls) {
      findings.push({ kind: "refused", why: part.calls });
      return ["refused", `no: ${part.calls}`];
    }
    const why = this.undecided(part, listed);
    if (why) findings.push({ kind: "undecided", why });
    return why ? ["undecided", why] : ["accepted", line];
  }

  // What one Unpickler imports that loads all pickles of a row. Adds the findings that go with it.
  kept({ imports }, listed, findings) {
    const name = dotted(imports[0].module, imports[0].name);
    const why = `one Unpickler that loads all pickles imports ${name}, and others don't`;
    findings.push({ kind: "differing-readings", why });
    if (listed === null) return ["unjudged", why];
    if (imports.every((it) => isIn(listed, it))) return ["accepted", why];
    findings.push({ kind: "refused", why });
    return ["refused", `no: ${why}`];
  }

  // Why only a load decides about an accepted pickle; empty if it doesn't.
  undecided({ imports, hasBuild }, listed) {
    const names = imports ?? [];
    const own = names.find((it) => this.isSubstituted(it.module, it.name));
    if (own) return `a guard loads ${own.module}.${own.name} through a substitute`;
    const isJudged = hasBuild && names.length > 0
      && [...listed].some((it) => this.isSubstituted(...JSON.parse(it)));
    return isJudged ? "under this list a guard judges each state that is set" : "";
  }

  isSubstituted(module, name) {
    const isPackage = this.packages.includes(module?.split(".", 1)[0]);
    return isPackage || this.substitutes.has(`${module} ${name}`);
  }

  // What is to be said of the imports and of what loading costs.
  found({ imports, costs, calls, any }, listed) {
    const findings = costs ? [costs] : [];
    if (calls && listed === null) findings.push({ kind: "called-answer", why: calls });
    if (imports === null) findings.push({ kind: "too-much", why: "it imports too many names" });
    for (const { module, name } of imports ?? []) {
      const { severity, why } = this.known.of(module, name);
      const isListed = listed && isIn(listed, { module, name }) && severity !== "danger";
      if (severity === "harmless" || isListed) continue;
      findings.push({ kind: module === null ? "hidden-import" : RISKS[severity], why,
        name: module === null ? "" : `${module}.${name}` });
    }
    if (any.reason === "UnknownImport" || any.reason === "ExtensionCode") {
      findings.push({ kind: "hidden-import", why: verdictLine(any) });
    }
    return findings;
  }
}
