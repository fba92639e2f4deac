// Expressions: texts are taken apart and evaluated as cwltool does, references as Python does it and the rest as JavaScript.

const REFERENCE = /^\((\w+)((?:\.\w+|\['(?:[^']|\\')+'\]|\["(?:[^"]|\\")+"\]|\[[0-9]+\])*)\)$/;
const SEGMENTS = /\.(\w+)|\['((?:[^']|\\')+)'\]|\["((?:[^"]|\\")+)"\]|\[([0-9]+)\]/g;
const hasExpression = (it) => typeof it === "string" && (it.includes("$(") || it.includes("${"));
// An expression that never ends is ended, as cwltool's are after a minute.
const LONGEST = 300000;
// Keeps an expression from going through the names of all inputs, which have another order here than in cwltool.
const GUARD = `var deparohi_open = false;
inputs = new Proxy(inputs, { ownKeys: function (all) {
  if (deparohi_open) return Reflect.ownKeys(all);
  throw new Error("it goes through the names of all inputs, whose order is another one than in cwltool");
} });
`;

// Returns where the next expression, or backslash with what follows it, begins and ends.
function nextPart(text) {
  let start = 0;
  const stack = ["text"];
  for (let at = 0; at < text.length; at++) {
    const state = stack[stack.length - 1], it = text[at];
    if (state === "text") {
      if (it === "$" || it === "\\") stack.push(it);
    } else if (state === "\\") {
      stack.pop();
      if (stack[stack.length - 1] === "text") return [at - 1, at + 1];
    } else if (state === "$") {
      if (it === "(" || it === "{") {
        start = at - 1;
        stack.push(it);
      } else {
        stack.pop();
        at--;
      }
    } else if (state === "(" || state === "{") {
      if (it === state) stack.push(it);
      else if (it === (state === "(" ? ")" : "}")) {
        stack.pop();
        if (stack[stack.length - 1] === "$") return [start, at + 1];
      } else if (it === "'" || it === '"') stack.push(it);
    } else if (it === state) stack.pop();
    else if (it === "\\") stack.push("\\");
  }
  return stack.length > 1 && !(stack.length === 2 && "\\$".includes(stack[1])) ? fail(`an expression has no end: ${text.slice(start)}`) : null;
}

class Expressions {
  constructor(plan, inputs, runtime) {
    this.plan = plan;
    this.inputs = inputs;
    this.runtime = runtime;
    this.isOld = plan.version === "v1.0" || plan.version === "v1.1";
    this.known = null;
  }

  // The inputs as JavaScript, which change where files are staged.
  head() {
    if (this.known === null) this.known = `var inputs = ${javascriptText(this.inputs)};\n`;
    return this.known;
  }

  changed() {
    this.known = null;
  }

  // Evaluates a text; what has no expression is the text itself.
  value(text, self = null, strips = true) {
    return hasExpression(text) ? this.interpolated(strips ? text.trim() : text, self) : text;
  }

  interpolated(whole, self) {
    let text = whole, made = "", first = true;
    for (let part = nextPart(text); part; part = nextPart(text)) {
      let [start, end] = part;
      made += text.slice(0, start);
      if (text[start] === "$") {
        const value = this.evaluated(text.slice(start + 1, end), self);
        if (first && start === 0 && end === text.length) return value;
        made += typeof value === "string" ? value : pythonJson(value);
      } else if (this.isOld) made += text[end - 1];
      else if (["\\$(", "\\${"].includes(text.slice(start, end + 1))) {
        made += text.slice(start + 1, end + 1);
        end += 1;
      } else made += text[start + 1] === "\\" ? "\\" : text.slice(start, end);
      text = text.slice(end);
      first = false;
    }
    return made + text;
  }

  evaluated(code, self) {
    const found = REFERENCE.exec(code);
    if (found) {
      if (found[1] === "null" && !found[2]) return null;
      const value = this.referred(found[1], found[2], self);
      if (value !== undefined) return value;
    }
    if (!this.plan.javascript) fail(`$${code} has no value, and InlineJavascriptRequirement isn't required`);
    return this.ran(code, self);
  }

  // The value of a reference, or undefined where it has none, which leaves it to JavaScript.
  referred(name, segments, self) {
    let value = name === "inputs" ? this.inputs : name === "self" ? self : name === "runtime" ? this.runtime : undefined;
    for (const it of segments.matchAll(SEGMENTS)) {
      if (value === null || typeof value !== "object") return undefined;
      const key = it[1] ?? it[2] ?? it[3] ?? Number(it[4]);
      if (Array.isArray(value)) value = key === "length" ? value.length : typeof key === "number" ? value[key] : undefined;
      else value = typeof key === "string" && Object.prototype.hasOwnProperty.call(value, key) ? value[key] : undefined;
    }
    return value;
  }

  // Runs JavaScript strict, after expressionLib, in a context whose global is empty, and gets its value as JSON.
  ran(code, self) {
    const inner = code.length > 1 && code[0] === "{" ? code : `{return (${code});}`;
    const known = `${this.head()}var self = ${javascriptText(self)};\nvar runtime = ${javascriptText(this.runtime)};\n`;
    const [guard, open] = this.plan.guarded ? [GUARD, "deparohi_open = true; "] : ["", ""];
    const text = `"use strict";\n${this.plan.library.join("\n")}\n${known}${guard}(function (value) { ${open}return JSON.stringify(value); })((function()${inner})())`;
    const context = require("vm").createContext(Object.create(null), { codeGeneration: { strings: false, wasm: false } });
    let said;
    try {
      said = require("vm").runInContext(text, context, { timeout: LONGEST, filename: "expression" });
    } catch (error) {
      fail(`$${code.trim()}: ${error && error.name ? `${error.name}: ${error.message}` : error}`);
    }
    return typeof said === "string" ? received(JSON.parse(said)) : fail(`$${code.trim()} gives no value`);
  }
}
