// The values of a job: as words and the folder of staged files bring them, as JavaScript sees them, and as Python would write them.
"use strict";
const fs = require("fs"), os = require("os"), path = require("path"), crypto = require("crypto");
// Numbers that JSON between jobs has no place for are objects of this one field.
const NUMBER = "deparohi:number";

// A number that keeps its text: one with a fraction, or a whole one beyond JavaScript's.
class Exact {
  constructor(text) {
    this.text = text;
  }
  get isWhole() {
    return /^-?[0-9]+$/.test(this.text);
  }
}

class Fault extends Error {}

function fail(words) {
  throw new Fault(words);
}

const isObject = (it) => it !== null && typeof it === "object" && !Array.isArray(it) && !(it instanceof Exact);
const isFile = (it) => isObject(it) && (it.class === "File" || it.class === "Directory");
const isNumber = (it) => typeof it === "number" || it instanceof Exact;
// An object on which every name is its own, as of an input that is called constructor.
const plainObject = (entries) => Object.assign(Object.create(null), Object.fromEntries(entries));

// Reads JSON, with the text of each number that has a fraction, or that JavaScript would round.
function parsed(text) {
  const exact = (it) => `{"${NUMBER}":"${/[.eE]/.test(it) ? pythonText(Number(it)) : it}"}`;
  const quoted = text.replace(/"(?:[^"\\]|\\.)*"|-?\d+(?:\.\d+)?(?:[eE][-+]?\d+)?/g, (it) => (it[0] === '"' || /^-?\d{1,15}$/.test(it) ? it : exact(it)));
  return JSON.parse(quoted, (_, it) => (isObject(it) ? freed(it) : it));
}

// Objects that JSON made have a prototype; these have none, so that no name is found on it.
function freed(it) {
  const keys = Object.keys(it);
  if (keys.length === 1 && keys[0] === NUMBER) return new Exact(String(it[NUMBER]));
  return plainObject(Object.entries(it));
}

// The text that Python gives a number with a fraction.
function pythonText(number) {
  if (Number.isNaN(number)) return "nan";
  if (!Number.isFinite(number)) return number > 0 ? "inf" : "-inf";
  const [mantissa, power] = number.toExponential().split("e");
  const exponent = Number(power);
  if (exponent < -4 || exponent >= 16) return `${mantissa}e${exponent < 0 ? "-" : "+"}${String(Math.abs(exponent)).padStart(2, "0")}`;
  const sign = mantissa[0] === "-" ? "-" : "", digits = mantissa.replace(/[-.]/g, "");
  if (exponent < 0) return `${sign}0.${"0".repeat(-exponent - 1)}${digits}`;
  const whole = digits.slice(0, exponent + 1).padEnd(exponent + 1, "0");
  return `${sign}${whole}.${digits.slice(exponent + 1) || "0"}`;
}

// What JavaScript gave, with its fractions as exact texts, and large numbers with the digits that JavaScript writes.
function received(it) {
  if (typeof it === "number") return Number.isInteger(it) && Math.abs(it) < 1e21 ? (Number.isSafeInteger(it) ? it : new Exact(String(it))) : new Exact(pythonText(it));
  if (Array.isArray(it)) return it.map(received);
  return isObject(it) ? plainObject(Object.entries(it).map(([key, value]) => [key, received(value)])) : it;
}

const LITERALS = { nan: "NaN", inf: "Infinity", "-inf": "-Infinity" };

// Writes a value as JavaScript, where no name is special.
function javascriptText(it) {
  if (it instanceof Exact) return LITERALS[it.text] || it.text;
  if (Array.isArray(it)) return `[${it.map(javascriptText).join(",")}]`;
  if (!isObject(it)) return it === undefined ? "null" : JSON.stringify(it).replace(/\u2028/g, "\\u2028").replace(/\u2029/g, "\\u2029");
  return `{${Object.entries(it).map(([key, value]) => `${key === "__proto__" ? '["__proto__"]' : JSON.stringify(key)}:${javascriptText(value)}`).join(",")}}`;
}

// Writes a text as Python's json does.
const pythonQuoted = (it) => JSON.stringify(it).replace(/[\u007f-\uffff]/g, (one) => `\\u${one.charCodeAt(0).toString(16).padStart(4, "0")}`);

// Writes JSON as Python's json does, with sorted names.
function pythonJson(it) {
  if (it instanceof Exact) return LITERALS[it.text] || it.text;
  if (typeof it === "string") return pythonQuoted(it);
  if (Array.isArray(it)) return `[${it.map(pythonJson).join(", ")}]`;
  if (!isObject(it)) return it === undefined ? "null" : JSON.stringify(it);
  const keys = Object.keys(it).sort();
  return `{${keys.map((key) => `${pythonQuoted(key)}: ${pythonJson(it[key])}`).join(", ")}}`;
}

// The text of a value in a word, as Python's str gives it.
function wordOf(it) {
  if (isFile(it)) return it.path === undefined ? fail(`a ${it.class} has no path`) : it.path;
  if (it instanceof Exact) return it.text;
  if (it === null || it === undefined) return "None";
  if (typeof it === "boolean") return it ? "True" : "False";
  return typeof it === "object" ? pythonJson(it) : String(it);
}

// Splits a name as Python's splitext does: leading periods are no extension.
function splitName(name) {
  const at = name.lastIndexOf(".");
  return at > 0 && /[^.]/.test(name.slice(0, at)) ? [name.slice(0, at), name.slice(at)] : [name, ""];
}

const urlOf = (it) => "file://" + it.split("/").map((part) => encodeURIComponent(part).replace(/[!'()*]/g, (one) => "%" + one.charCodeAt(0).toString(16).toUpperCase())).join("/");

// Gives a File or Directory its path and the names that follow from it.
function placed(it, at) {
  it.path = at;
  it.location = urlOf(at);
  it.basename = path.basename(at);
  it.dirname = path.dirname(at);
  if (it.class === "File") [it.nameroot, it.nameext] = splitName(it.basename);
  return it;
}

const exists = (at) => fs.existsSync(at);
const sumOf = (at) => {
  const sum = crypto.createHash("sha1"), room = Buffer.alloc(1 << 20), file = fs.openSync(at, "r");
  for (let got = 1; got > 0; ) {
    got = fs.readSync(file, room, 0, room.length, null);
    sum.update(room.subarray(0, got));
  }
  fs.closeSync(file);
  return "sha1$" + sum.digest("hex");
};

// The files that were staged for the job, by their names.
class Staged {
  constructor(folder) {
    this.names = new Map();
    for (const one of exists(folder) ? fs.readdirSync(folder) : [])
      for (const name of fs.readdirSync(path.join(folder, one))) this.names.set(name, [...(this.names.get(name) || []), path.join(folder, one, name)]);
  }

  // Where a File or Directory stands that was told without its path. One of the same name, size, sum and companions is as good.
  find(it) {
    let found = (this.names.get(it.basename) || []).filter((at) => fs.statSync(at).isDirectory() === (it.class === "Directory"));
    const companions = (it.secondaryFiles || []).map((one) => one.basename);
    found = found.filter((at) => companions.every((name) => exists(path.join(path.dirname(at), name))));
    if (it.class === "File") {
      found = found.filter((at) => fs.statSync(at).size === Number(wordOf(it.size)));
      if (found.length > 1) found = found.filter((at) => sumOf(at) === it.checksum);
    } else if (found.length > 1) found = found.filter((at) => sameListing(at, it.listing || []));
    return found.length ? found[0] : fail(`the staged file of ${it.basename} isn't found`);
  }
}

function sameListing(at, listing) {
  const names = fs.readdirSync(at);
  return names.length === listing.length && listing.every((it) => {
    const inner = path.join(at, it.basename);
    if (!exists(inner) || fs.statSync(inner).isDirectory() !== (it.class === "Directory")) return false;
    return it.class === "Directory" ? sameListing(inner, it.listing || []) : sumOf(inner) === it.checksum;
  });
}
