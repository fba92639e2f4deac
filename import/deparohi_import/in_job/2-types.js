// Types: what values are of them, and values as they are kept between jobs.

const FLOATS = ["float", "double"], TEXTS = ["string"], WHOLE = ["int", "long"];
const membersOf = (type) => (Array.isArray(type) ? type : [type]);
const nameOf = (it) => String(it).replace(/^.*[#/]/, "");
const fieldsOf = (type) => (Array.isArray(type.fields) ? type.fields : Object.entries(type.fields || {}).map(([name, it]) => (isObject(it) && it.type !== undefined && !["array", "enum", "record"].includes(it.type) ? { name, ...it } : { name, type: it })));

// Says whether a value is one of a type. Numbers with a fraction are Exact.
function fits(value, type) {
  if (Array.isArray(type)) return type.some((it) => fits(value, it));
  if (isObject(type)) {
    if (type.type === "array") return Array.isArray(value) && value.every((it) => fits(it, type.items));
    if (type.type === "enum") return typeof value === "string" && type.symbols.some((it) => nameOf(it) === value);
    if (type.type === "record") return isObject(value) && !isFile(value) && fieldsOf(type).every((it) => fits(value[it.name] === undefined ? null : value[it.name], it.type));
    return fits(value, type.type);
  }
  if (value === null || value === undefined) return type === "null";
  if (type === "Any") return true;
  if (type === "boolean") return typeof value === "boolean";
  if (FLOATS.includes(type)) return isNumber(value);
  if (WHOLE.includes(type)) return (isNumber(value) && (typeof value === "number" || value.isWhole)) && (type === "long" || Math.abs(Number(wordOf(value))) <= 2 ** 31);
  if (type === "string") return typeof value === "string";
  if (type === "stdin") return isFile(value) && value.class === "File";
  return isFile(value) && value.class === type;
}

// Says whether a number with a fraction is a bare text between jobs where a value has this type: where it can't be another text.
function isBare(type) {
  const kinds = membersOf(type);
  return kinds.some((it) => FLOATS.includes(it)) && !kinds.some((it) => it === "Any" || TEXTS.includes(it) || (isObject(it) && it.type === "enum"));
}

// The member of a type that lists, or records, are of.
const memberOf = (type, kind) => membersOf(type).find((it) => isObject(it) && it.type === kind);

// Reads a value as it is kept between jobs.
function decoded(value, type) {
  if (typeof value === "string" && isBare(type) && /^(-?[0-9]+(\.[0-9]+)?(e[-+]?[0-9]+)?|nan|-?inf)$/.test(value)) return new Exact(value);
  if (Array.isArray(value)) return value.map((it) => decoded(it, (memberOf(type, "array") || { items: "Any" }).items));
  if (!isObject(value) || isFile(value)) return value;
  const record = memberOf(type, "record");
  if (!record) return plainObject(Object.entries(value).map(([key, it]) => [key, decoded(it, "Any")]));
  const known = fieldsOf(record).map((it) => [it.name, value[it.name] === undefined || value[it.name] === null ? (it.default === undefined ? null : it.default) : decoded(value[it.name], it.type)]);
  const rest = Object.entries(value).filter(([key]) => !known.some(([name]) => name === key));
  return plainObject([...known, ...rest.map(([key, it]) => [key, decoded(it, "Any")])]);
}

// Writes a value as it is kept between jobs.
function encoded(value, type) {
  if (value === undefined) return null;
  if (value instanceof Exact) return isBare(type) ? value.text : value.isWhole && fits64(value.text) ? rawNumber(value.text) : { [NUMBER]: value.text };
  if (Array.isArray(value)) return value.map((it) => encoded(it, (memberOf(type, "array") || { items: "Any" }).items));
  if (!isObject(value) || isFile(value)) return value;
  const record = memberOf(type, "record"), types = new Map(record ? fieldsOf(record).map((it) => [it.name, it.type]) : []);
  const made = plainObject(Object.entries(value).map(([key, it]) => [key, encoded(it, types.has(key) ? types.get(key) : "Any")]));
  for (const key of types.keys()) if (!(key in made)) made[key] = null;
  return made;
}

const fits64 = (text) => BigInt(text) >= -(2n ** 63n) && BigInt(text) < 2n ** 63n;

// JSON has no way to write a whole number beyond 2^53 from JavaScript: a mark is put, and taken off in the text.
const MARK = "deparohi-whole-number:";
const rawNumber = (text) => MARK + text;
const jsonOf = (it) => JSON.stringify(it).replace(new RegExp(`"${MARK}(-?[0-9]+)"`, "g"), "$1");
