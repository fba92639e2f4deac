// The inputs of the job: words become values, with paths, listings, contents and secondary files.

const MOST_CONTENTS = 64 * 1024;

// Visits each File and Directory in a value, the outer ones first.
function visit(value, act) {
  if (Array.isArray(value)) return value.forEach((it) => visit(it, act));
  if (!isObject(value)) return;
  if (isFile(value)) act(value);
  for (const key of isFile(value) ? ["secondaryFiles", "listing"] : Object.keys(value)) if (value[key] !== undefined) visit(value[key], act);
}

// Gives the Files of an input that was told as JSON their paths, and what cwltool says of an input file besides.
function located(value, staged) {
  visit(value, (it) => {
    if (it.path === undefined) placed(it, staged.find(it));
    for (const one of it.secondaryFiles || []) placed(one, path.join(path.dirname(it.path), one.basename));
    if (it.class === "Directory") delete it.listing;
    delete it.checksum;
  });
}

// A File or Directory that was told by its path alone.
function ofPath(at) {
  const state = fs.statSync(at), it = plainObject([["class", state.isDirectory() ? "Directory" : "File"]]);
  if (state.isFile()) it.size = state.size;
  return placed(it, at);
}

// Reads inputs that were told one by one: "+NAME" where one isn't null, "=NAME=JSON or text", and "@NAME PATH.." for a list of files.
function toldApart(plan, words) {
  const told = new Map(), present = new Set(), lists = new Map();
  for (let at = 0; at < words.length; at++) {
    const [kind, rest] = [words[at][0], words[at].slice(1)];
    if (kind === "+") {
      present.add(rest);
      at++;
    } else if (kind === "@") {
      const paths = [];
      while (at + 1 < words.length && words[at + 1][0] === "/") paths.push(words[++at]);
      lists.set(rest, paths);
    } else told.set(rest.slice(0, rest.indexOf("=")), rest.slice(rest.indexOf("=") + 1));
  }
  return plainObject(plan.inputs.map(({ name, type }) => {
    if (!present.has(name)) return [name, null];
    if (plan.lists.includes(name)) return [name, (lists.get(name) || []).map(ofPath)];
    const isText = membersOf(type).every((it) => it === "null" || it === "string" || it === "stdin" || (isObject(it) && it.type === "enum"));
    const isNumber = isBare(type) && !/^[\[{]/.test(told.get(name));
    return [name, isText ? told.get(name) : isNumber ? new Exact(told.get(name)) : parsed(told.get(name))];
  }));
}

// Files beside those of lists that were told by their paths: each belongs to the one file whose name, or a stem of it, it begins with.
function companions(plan, inputs, folder) {
  const primaries = [], taken = new Set(process.argv.slice(1, 3));
  visit(inputs, (it) => taken.add(it.path));
  for (const name of plan.lists) {
    const patterns = patternsOf(plan.inputs.find((it) => it.name === name).secondaryFiles).map((it) => it.pattern);
    for (const it of inputs[name] || []) if (it.class === "File") primaries.push(beside(it, patterns, taken));
  }
  for (const one of exists(folder) ? fs.readdirSync(folder) : []) {
    for (const name of fs.readdirSync(path.join(folder, one)).sort()) {
      const at = path.join(folder, one, name);
      if (!taken.has(at)) for (const it of ownersOf(name, primaries.filter((it) => it.dirname === path.join(folder, one)))) (it.secondaryFiles = it.secondaryFiles || []).push(ofPath(at));
    }
  }
}

// The primary file of a name: of those it may belong to, the one with the longest stem. A file that stands in several places is each of them.
function ownersOf(name, primaries) {
  const paths = new Set(primaries.map((it) => it.path));
  if (paths.size <= 1) return primaries;
  let most = 0, found = [];
  for (const it of primaries) {
    const length = stemIn(name, it.basename);
    if (length > most) [most, found] = [length, []];
    if (length === most && length > 0) found.push(it);
  }
  const said = "let the input of the tool say its secondaryFiles, which tells it";
  if (found.length === 0) fail(`of which file ${name} is a secondary file isn't known: ${said}`);
  if (new Set(found.map((it) => it.path)).size > 1) fail(`${name} may be a secondary file of ${found.map((it) => it.basename).join(" and of ")}: ${said}`);
  return found;
}

// The length of the longest stem of a file's name that another name goes on from, or 0.
function stemIn(name, basename) {
  for (let stem = basename; ; ) {
    if (name.length > stem.length && name.startsWith(stem) && !/[A-Za-z0-9]/.test(name[stem.length])) return stem.length;
    const shorter = splitName(stem)[0];
    if (shorter === stem) return 0;
    stem = shorter;
  }
}

// Gives a File those of these patterns that stand beside it, in their order.
function beside(it, patterns, taken) {
  for (const pattern of patterns) {
    const at = hasExpression(pattern) ? "" : path.join(it.dirname, secondaryName(it.basename, pattern));
    if (!exists(at)) continue;
    (it.secondaryFiles = it.secondaryFiles || []).push(ofPath(at));
    taken.add(at);
  }
  return it;
}

function listed(it, isDeep) {
  it.listing = fs.readdirSync(it.path).sort().map((name) => {
    const at = path.join(it.path, name), inner = plainObject([["class", fs.statSync(at).isDirectory() ? "Directory" : "File"]]);
    placed(inner, at);
    if (inner.class === "Directory" && isDeep) listed(inner, true);
    return inner;
  });
}

function contentsOf(at) {
  if (fs.statSync(at).size > MOST_CONTENTS) fail(`${at} has more than ${MOST_CONTENTS} bytes, and its contents are asked for`);
  return new TextDecoder("utf-8", { fatal: true, ignoreBOM: true }).decode(fs.readFileSync(at));
}

// The values of the words, by the names of the inputs in their order.
function inputsOf(plan, words, folder) {
  const inputs = plan.lists.length ? toldApart(plan, words) : parsed(words[0].slice(1));
  const made = plainObject(plan.inputs.map(({ name, type }) => [name, decoded(inputs[name] === undefined ? null : inputs[name], type)]));
  located(made, new Staged(folder));
  if (plan.lists.length) companions(plan, made, folder);
  for (const { name, type, loadContents, loadListing, inputBinding } of plan.inputs) {
    if (!plan.isStep && !fits(made[name], type)) fail(`the input ${name} isn't of its type: ${pythonJson(made[name]).slice(0, 200)}`);
    const listing = loadListing || plan.listing, folders = [];
    visit(made[name], (it) => {
      if (it.class === "Directory" && it.listing === undefined) folders.push(it);
    });
    if (listing !== "no_listing") folders.forEach((it) => listed(it, listing === "deep_listing"));
    eachFile({ type, loadContents, inputBinding }, made[name], (it, schema, isListed) => {
      if (asksContents(schema) && (!isListed || (plan.hidden || []).includes(name))) it.contents = contentsOf(it.path);
    });
  }
  return made;
}

// The name of a secondary file by its pattern.
function secondaryName(name, pattern) {
  let stem = name;
  while (pattern[0] === "^") {
    stem = splitName(stem)[0];
    pattern = pattern.slice(1);
  }
  return stem + pattern;
}

// Patterns as objects: a last ? says that one need not be there.
function patternsOf(section) {
  return (Array.isArray(section) ? section : section === undefined || section === null ? [] : [section]).map((it) => {
    const whole = isObject(it) ? it : { pattern: it };
    return typeof whole.pattern === "string" && !hasExpression(whole.pattern) && whole.pattern.endsWith("?") ? { pattern: whole.pattern.slice(0, -1), required: false } : whole;
  });
}

// Checks secondary files that are asked for: each is among those that the File has, or the job fails.
function checkSecondary(plan, inputs, expressions) {
  for (const input of plan.inputs) {
    eachFile(input, inputs[input.name], (it, schema) => {
      const asked = new Set();
      for (const one of patternsOf(schema.secondaryFiles)) {
        const required = hasExpression(one.required) ? expressions.value(one.required, it) : one.required === undefined || one.required === null ? true : one.required;
        const names = hasExpression(one.pattern) ? expressions.value(one.pattern, it) : secondaryName(it.basename, one.pattern);
        for (const name of Array.isArray(names) ? names : [names]) {
          if (!name) continue;
          const wanted = isFile(name) ? name.basename || path.basename(name.path || name.location) : path.basename(name);
          asked.add(wanted);
          const has = (it.secondaryFiles || []).some((other) => other.basename === wanted);
          if (!has && required) fail(`the secondary file ${wanted} of ${it.basename} is missing`);
        }
      }
      if (input.discovers && schema.secondaryFiles) it.secondaryFiles = [...asked].map((name) => (it.secondaryFiles || []).find((other) => other.basename === name)).filter((other) => other !== undefined);
      else if (input.discovers) delete it.secondaryFiles;
    });
  }
  expressions.changed();
}

const asksContents = (schema) => schema.loadContents || (schema.inputBinding && schema.inputBinding.loadContents);

// Visits each File of a value with what asks for more of it, the input or a field of a record in it, and whether it stands in a list, of
// which cwltool reads no contents.
function eachFile(schema, value, act, isListed = false) {
  if (Array.isArray(value)) value.forEach((it) => eachFile({ ...schema, type: (memberOf(schema.type, "array") || {}).items }, it, act, true));
  else if (isFile(value)) value.class === "File" && act(value, schema, isListed);
  else if (isObject(value)) {
    const record = membersOf(schema.type).find((it) => isObject(it) && it.type === "record" && fits(value, it));
    for (const it of record ? fieldsOf(record) : []) eachFile(it, value[it.name], act);
  }
}
