// The outputs: patterns, contents, outputEval and secondary files, and the object that the runner reads.

// The regular expression of one component of a pattern, as Python's glob reads it: a period at the front has to be written.
function componentOf(pattern) {
  let made = pattern[0] === "." ? "" : "(?!\\.)";
  for (let at = 0; at < pattern.length; at++) {
    const it = pattern[at];
    if (it === "*") made += "[^/]*";
    else if (it === "?") made += "[^/]";
    else if (it === "[") {
      let end = at + 1;
      if (pattern[end] === "!") end++;
      if (pattern[end] === "]") end++;
      while (end < pattern.length && pattern[end] !== "]") end++;
      if (end >= pattern.length) made += "\\[";
      else {
        const inner = pattern.slice(at + 1, end).replace(/\\/g, "\\\\").replace(/^!/, "^").replace(/^(\^?)\]/, "$1\\]").replace(/\[/g, "\\[");
        made += `[${inner}]`;
        at = end;
      }
    } else made += it.replace(/[\\^$.*+?()[\]{}|/]/g, "\\$&");
  }
  return new RegExp(`^${made}$`, "su");
}

// The paths below the folder that a pattern names.
function globbed(outdir, pattern) {
  if (pattern.startsWith(outdir + "/")) pattern = pattern.slice(outdir.length + 1);
  if (pattern === "." || pattern === outdir) return [outdir];
  if (pattern.startsWith("/") || pattern.split("/").includes("..")) fail(`the pattern ${pattern} leads out of the output folder`);
  let found = [outdir];
  for (const part of pattern.split("/").filter((it) => it !== "" && it !== ".")) {
    const magic = /[*?[]/.test(part), wanted = magic ? componentOf(part) : null;
    found = found.flatMap((at) => {
      if (!magic) return exists(path.join(at, part)) ? [path.join(at, part)] : [];
      return exists(at) && fs.statSync(at).isDirectory() ? fs.readdirSync(at).filter((it) => wanted.test(it) && exists(path.join(at, it))).map((it) => path.join(at, it)) : [];
    });
  }
  // In cwltool the order is that of the URLs.
  return found.map((it) => [urlOf(it), it]).sort(([a], [b]) => (a < b ? -1 : a > b ? 1 : 0)).map(([, it]) => it);
}

// The path that a location names, where it is one of this machine: a relative one counts from the output folder.
function placeOf(location) {
  if (typeof location !== "string") return undefined;
  return location.startsWith("file://") ? decodeURIComponent(location.slice(7)) : /^[\w+.-]*:/.test(location) ? undefined : location;
}

class Outputs {
  constructor(plan, expressions, outdir, left = new Map()) {
    Object.assign(this, { plan, expressions, outdir, left, links: 0, names: new Map() });
  }

  collected() {
    const said = path.join(this.outdir, "cwl.output.json");
    if (exists(said) && !this.plan.isExpression) {
      const object = parsed(fs.readFileSync(said, "utf8"));
      visit(object, (it) => {
        if (it.path === undefined && typeof it.location === "string") it.path = it.location.replace(/^file:\/\//, "");
        if (it.path !== undefined) it.path = path.resolve(this.outdir, it.path);
      });
      return plainObject(this.plan.outputs.map(({ name }) => [name, object[name] === undefined ? null : received(object[name])]));
    }
    return plainObject(this.plan.outputs.map((it) => [it.name, this.one(it)]));
  }

  matched(binding) {
    const globs = binding.glob === undefined || binding.glob === null ? [] : Array.isArray(binding.glob) ? binding.glob : [binding.glob];
    const patterns = globs.flatMap((it) => {
      const value = this.expressions.value(it);
      if (value === null || value === "" || value === undefined) return [];
      const listed = Array.isArray(value) ? value : [value];
      return listed.every((one) => typeof one === "string") ? listed : fail(`the value of a glob is no text: ${pythonJson(value)}`);
    });
    return patterns.flatMap((it) => globbed(this.outdir, it)).map((at) => this.found(at, binding));
  }

  found(at, binding) {
    const it = ofPath(at);
    delete it.dirname;
    const listing = binding.loadListing || this.plan.listing;
    if (it.class === "Directory" && listing !== "no_listing") listed(it, listing === "deep_listing");
    if (it.class === "File" && /\bchecksum\b/.test(String(binding.outputEval))) it.checksum = sumOf(at);
    if (it.class === "File" && binding.loadContents) it.contents = contentsOf(at);
    return it;
  }

  // The value of an output, or of a field of a record that has bindings of its own.
  one(schema) {
    const kinds = membersOf(schema.type), binding = schema.outputBinding;
    if (kinds.length === 1 && ["stdout", "stderr"].includes(kinds[0])) return this.found(path.join(this.outdir, this.plan[kinds[0]]), {});
    let value = null;
    if (isObject(binding)) {
      const found = this.matched(binding);
      value = binding.outputEval === undefined || binding.outputEval === null ? found : this.expressions.value(binding.outputEval, found);
      value = this.alone(schema, kinds, value);
      value = this.withSecondary(schema, value);
    }
    const record = memberOf(schema.type, "record"), isEmpty = value === null || value === undefined || (Array.isArray(value) && value.length === 0);
    if (isEmpty && record && kinds.length === 1) return plainObject(fieldsOf(record).map((it) => [it.name, this.one(it)]));
    if (isEmpty && kinds.includes("null")) return null;
    return value === undefined ? null : value;
  }

  // A list of one file is that file where the type takes one.
  alone(schema, kinds, value) {
    if (!kinds.includes("File") && !kinds.includes("Directory")) return value;
    if (Array.isArray(value) && value.length > 1) return kinds.some((it) => isObject(it)) ? value : fail(`several files match for the output ${schema.name}, which is a single one`);
    const isNone = value === null || value === undefined || value === "" || (Array.isArray(value) && value.length === 0);
    if (isNone && !kinds.includes("null")) fail(`nothing matches for the output ${schema.name}: ${pythonJson((schema.outputBinding || {}).glob)}; in the folder are ${fs.readdirSync(this.outdir).sort().slice(0, 10).join(", ")}`);
    return isNone ? null : Array.isArray(value) ? value[0] : value;
  }

  withSecondary(schema, value) {
    const patterns = patternsOf(schema.secondaryFiles);
    for (const it of patterns.length ? (Array.isArray(value) ? value : [value]) : []) {
      if (!isFile(it)) continue;
      it.secondaryFiles = it.secondaryFiles || [];
      for (const one of patterns) {
        const required = hasExpression(one.required) ? this.expressions.value(one.required, it) : one.required === true;
        const said = hasExpression(one.pattern) ? this.expressions.value(one.pattern, it) : secondaryName(it.basename, one.pattern);
        for (const name of Array.isArray(said) ? said : [said]) {
          if (!name) continue;
          const beside = isFile(name) ? name.path : path.join(path.dirname(it.path), name);
          const at = exists(beside) ? beside : this.left.get(beside) || beside;
          if (exists(at) && !it.secondaryFiles.some((other) => other.path === at)) it.secondaryFiles.push(ofPath(at));
          else if (!exists(at) && required) fail(`the secondary file ${path.basename(at)} of ${it.basename} is missing`);
        }
      }
    }
    return value;
  }

  // Says a File or Directory as the runner reads it: by its name in the folder. What lies elsewhere gets a link there.
  told(it) {
    const basename = it.basename;
    let at = it.path === undefined ? placeOf(it.location) : it.path;
    if (at === undefined || (it.class === "Directory" && Array.isArray(it.listing) && !exists(at))) at = this.written(it);
    at = path.resolve(this.outdir, at);
    if (!exists(at)) fail(`the ${it.class} ${at} of an output isn't there`);
    if (at !== this.outdir && !at.startsWith(this.outdir + "/")) at = this.linked(at, basename || path.basename(at));
    const made = { class: it.class, path: path.relative(this.outdir, at) || "." };
    if (basename && basename !== path.basename(at)) made.basename = basename;
    const secondary = (it.secondaryFiles || []).map((one) => this.told(one));
    if (secondary.length) made.secondaryFiles = secondary;
    return made;
  }

  // A folder of its own below the output folder.
  room() {
    for (;;) {
      const at = path.join(this.outdir, `.deparohi-${++this.links}`);
      if (exists(at)) continue;
      fs.mkdirSync(at);
      return at;
    }
  }

  linked(at, name) {
    const link = path.join(this.room(), name);
    fs.symlinkSync(at, link);
    return link;
  }

  // A literal: a file of contents, or a folder of what it lists, where each has its own name.
  written(it) {
    const at = path.join(this.room(), it.basename || "literal");
    if (it.class === "File" && typeof it.contents === "string") fs.writeFileSync(at, it.contents);
    else if (it.class === "Directory" && Array.isArray(it.listing)) this.folder(it, at);
    else fail(`a ${it.class} of an output has no path: ${pythonJson(it).slice(0, 200)}`);
    return at;
  }

  folder(it, at) {
    fs.mkdirSync(at);
    for (const one of [...it.listing, ...it.listing.flatMap((file) => file.secondaryFiles || [])]) {
      const to = path.join(at, one.basename || path.basename(one.path));
      if (exists(to)) {
        if (one.path !== undefined && fs.realpathSync(to) === fs.realpathSync(one.path)) continue;
        fail(`two files of the folder ${it.basename} have the name ${path.basename(to)}`);
      }
      if (one.path === undefined && one.class === "Directory") this.folder(one, to);
      else if (one.path === undefined && typeof one.contents === "string") fs.writeFileSync(to, one.contents);
      else fs.symlinkSync(path.resolve(this.outdir, one.path), to);
    }
  }

  // Writes cwl.output.json with these values.
  write(values) {
    const tell = (it) => (isFile(it) ? this.told(it) : Array.isArray(it) ? it.map(tell) : isObject(it) ? plainObject(Object.entries(it).map(([key, one]) => [key, tell(one)])) : it);
    const made = plainObject([]);
    for (const { name, type } of this.plan.outputs) {
      const value = values[name] === undefined ? null : values[name];
      const kinds = membersOf(type).map((it) => (it === "stdout" || it === "stderr" ? "File" : it));
      if (!this.plan.isStep && !fits(value, kinds)) fail(`the output ${name} isn't of its type: ${pythonJson(value).slice(0, 200)}`);
      made[name] = encoded(tell(value), type);
    }
    fs.writeFileSync(path.join(this.outdir, "cwl.output.json"), jsonOf(made));
  }
}
