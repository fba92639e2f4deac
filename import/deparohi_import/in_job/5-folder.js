// InitialWorkDirRequirement: what the working folder has before the command starts.

// The entries of a listing as Files and Directories, each with its name, whether it may be written, and whether it leaves its secondary
// files where they are: in cwltool they come along with a file that a reference names, which keeps its name and isn't written alone.
function entriesOf(listing, expressions, isOld) {
  const made = [], own = new Set();
  visit(expressions.inputs, (it) => own.add(it));
  const add = (it, entryname, writable, isAlone = false) => {
    if (it === null || it === undefined) return;
    if (Array.isArray(it)) return it.forEach((one) => add(one, entryname, writable));
    if (isObject(it) && it.entry !== undefined && !isFile(it)) return add(textOrFile(it.entry, it.entryname), it.entryname, it.writable);
    if (!isFile(it)) fail(`an entry of InitialWorkDirRequirement is no File and no Directory: ${pythonJson(it).slice(0, 200)}`);
    const mayWrite = writable === undefined ? Boolean(it.writable) : Boolean(writable);
    made.push({ file: it, name: entryname || it.basename, writable: mayWrite, isAlone: isAlone || !own.has(it) });
  };
  const textOrFile = (value, name) => (isFile(value) || value === null ? value : plainObject([["class", "File"], ["basename", name], ["contents", typeof value === "string" ? value : pythonJson(value)]]));
  const evaluatedListing = typeof listing === "string" ? [listing] : listing;
  for (const it of evaluatedListing) {
    if (typeof it === "string") {
      add(expressions.value(it), undefined, undefined);
      continue;
    }
    if (isFile(it)) {
      add(it, undefined, undefined);
      continue;
    }
    const value = expressions.value(it.entry, null, false), writable = Boolean(it.writable);
    if (isOld && !(value === null || typeof value === "string" || isFile(value) || Array.isArray(value))) fail("an entry of InitialWorkDirRequirement is no text and no File, which v1.2 alone takes");
    const isList = Array.isArray(value) && value.every(isFile);
    if (isList && it.entryname !== undefined) fail("an entry with an entryname is a list of files");
    const name = it.entryname === undefined || it.entryname === null ? undefined : expressions.value(it.entryname);
    if (name !== undefined && typeof name !== "string") fail("an entryname is no text");
    if (value !== null && !isFile(value) && !isList && !name) fail("an entry that is a text has no entryname");
    add(isList ? value : textOrFile(value, name), name, writable, Boolean(name) || writable);
  }
  return made;
}

// Puts the entries into the folder, and gives the inputs that are among them their new paths. Returns by the paths that they would have
// the secondary files that stay where they are: they still are those of an output.
function stageFolder(plan, expressions, outdir) {
  const moved = new Map(), left = new Map();
  if (plan.workdir === undefined) return left;
  for (const { file, name, writable, isAlone } of entriesOf(plan.workdir, expressions, expressions.isOld)) {
    const at = path.normalize(String(name));
    if (path.isAbsolute(at) || at === ".." || at.startsWith("../")) fail(`the entry ${name} is outside of the working folder`);
    const to = path.join(outdir, at), stays = (file.secondaryFiles || []).filter((it) => isAlone && it.path !== undefined);
    for (const it of stays) left.set(path.join(path.dirname(to), it.basename), it.path);
    stageOne({ ...file, secondaryFiles: (file.secondaryFiles || []).filter((it) => !stays.includes(it)) }, to, writable, moved);
  }
  visit(expressions.inputs, (it) => {
    if (!moved.has(it.path)) return;
    const listing = it.listing;
    placed(it, moved.get(it.path));
    if (listing !== undefined) listed(it, true);
  });
  expressions.changed();
  return left;
}

function stageOne(file, at, writable, moved) {
  fs.mkdirSync(path.dirname(at), { recursive: true });
  if (exists(at) || isLink(at)) {
    if (file.path !== undefined && fs.realpathSync(at) === fs.realpathSync(file.path)) return;
    fail(`two entries of the working folder have the name ${path.basename(at)}`);
  }
  if (file.path !== undefined) {
    if (writable) copied(file.path, at);
    else fs.symlinkSync(file.path, at);
    moved.set(file.path, at);
  } else if (file.class === "Directory") {
    fs.mkdirSync(at);
    for (const it of file.listing || []) stageOne(it, path.join(at, it.basename), writable || Boolean(it.writable), moved);
  } else if (typeof file.contents === "string") fs.writeFileSync(at, file.contents);
  else if (typeof file.location === "string" && file.location.startsWith("file://")) stageOne({ ...file, path: decodeURIComponent(file.location.slice(7)) }, at, writable, moved);
  else fail(`${path.basename(at)} has no path and no contents`);
  for (const it of file.secondaryFiles || []) stageOne(it, path.join(path.dirname(at), it.basename), writable, moved);
}

function isLink(at) {
  try {
    return fs.lstatSync(at).isSymbolicLink();
  } catch (error) {
    return false;
  }
}

// Copies a file or folder so that it may be written.
function copied(from, to) {
  const state = fs.statSync(from);
  if (state.isDirectory()) {
    fs.mkdirSync(to);
    for (const name of fs.readdirSync(from)) copied(path.join(from, name), path.join(to, name));
    fs.chmodSync(to, state.mode | 0o700);
  } else {
    fs.copyFileSync(from, to, fs.constants.COPYFILE_FICLONE);
    fs.chmodSync(to, state.mode | 0o200);
  }
}
