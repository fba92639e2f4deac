// One job: the inputs, the working folder, the command, the outputs.

// Linux takes no word of more bytes, its end counted.
const MOST_IN_WORD = 131072;

// A number that is asked for, which 0 itself isn't.
function numberOf(expressions, it, name) {
  if (it === 0) return undefined;
  const value = hasExpression(it) ? expressions.value(it) : it;
  if (value === undefined || value === null) return undefined;
  const number = isNumber(value) ? Number(wordOf(value)) : Number(value);
  return Number.isFinite(number) ? number : fail(`${name} of ResourceRequirement is no number: ${pythonJson(value)}`);
}

// What `runtime` has: what the tool asks for, within what the user gives.
function resources(plan, expressions) {
  const asked = plan.resources || {}, given = plan.given || {};
  const one = (name, least) => {
    const min = numberOf(expressions, asked[`${name}Min`], name), max = numberOf(expressions, asked[`${name}Max`], name);
    if (given[name] === undefined) return min !== undefined ? min : max !== undefined ? max : least;
    return Math.max(min === undefined ? 0 : min, Math.min(given[name], max === undefined ? given[name] : max));
  };
  const { runtime } = expressions;
  runtime.cores = Math.ceil(one("cores", 1));
  runtime.ram = Math.ceil(one("ram", plan.version === "v1.0" ? 1024 : 256));
  runtime.tmpdirSize = Math.ceil(one("tmpdir", 1024));
  runtime.outdirSize = Math.ceil(one("outdir", 1024));
}

function variables(plan, expressions) {
  const made = plainObject(Object.entries(process.env));
  for (const [name, text] of plan.environment) {
    const value = expressions.value(text);
    if (typeof value !== "string") fail(`the variable ${name} is no text: ${pythonJson(value)}`);
    made[name] = value;
  }
  return made;
}

function streamName(expressions, plan, kind) {
  if (plan[kind] === undefined) return undefined;
  const name = expressions.value(plan[kind]);
  if (typeof name !== "string" || name === "") fail(`the name of ${kind} is no text`);
  if (kind !== "stdin" && (path.isAbsolute(name) || name.split("/").includes(".."))) fail(`${kind} is outside of the output folder: ${name}`);
  return name;
}

// The words before the command that run it in a container, where every file has the path that it has outside.
function boxed(plan, environment, folders) {
  const { engine, image, network, outdir: inner } = plan.container, { outdir, tmpdir, staged } = folders;
  const further = inner === undefined ? [] : [`${outdir}:${inner}`], workdir = inner === undefined ? outdir : inner;
  const named = [...new Set([...plan.environment.map(([name]) => name), "HOME", "TMPDIR"])];
  if (engine === "apptainer") {
    const binds = [`${outdir}:${outdir}`, ...further, `${tmpdir}:${tmpdir}`, ...(exists(staged) ? [`${staged}:${staged}:ro`] : [])];
    const source = /^(\w+:\/\/|\/|\.)/.test(image) ? image : `docker://${image}`;
    return ["apptainer", "exec", "--contain", "--cleanenv", "--no-home", ...binds.flatMap((it) => ["--bind", it]), "--pwd", workdir, ...named.flatMap((it) => ["--env", `${it}=${environment[it]}`]), source];
  }
  const mounts = [`${outdir}:${outdir}`, ...further, `${tmpdir}:${tmpdir}`, ...(exists(staged) ? [`${staged}:${staged}:ro`] : [])];
  const user = engine === "docker" ? ["--user", `${process.getuid()}:${process.getgid()}`] : ["--userns", "keep-id"];
  return [engine, "run", "--rm", "-i", ...mounts.flatMap((it) => ["--volume", it]), "--workdir", workdir, ...user, ...(network ? [] : ["--network", "none"]), ...named.flatMap((it) => ["--env", `${it}=${environment[it]}`]), image];
}

// Runs the command with its streams. Returns its exit code, or the signal that ended it.
function started(plan, expressions, folders) {
  const environment = variables(plan, expressions), words = new Command(plan, expressions).words();
  const streams = ["stdin", "stdout", "stderr"].map((it) => streamName(expressions, plan, it));
  const [stdin, stdout, stderr] = streams;
  const opened = (name, how) => {
    fs.mkdirSync(path.dirname(path.resolve(folders.outdir, name)), { recursive: true });
    return fs.openSync(path.resolve(folders.outdir, name), how);
  };
  const input = stdin === undefined ? "ignore" : fs.openSync(stdin, "r"), output = stdout === undefined ? "ignore" : opened(stdout, "w");
  const errors = stderr === undefined ? "inherit" : stderr === stdout ? output : opened(stderr, "w");
  const plain = plan.shell ? ["/bin/sh", "-c", words.map((it) => (it.quoted ? shellQuoted(it.word) : it.word)).join(" ")] : words.map((it) => it.word);
  if (plain.length === 0 || (plan.shell && plain[2] === "")) fail("there is no command");
  const whole = plan.container ? [...boxed(plan, environment, folders), ...plain] : plain;
  const limit = timeLimit(plan, expressions);
  const under = limit ? ["timeout", "-s", "KILL", String(limit), ...whole] : whole;
  const ended = require("child_process").spawnSync(under[0], under.slice(1), { cwd: folders.outdir, env: environment, stdio: [input, output, errors] });
  const shown = (plan.shell ? [plain[2]] : plain.map(shellQuoted)).join(" ");
  if (ended.error && ended.error.code === "E2BIG") fail(`${tooLong(under, environment)}: ${shown.slice(0, 2000)}`);
  if (ended.error) fail(ended.error.code === "ENOENT" ? `the program ${under[0]} isn't found in ${environment.PATH}: ${shown}` : `the command can't be started (${ended.error.code}): ${shown.slice(0, 2000)}`);
  const killed = limit && (ended.signal === "SIGKILL" || [124, 137].includes(ended.status));
  return { code: ended.status, signal: ended.signal, shown, late: killed ? limit : 0, stdout, stderr };
}

// Why Linux doesn't start a command with these words and variables, and what would do.
function tooLong(words, environment) {
  const all = [...words, ...Object.entries(environment).map(([name, it]) => `${name}=${it}`)].map((it) => Buffer.byteLength(it));
  const longest = Math.max(...all), sum = all.reduce((one, other) => one + other + 9, 0);
  const why = longest >= MOST_IN_WORD ? `a word of the command has ${longest} bytes, and Linux takes ${MOST_IN_WORD - 1}` : `the words of the command have ${sum} bytes in all, and Linux takes fewer`;
  return `${why}; a file of them does, that InitialWorkDirRequirement writes and the command reads`;
}

function timeLimit(plan, expressions) {
  if (plan.timelimit === undefined) return 0;
  const value = hasExpression(plan.timelimit) ? expressions.value(plan.timelimit) : plan.timelimit;
  return isNumber(value) && Number(wordOf(value)) >= 0 ? Number(wordOf(value)) : fail(`the time limit is no number of seconds: ${pythonJson(value)}`);
}

// An exit code that the tool's lists take for a permanent failure.
function permanentCode(plan) {
  for (let code = 1; code < 256; code++) if (!plan.successCodes.includes(code) && !plan.temporaryFailCodes.includes(code)) return code;
  return 1;
}

// Says whether an exit code is a success, as the runner does.
function succeeded(plan, code) {
  if (plan.successCodes.includes(code)) return true;
  return code === 0 && !plan.temporaryFailCodes.includes(0) && !plan.permanentFailCodes.includes(0);
}

function ranTool(plan, expressions, folders) {
  resources(plan, expressions);
  const left = stageFolder(plan, expressions, folders.outdir);
  const ended = started(plan, expressions, folders);
  if (ended.late) {
    process.stderr.write(`after ${ended.late} seconds, its time limit, the command was ended: ${ended.shown}\n`);
    process.exit(permanentCode(plan));
  }
  if (ended.signal) {
    process.stderr.write(`${ended.signal} ended the command: ${ended.shown}\n`);
    process.kill(process.pid, ended.signal);
    return new Promise(() => {});
  }
  if (!succeeded(plan, ended.code)) {
    process.stderr.write(`the command ended with ${ended.code}: ${ended.shown}\n`);
    process.exit(ended.code);
  }
  if (plan.version !== "v1.0") expressions.runtime.exitCode = ended.code;
  Object.assign(plan, { stdout: ended.stdout, stderr: ended.stderr });
  const outputs = new Outputs(plan, expressions, folders.outdir, left);
  outputs.write(outputs.collected());
  if (ended.code !== 0) process.exit(ended.code);
}

// An ExpressionTool: its value is the object of the outputs.
function ranExpression(plan, expressions, outdir) {
  resources(plan, expressions);
  const value = expressions.value(plan.expression);
  if (!isObject(value) && plan.outputs.length > 0) fail(`an ExpressionTool gives no object: ${pythonJson(value).slice(0, 200)}`);
  new Outputs(plan, expressions, outdir).write(isObject(value) ? value : {});
}

// The texts of a step: `valueFrom` sees its inputs as they come, and `when` sees them with what valueFrom gave.
function ranStep(plan, expressions, outdir) {
  const values = plainObject([]), { inputs } = expressions;
  const hidden = plan.hidden || [], shown = plainObject(Object.entries(inputs).filter(([name]) => !hidden.includes(name)));
  expressions.inputs = shown;
  for (const { name, text, of, skips } of plan.values) {
    const self = of === null || inputs[of] === undefined ? null : inputs[of];
    values[name] = skips && self === null ? null : expressions.value(text, self);
  }
  if (plan.when !== undefined) {
    for (const name of Object.keys(values)) shown[name] = values[name];
    expressions.changed();
    values[plan.when.name] = expressions.value(plan.when.text, null);
  }
  new Outputs(plan, expressions, outdir).write(values);
}

function main(plan, words) {
  const outdir = process.cwd();
  const folders = { outdir, tmpdir: process.env.TMPDIR || os.tmpdir(), staged: path.dirname(path.dirname(words[0])) };
  const inputs = inputsOf(plan, words.slice(1), folders.staged);
  const runtime = plan.isStep ? null : plainObject([["outdir", outdir], ["tmpdir", folders.tmpdir]]);
  const expressions = new Expressions(plan, inputs, runtime);
  checkSecondary(plan, inputs, expressions);
  if (plan.isStep) ranStep(plan, expressions, outdir);
  else if (plan.isExpression) ranExpression(plan, expressions, outdir);
  else ranTool(plan, expressions, folders);
}

const thePlan = JSON.parse(fs.readFileSync(process.argv[2], "utf8"));
try {
  main(thePlan, process.argv.slice(2));
} catch (error) {
  process.stderr.write(`${error instanceof Fault ? error.message : error.stack}\n`);
  process.exit(permanentCode(thePlan));
}
