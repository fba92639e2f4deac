// The command: bindings become words in the order in which cwltool has them.

// Numbers come before texts, as in Python 2.
function compared(one, other) {
  for (let at = 0; at < Math.min(one.length, other.length); at++) {
    const [a, b] = [one[at], other[at]];
    if (a === b) continue;
    if (typeof a !== typeof b) return typeof a === "number" ? -1 : 1;
    return typeof a === "number" ? a - b : Buffer.compare(Buffer.from(a), Buffer.from(b));
  }
  return one.length - other.length;
}

class Command {
  constructor(plan, expressions) {
    this.plan = plan;
    this.expressions = expressions;
  }

  // The words of the command, each with whether the shell is to have it quoted.
  words() {
    const { plan } = this, bindings = [];
    plan.baseCommand.forEach((it, at) => bindings.push({ position: [-1000000, at], datum: it }));
    plan.arguments.forEach((it, at) => {
      const binding = typeof it === "string" ? { valueFrom: it } : it;
      bindings.push({ ...binding, position: [this.position(binding.position, null), at] });
    });
    for (const it of plan.inputs) {
      const datum = this.expressions.inputs[it.name];
      if (datum !== null) bindings.push(...this.bound(it, datum, [], it.name));
    }
    const order = bindings.map((it, at) => [it, at]).sort(([a, i], [b, j]) => compared(a.position, b.position) || i - j);
    return order.flatMap(([it]) => this.argument(it).map((word) => ({ word, quoted: it.shellQuote !== false })));
  }

  position(it, self) {
    const value = hasExpression(it) ? this.expressions.value(it, self) : it;
    if (value === undefined || value === null) return 0;
    return typeof value === "number" ? value : fail(`the position ${it} is no whole number`);
  }

  // The bindings of a value of a type, each with its position.
  bound(schema, datum, lead, tail) {
    const made = [], tails = tail === undefined ? [] : [tail];
    let binding = null;
    if (isObject(schema.inputBinding)) binding = { ...schema.inputBinding, position: [...lead, this.position(schema.inputBinding.position, datum), ...tails], datum };
    const isValued = binding !== null && binding.valueFrom !== undefined && binding.valueFrom !== null;
    const type = Array.isArray(schema.type) ? schema.type.find((it) => fits(datum, it)) : schema.type;
    if (Array.isArray(schema.type)) {
      const inner = this.bound({ ...schema, type }, datum, lead, tail);
      return isValued ? [binding] : inner;
    }
    let items = binding;
    if (isObject(type) && type.type === "array") {
      items = this.items(schema, type, binding, datum, tail, isValued, made);
    } else if (isObject(type) && type.type === "record") {
      const own = isObject(type.inputBinding) ? { ...type.inputBinding, position: [...lead, this.position(type.inputBinding.position, datum), ...tails], datum } : null;
      const fields = fieldsOf(type).filter((it) => datum[it.name] !== null && datum[it.name] !== undefined);
      if (!isValued) this.under(own, fields.flatMap((it) => this.bound(it, datum[it.name], lead, it.name)), made);
    } else if (isObject(type) && isObject(type.inputBinding) && !isValued) {
      made.push({ ...type.inputBinding, position: [...lead, this.position(type.inputBinding.position, datum), ...tails], datum });
    } else if (type === "Any" && Array.isArray(datum) && binding && !isValued) {
      return this.bound({ ...schema, type: { type: "array", items: "Any" } }, datum, lead, tail);
    }
    return this.under(items, made, []);
  }

  // Puts a binding, and those inside of it behind its own position.
  under(binding, inner, made) {
    if (binding) {
      for (const it of inner) it.position = [...binding.position, ...it.position];
      inner.push(binding);
    }
    made.push(...inner);
    return made;
  }

  // The bindings of a list's items; returns the list's own.
  items(schema, type, binding, datum, tail, isValued, made) {
    if (isValued) return binding;
    const inner = [], own = isObject(type.inputBinding) ? type.inputBinding : binding && !binding.itemSeparator ? {} : null;
    datum.forEach((it, at) => {
      const item = own ? { type: type.items, inputBinding: own } : { type: type.items };
      inner.push(...this.bound(item, it, [at], tail));
    });
    made.push(...inner);
    return binding;
  }

  // The words of one binding, by cwltool's generate_arg.
  argument(binding) {
    const { prefix } = binding, separate = binding.separate !== false;
    const value = binding.valueFrom === undefined || binding.valueFrom === null ? binding.datum : this.expressions.value(binding.valueFrom, binding.datum === undefined ? null : binding.datum);
    if ((prefix === undefined || prefix === null) && !separate) fail("separate: false has no prefix");
    const front = prefix === undefined || prefix === null ? [] : [prefix];
    if (Array.isArray(value)) {
      if (!(binding.itemSeparator && value.length)) return binding.valueFrom ? [...front, ...value.map(wordOf)] : value.length ? front : [];
      return this.joined(front, value.map(wordOf).join(binding.itemSeparator), separate);
    }
    if (isObject(value) && !isFile(value)) return front;
    if (value === true) return front;
    if (value === false || value === null || value === undefined) return [];
    return this.joined(front, wordOf(value), separate);
  }

  joined(front, word, separate) {
    return separate ? [...front, word] : [front.join("") + word];
  }
}

// Quotes a word for a shell as Python's shlex does.
const shellQuoted = (it) => (it === "" ? "''" : /^[A-Za-z0-9_@%+=:,./-]+$/.test(it) ? it : `'${it.replace(/'/g, "'\"'\"'")}'`);
