/**
 * Interfaces from tables, as Web IDL binds them: conversions of arguments, brands, argument counts, constants, constructors.
 *
 * An interface is an object with `name`, `parent`, `is` (its brand), and `constants`, `attributes`, `operations`, `construct`, `hidden` (names that a `with`
 * does not see).
 *
 * An attribute is a getter or `{ type, get, set }`. It has `read` in place of `get` if the state of a node has the value. Then the interface is Node, or its
 * `fits` returns by the state of a node whether the node has the attribute. `quick` makes a getter that returns a cached value; it gets `fits`, and the
 * getter to call if nothing is cached.
 *
 * An operation is a list of its arguments' types and a function of the object and the arguments. The types are those of Web IDL in its words. `= value`
 * gives the value of an absent argument, and `...` takes all further arguments.
 */
import { native, Refusal } from "./core.js";
import { stateOf } from "./wrappers.js";

/** Refuses a value of the wrong type, with the realm's own TypeError. */
export function refuseType(message) {
  throw new Refusal(native.HP_TYPE_ERROR, message);
}

/** A value in a message: an object only by its type, since asking it more could run a program's code. */
export function describe(value) {
  if (typeof value === "string") return JSON.stringify(value.length > 40 ? `${value.slice(0, 40)}..` : value);
  if (typeof value === "function") return "a function";
  return typeof value === "object" && value !== null ? "an object" : String(value);
}

/** Has the traps of a class of proxies' handlers throw the exceptions of the handler's realm. */
export function guardTraps({ prototype }) {
  for (const name of Object.getOwnPropertyNames(prototype).filter((it) => it !== "constructor")) {
    const trap = prototype[name];
    // (written out: a list of arguments takes longer, and no trap has more)
    prototype[name] = function (target, key, value, receiver) {
      try {
        return trap.call(this, target, key, value, receiver);
      } catch (fault) {
        throw this.realm.thrown(fault);
      }
    };
  }
}

/** Refuses a value where another kind is expected. */
export const refuseOther = (expected, value) => refuseType(`expected ${expected}, not ${describe(value)}`);

function string(value) {
  if (typeof value === "symbol") refuseType(`${String(value)} cannot be converted to a string`);
  return `${value}`;
}

function number(value) {
  if (typeof value === "symbol" || typeof value === "bigint") refuseType(`${String(value)} cannot be converted to a number`);
  return Number(value);
}

const isObject = (value) => (typeof value === "object" && value !== null) || typeof value === "function";

function list(value) {
  if (!isObject(value) || typeof value[Symbol.iterator] !== "function") refuseOther("a sequence", value);
  return Array.from(value, string);
}

const PLAIN = {
  any: (value) => value,
  boolean: (value) => Boolean(value),
  DOMString: (value) => (typeof value === "string" ? value : string(value)),
  "DOMString?": (value) => (value === null || value === undefined ? null : PLAIN.DOMString(value)),
  // (LegacyNullToEmptyString)
  "DOMString or empty": (value) => (value === null ? "" : PLAIN.DOMString(value)),
  "sequence<DOMString>": list,
  "unsigned long": (value) => (typeof value === "number" ? value : number(value)) >>> 0,
  "unsigned short": (value) => (typeof value === "number" ? value : number(value)) & 0xffff,
  "NodeFilter?": (value) => (value === null || value === undefined ? null : isObject(value) ? value : refuseOther("a filter as a function or an object", value)),
  Function: (value) => (typeof value === "function" ? value : refuseOther("a callback as a function", value)),
  dictionary: (value) => (value === null || value === undefined ? {} : isObject(value) ? value : refuseOther("options as an object", value)),
};

const brands = new Map();

/** Makes an interface known, so that others may take its objects. */
export function known(table) {
  brands.set(table.name, table.is);
  return table;
}

/** Makes a type known by how it is converted. */
export function convertible(type, convert) {
  PLAIN[type] = convert;
}

/** A value as a type has it. */
export const converted = (type, value) => PLAIN[type](value);

/** A dictionary whose members are all required: they come as a list, in the order in which they are named. */
export function dictionary(members) {
  return (value) => {
    const from = PLAIN.dictionary(value);
    return Object.entries(members).map(([name, type]) => {
      const given = from[name];
      return given === undefined ? refuseType(`the option ${name} is missing`) : converterOf(type)(given);
    });
  };
}

// ---- Nodes. A page has some that the core has not (Attr): none of them is a child, nor takes the place of one.

const HIERARCHY_REQUEST_ERROR = 3;
const NOT_FOUND_ERROR = 8;
const INVALID_NODE_TYPE_ERROR = 24;
let isOtherNode = () => false;
let standInOf = null;

/** Says which objects are Nodes that the core does not have, and which node of the core is in their place in ranges and for observers. */
export function otherNodes(is, standIn) {
  isOtherNode = is;
  standInOf = standIn;
}

function nodeOf(value, otherwise, status = HIERARCHY_REQUEST_ERROR) {
  if (brands.get("Node")(value)) return value;
  if (isOtherNode(value)) throw new Refusal(status, "an attribute cannot be a child");
  return otherwise(value);
}

const noNode = (value) => refuseOther("a Node", value);
const orNull = (value) => (value === null || value === undefined ? null : noNode(value));

const NODES = {
  Node: (value) => nodeOf(value, noNode),
  "Node?": (value) => nodeOf(value, orNull),
  "Node or other": (value) => (isOtherNode(value) ? standInOf(value) : nodeOf(value, noNode)),
  "(Node or DOMString)": (value) => nodeOf(value, PLAIN.DOMString),
  "container Node": (value) => nodeOf(value, noNode, INVALID_NODE_TYPE_ERROR),
  // (a node that has to be a child: any other is not found)
  "child Node": (value) => nodeOf(value, noNode, NOT_FOUND_ERROR),
  "child Node?": (value) => nodeOf(value, orNull, NOT_FOUND_ERROR),
};

function converterOf(type) {
  if (type in PLAIN) return PLAIN[type];
  if (type in NODES) return NODES[type];
  const isNullable = type.endsWith("?");
  const name = isNullable ? type.slice(0, -1) : type;
  const is = brands.get(name);
  if (!is) throw new Error(`there is no type ${type}`);
  const must = (value) => (is(value) ? value : refuseOther(`an object ${name}`, value));
  return isNullable ? (value) => (value === null || value === undefined ? null : must(value)) : must;
}

const DEFAULTS = { true: true, false: false, null: null, '""': "", undefined };

/** An argument of a table: how it is converted, and what it is where it is absent. */
function argument(text) {
  const [type, absent] = text.split(" = ");
  if (type.startsWith("...")) return { convert: converterOf(type.slice(3)), isOptional: true, isVariadic: true };
  const convert = converterOf(type);
  if (absent === undefined) return { convert, isOptional: false };
  // (a dictionary that is absent has no members)
  if (absent === "{}") return { convert, isOptional: true };
  const value = absent in DEFAULTS ? DEFAULTS[absent] : Number(absent);
  return { convert: (given) => (given === undefined ? value : convert(given)), isOptional: true };
}

/** The arguments of a table as one conversion of all that came in. */
function conversion(types) {
  const all = types.map(argument);
  const rest = all.at(-1)?.isVariadic ? all.pop() : null;
  return (given) => {
    const converted = all.map((it, at) => it.convert(given[at]));
    for (let at = all.length; rest && at < given.length; at++) converted.push(rest.convert(given[at]));
    return converted;
  };
}

const requiredOf = (types) => types.map(argument).filter((it) => !it.isOptional).length;

function named(made, name, length) {
  Object.defineProperty(made, "name", { value: name, configurable: true });
  Object.defineProperty(made, "length", { value: length, configurable: true });
  return made;
}

/** Operations by the number of their arguments: none, one, two, three, or any others. The arguments are converted in their order. */
const FORMS = [
  (realm, test, does) => ({
    operation() {
      if (!test(this)) throw realm.wrongThis();
      try {
        return does(this);
      } catch (fault) {
        throw realm.thrown(fault);
      }
    },
  }),
  (realm, test, does, required, [one]) => ({
    operation(first) {
      if (!test(this)) throw realm.wrongThis();
      if (arguments.length < required) throw realm.tooFew(required, arguments.length);
      try {
        return does(this, one.convert(first));
      } catch (fault) {
        throw realm.thrown(fault);
      }
    },
  }),
  (realm, test, does, required, [one, two]) => ({
    operation(first, second) {
      if (!test(this)) throw realm.wrongThis();
      if (arguments.length < required) throw realm.tooFew(required, arguments.length);
      try {
        return does(this, one.convert(first), two.convert(second));
      } catch (fault) {
        throw realm.thrown(fault);
      }
    },
  }),
  (realm, test, does, required, [one, two, three]) => ({
    operation(first, second, third) {
      if (!test(this)) throw realm.wrongThis();
      if (arguments.length < required) throw realm.tooFew(required, arguments.length);
      try {
        return does(this, one.convert(first), two.convert(second), three.convert(third));
      } catch (fault) {
        throw realm.thrown(fault);
      }
    },
  }),
];

function general(realm, test, does, required, types) {
  const convert = conversion(types);
  return {
    operation(...given) {
      if (!test(this)) throw realm.wrongThis();
      if (given.length < required) throw realm.tooFew(required, given.length);
      try {
        return does(this, ...convert(given));
      } catch (fault) {
        throw realm.thrown(fault);
      }
    },
  };
}

function operation(realm, test, types, does) {
  const all = types.map(argument);
  const required = requiredOf(types);
  const isPlain = all.length < FORMS.length && !all.some((it) => it.isVariadic);
  const made = isPlain ? FORMS[all.length](realm, test, does, required, all) : general(realm, test, does, required, types);
  return { operation: made.operation, required };
}

function getter(realm, test, get, name) {
  return named(FORMS[0](realm, test, get).operation, `get ${name}`, 0);
}

/** A getter that is called most: the brand and the state of a node are looked up at once. */
function reader(realm, read, name) {
  const made = {
    operation() {
      const its = stateOf(this);
      if (its === null) throw realm.wrongThis();
      try {
        return read(its);
      } catch (fault) {
        throw realm.thrown(fault);
      }
    },
  };
  return named(made.operation, `get ${name}`, 0);
}

/** The same for an interface that not all nodes have. */
const fitting = (realm, fits, read) => (its) => {
  if (!fits(its)) throw realm.wrongThis();
  return read(its);
};

/** A getter with code of its own, which an engine compiles for itself: it reads what an object knows, and calls the general one otherwise. */
const quickened = (quick, general, fits, name) => named(quick(general, fits).operation, `get ${name}`, 0);

function setter(realm, test, type, set, name) {
  return named(FORMS[1](realm, test, set, 1, [argument(type)]).operation, `set ${name}`, 1);
}

function addConstants(table, made) {
  for (const [name, value] of Object.entries(table.constants ?? {})) {
    for (const to of made.prototype ? [made, made.prototype] : [made]) {
      Object.defineProperty(to, name, { value, enumerable: true });
    }
  }
}

function addAttributes(realm, table, prototype) {
  for (const [name, its] of Object.entries(table.attributes ?? {})) {
    const { get, read, quick, set, type } = typeof its === "function" ? { get: its } : its;
    const general = read ? reader(realm, table.fits ? fitting(realm, table.fits, read) : read, name) : getter(realm, table.is, get, name);
    Object.defineProperty(prototype, name, {
      get: quick ? quickened(quick, general, table.fits, name) : general,
      set: set && setter(realm, table.is, type, set, name),
      enumerable: true,
      configurable: true,
    });
  }
}

function addOperations(realm, table, prototype) {
  for (const [name, [types, does]] of Object.entries(table.operations ?? {})) {
    const made = operation(realm, table.is, types, does);
    const value = named(made.operation, name, made.required);
    Object.defineProperty(prototype, name, { value, enumerable: true, writable: true, configurable: true });
  }
}

function addHidden(table, prototype) {
  if (!table.hidden) return;
  const value = Object.assign(Object.create(null), Object.fromEntries(table.hidden.map((name) => [name, true])));
  Object.defineProperty(prototype, Symbol.unscopables, { value, configurable: true });
}

/** The interface object of a constructor, or of an interface that programs can't construct. */
function constructorOf(realm, table) {
  const [types, construct] = table.construct ?? [[], null];
  const required = requiredOf(types);
  const convert = conversion(types);
  const made = function (...given) {
    if (!construct || new.target === undefined) throw new realm.global.TypeError("Illegal constructor");
    if (given.length < required) throw realm.tooFew(required, given.length);
    try {
      return realm.constructed(new.target, construct(realm, ...convert(given)));
    } catch (fault) {
      throw realm.thrown(fault);
    }
  };
  return named(made, table.name, required);
}

/**
 * Makes an interface of a realm. Its objects are made by a class of the realm's own, with the fields of a base; the interface object has the same
 * prototype, so that programs see it alone.
 */
export function makeInterface(realm, table, Base) {
  const made = constructorOf(realm, table);
  const Maker = class extends Base {
    // (a constructor that is written out takes its argument without a list of them)
    constructor(its) {
      super(its);
    }
  };
  realm.makers[table.name] = Base.makerOf(Maker);
  Object.defineProperty(made, "prototype", { value: Maker.prototype, writable: false });
  Object.defineProperty(Maker.prototype, "constructor", { value: made, writable: true, configurable: true });
  const parent = table.parent ? realm.interfaces[table.parent] : null;
  Object.setPrototypeOf(made, parent ?? realm.global.Function.prototype);
  Object.setPrototypeOf(made.prototype, parent ? parent.prototype : realm.global.Object.prototype);
  addConstants(table, made);
  addAttributes(realm, table, made.prototype);
  addOperations(realm, table, made.prototype);
  addHidden(table, made.prototype);
  Object.defineProperty(made.prototype, Symbol.toStringTag, { value: table.name, configurable: true });
  table.finish?.(realm, made);
  return made;
}

/** Adds the members of a table to the interface of its name, which a realm has already. */
export function addMembers(realm, table) {
  const { prototype } = realm.interfaces[table.name];
  addAttributes(realm, table, prototype);
  addOperations(realm, table, prototype);
}
