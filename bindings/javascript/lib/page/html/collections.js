/** Lists of elements that forms, selects and tables have: each is read anew when it is asked. */
import { htmlCollection, keptOf, known, numberOf, realmOf } from "../core.js";
import { borrow, knownOf, makeLegacy } from "../legacy.js";

class ElementsAre {
  constructor(owner, read, more) {
    this.owner = owner;
    this.read = read;
    Object.assign(this, more);
  }

  get length() {
    return this.read().length;
  }

  at(index) {
    return this.read()[index] ?? null;
  }

  all(name) {
    return name === "" ? [] : this.read().filter((it) => it.getAttribute("id") === name || it.getAttribute("name") === name);
  }

  named(name) {
    return this.all(name)[0];
  }

  names() {
    return [...new Set(this.read().flatMap((it) => [it.getAttribute("id"), it.getAttribute("name")]).filter(Boolean))];
  }
}

/** The controls of a form: those that share a name come as a list. */
class ControlsAre extends ElementsAre {
  named(name) {
    const found = this.all(name);
    return found.length > 1 ? makeLegacy(realmOf(this.owner), "RadioNodeList", new ElementsAre(this.owner, () => this.all(name))) : found[0];
  }
}

const elementsOf = (it) => knownOf(it, ElementsAre);

function table(name, more = {}) {
  return known({
    name,
    parent: "HTMLCollection",
    is: (it) => elementsOf(it) !== undefined,
    attributes: { length: (list) => elementsOf(list).length, ...more.attributes },
    operations: {
      item: [["unsigned long"], (list, index) => elementsOf(list).at(index)],
      namedItem: [["DOMString"], (list, name) => elementsOf(list).named(name) ?? null],
      ...more.operations,
    },
    finish: (realm, made) => borrow(realm, made.prototype, [Symbol.iterator]),
  });
}

const isTicked = (it) => it.type === "radio" && it.checked;

export const RadioNodeList = known({
  name: "RadioNodeList",
  parent: "NodeList",
  is: (it) => elementsOf(it) !== undefined,
  attributes: {
    length: (list) => elementsOf(list).length,
    value: {
      type: "DOMString",
      get: (list) => elementsOf(list).read().find(isTicked)?.value ?? "",
      set(list, value) {
        const due = elementsOf(list).read().find((it) => it.type === "radio" && it.value === value);
        if (due) due.checked = true;
      },
    },
  },
  operations: { item: [["unsigned long"], (list, index) => elementsOf(list).at(index)] },
});

export const HTMLFormControlsCollection = table("HTMLFormControlsCollection");

export const HTMLOptionsCollection = table("HTMLOptionsCollection", {
  attributes: {
    length: { type: "unsigned long", get: (list) => elementsOf(list).length, set: (list, length) => elementsOf(list).resize(length) },
    selectedIndex: {
      type: "long",
      get: (list) => elementsOf(list).owner.selectedIndex,
      set: (list, index) => void (elementsOf(list).owner.selectedIndex = index),
    },
  },
  operations: {
    add: [["any", "any = null"], (list, ...given) => elementsOf(list).owner.add(...given)],
    remove: [["long"], (list, index) => elementsOf(list).owner.remove(index)],
  },
});

function kept(owner, name, make) {
  const its = (keptOf(owner).collections ??= {});
  return (its[name] ??= make());
}

/** The list of an owner by a name; `read` answers its elements. */
export const listOf = (owner, name, read) => kept(owner, name, () => htmlCollection(owner, () => read().map(numberOf)));

/** The list of the controls of a form, or of a fieldset. */
export const listOfControls = (owner, read) => kept(owner, "elements", () => makeLegacy(realmOf(owner), "HTMLFormControlsCollection", new ControlsAre(owner, read)));

/** One of an interface of its own, which may have more to it. */
export const listOfKind = (kind, owner, name, read, more) => kept(owner, name, () => makeLegacy(realmOf(owner), kind, new ElementsAre(owner, read, more)));
