/** Entities that a document of XML declares for itself (XML 1.0, section 4): each reference becomes its replacement text before the parser reads it. */

const DOCTYPE = /<!DOCTYPE[^[>]*\[((?:"[^"]*"|'[^']*'|<!--[\s\S]*?-->|[^\]"'])*)\]\s*>/;
const DECLARED = /<!ENTITY\s+([^\s%]+)\s+(?:"([^"]*)"|'([^']*)')\s*>/g;
const COMMENT = /<!--[\s\S]*?-->/g;
const CHARACTER = /&#(?:x([\da-fA-F]+)|(\d+));/g;
/** Where a reference is none, and references. */
const REFERENCE = /<!--[\s\S]*?-->|<!\[CDATA\[[\s\S]*?\]\]>|<\?[\s\S]*?\?>|&([^\s&;#<]+);/g;
/** So long may a document become, so that a few lines can't fill the memory. */
const LONGEST = 10000000;

const characterOf = (_, hexadecimal, decimal) => String.fromCodePoint(hexadecimal ? parseInt(hexadecimal, 16) : Number(decimal));
const characters = (text) => text.replace(CHARACTER, characterOf);

/** The entities of a subset, by name; the first declaration of each counts. */
function declaredIn(subset) {
  const found = new Map();
  for (const [, name, one, other] of subset.replace(COMMENT, "").matchAll(DECLARED)) if (!found.has(name)) found.set(name, characters(one ?? other));
  return found;
}

/** (a quote that stands in an attribute would end it) */
const quoted = (text) => (text.includes("<") ? text : text.replaceAll('"', "&quot;").replaceAll("'", "&apos;"));

class Expansion {
  #entities;
  #active = new Set();
  #length = 0;

  constructor(entities) {
    this.#entities = entities;
  }

  of(text) {
    return text.replace(REFERENCE, (whole, name) => (this.#entities.has(name) ? this.#replaced(name) : whole));
  }

  #replaced(name) {
    if (this.#active.has(name)) throw new SyntaxError(`the entity ${name} refers to itself`);
    this.#active.add(name);
    const text = this.of(this.#entities.get(name));
    this.#active.delete(name);
    this.#length += text.length;
    if (this.#length > LONGEST) throw new SyntaxError(`the entities are longer than ${LONGEST}`);
    return quoted(text);
  }
}

/** A text of XML in which the entities that it declares are replaced. */
export function withoutEntities(xml) {
  const found = DOCTYPE.exec(xml);
  if (!found?.[1].includes("<!ENTITY")) return xml;
  const end = found.index + found[0].length;
  return xml.slice(0, end) + new Expansion(declaredIn(found[1])).of(xml.slice(end));
}
