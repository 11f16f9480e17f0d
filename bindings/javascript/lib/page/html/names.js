/** Controls as properties of their form, by index, id and name (HTML Standard, section 4.10.3), as far as a form has no member of the name. */
import { realmOf, Wrapper } from "../core.js";
import { Traps } from "../legacy.js";

class ControlsAre {
  form = null;

  get length() {
    return this.form.elements.length;
  }

  at(index) {
    return this.form.elements[index] ?? null;
  }

  named(key) {
    return this.form.elements.namedItem(key);
  }

  names() {
    return [...this.form.elements].flatMap((it) => [it.id, it.getAttribute("name")]).filter(Boolean);
  }
}

/** The object of a form. */
export class FormWrapper extends Wrapper {
  constructor() {
    const controls = new ControlsAre();
    const traps = new Traps(controls);
    super(new Proxy(Object.create(new.target.prototype), traps));
    controls.form = this;
    traps.realm = realmOf(this);
  }
}
