/** Progress bars and meters: numbers that bound one another (HTML Standard, sections 4.10.13 and 4.10.14). */
import { numberIn } from "./steps.js";

const attribute = (name, get) => [name, { type: "double", get, set: (element, value) => element.setAttribute(name, `${value}`) }];
const bounded = (value, least, most) => Math.min(Math.max(value, least), most);
const written = (element, name, absent) => numberIn(element.getAttribute(name)) ?? absent;

function mostOf(progress) {
  const most = written(progress, "max", 1);
  return most > 0 ? most : 1;
}

const progressOf = (progress) => bounded(written(progress, "value", 0), 0, mostOf(progress));

export const progressMembers = {
  ...Object.fromEntries([attribute("value", progressOf), attribute("max", mostOf)]),
  position: (progress) => (progress.hasAttribute("value") ? progressOf(progress) / mostOf(progress) : -1),
};

const meter = {
  min: (it) => written(it, "min", 0),
  max: (it) => Math.max(written(it, "max", 1), meter.min(it)),
  value: (it) => bounded(written(it, "value", 0), meter.min(it), meter.max(it)),
  low: (it) => bounded(written(it, "low", meter.min(it)), meter.min(it), meter.max(it)),
  high: (it) => bounded(written(it, "high", meter.max(it)), meter.low(it), meter.max(it)),
  optimum: (it) => bounded(written(it, "optimum", (meter.min(it) + meter.max(it)) / 2), meter.min(it), meter.max(it)),
};

export const meterMembers = Object.fromEntries(Object.entries(meter).map(([name, get]) => attribute(name, get)));
