/** Inputs of numbers: their bounds and steps (HTML Standard, sections 4.10.5.3.8 and 4.10.5.4). */
import { refuse } from "../core.js";

const NUMBER = /^-?(?:\d+(?:\.\d+)?|\.\d+)(?:[eE][+-]?\d+)?$/;
const NUMERIC = ["number", "range"];

/** Whether a text is a number, as the standard has one. */
export const isNumber = (text) => NUMBER.test(text);

/** The number that a text is, or null. */
export const numberIn = (text) => (text !== null && isNumber(text) ? Number(text) : null);

const numberOr = (text, absent) => numberIn(text) ?? absent;
/** Whether a type of input has a number. */
export const isNumeric = (input) => NUMERIC.includes(input.type);
const isRange = (input) => input.type === "range";

/** The value as a number, or NaN. */
export const numberOf = (input) => (isNumeric(input) && input.value !== "" ? Number(input.value) : NaN);

/** The bounds, where there are any. */
export const boundsOf = (input) => ({
  least: numberOr(input.getAttribute("min"), isRange(input) ? 0 : -Infinity),
  most: numberOr(input.getAttribute("max"), isRange(input) ? 100 : Infinity),
});

/** How far apart values are, from where they are counted; null where any value goes. */
function stepsOf(input) {
  const written = input.getAttribute("step");
  if (written?.toLowerCase() === "any") return null;
  const size = numberOr(written, 1);
  return { size: size > 0 ? size : 1, from: numberOr(input.getAttribute("min"), numberOr(input.getAttribute("value"), 0)) };
}

/** (digits beyond the 12th of a decimal fraction in binary are noise) */
const rounded = (number) => Number(number.toPrecision(12));
const stepsIn = (number, { size, from }) => rounded((number - from) / size);
const isAligned = (number, steps) => Number.isInteger(stepsIn(number, steps));
const aligned = (number, steps, round) => rounded(steps.from + round(stepsIn(number, steps)) * steps.size);

/** Whether the value is none of those that the steps lead to. */
export function isBesideSteps(input) {
  const number = numberOf(input);
  const steps = stepsOf(input);
  return !Number.isNaN(number) && steps !== null && !isAligned(number, steps);
}

/** Returns the value `count` steps up, or down if `count` is negative, within the bounds. */
function stepped(before, count, steps, { least, most }) {
  const round = count < 0 ? Math.floor : Math.ceil;
  const to = isAligned(before, steps) ? rounded(before + count * steps.size) : aligned(before, steps, round);
  if (to < least) return aligned(least, steps, Math.ceil);
  return to > most ? aligned(most, steps, Math.floor) : to;
}

/** Returns a method that goes a number of steps up, or down if `sign` is -1. */
export function step(sign) {
  return (input, count) => {
    const steps = isNumeric(input) ? stepsOf(input) : null;
    if (steps === null) refuse("InvalidStateError", "an input of this type has no steps");
    const bounds = boundsOf(input);
    if (bounds.least > bounds.most || aligned(bounds.least, steps, Math.ceil) > bounds.most) return;
    const before = Number.isNaN(numberOf(input)) ? 0 : numberOf(input);
    const to = stepped(before, sign * count, steps, bounds);
    if (sign * (to - before) >= 0) input.value = `${to}`;
  };
}
