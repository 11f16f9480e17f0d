/** Inputs of dates and times as Dates of UTC: `valueAsDate` (HTML Standard, section 4.10.5.4). */
import { realmOf, refuse, refuseOther } from "../core.js";

const DAY = 86400000;
const two = (number) => `${number}`.padStart(2, "0");
const year = (date) => `${date.getUTCFullYear()}`.padStart(4, "0");
const month = (date) => `${year(date)}-${two(date.getUTCMonth() + 1)}`;

/** The milliseconds at which the first week of a year begins, on a Monday: that of its fourth day. */
function firstMonday(its) {
  const fourth = Date.UTC(its, 0, 4);
  return fourth - ((new Date(fourth).getUTCDay() + 6) % 7) * DAY;
}

function week(date) {
  const thursday = new Date(date.getTime() + (3 - ((date.getUTCDay() + 6) % 7)) * DAY);
  return `${year(thursday)}-W${two(Math.floor((thursday.getTime() - firstMonday(thursday.getUTCFullYear())) / (7 * DAY)) + 1)}`;
}

function time(date) {
  const [whole] = /\d\d:\d\d:\d\d(?:\.\d+)?/.exec(date.toISOString());
  return whole.replace(/\.000$/, "").replace(/:00$/, "");
}

function parsedDate(text) {
  const at = Date.parse(`${text}T00:00:00Z`);
  return !Number.isNaN(at) && new Date(at).toISOString().startsWith(text) ? at : NaN;
}

function parsedWeek(text) {
  const [, its, number] = /^(\d{4})-W(\d\d)$/.exec(text) ?? [];
  const at = firstMonday(Number(its)) + (Number(number) - 1) * 7 * DAY;
  return its && number > 0 && week(new Date(at)) === text ? at : NaN;
}

/** The types of inputs that have a Date: how the value is read, as milliseconds, and written. */
const KINDS = {
  date: [parsedDate, (date) => `${month(date)}-${two(date.getUTCDate())}`],
  month: [(text) => (/^\d{4}-\d\d$/.test(text) ? parsedDate(`${text}-01`) : NaN), month],
  week: [parsedWeek, week],
  time: [(text) => (/^\d\d:\d\d(?::\d\d(?:\.\d{1,3})?)?$/.test(text) ? Date.parse(`1970-01-01T${text}Z`) : NaN), time],
};

const kindOf = ({ type }) => (Object.hasOwn(KINDS, type) ? KINDS[type] : null);

function get(input) {
  const kind = kindOf(input);
  const at = kind ? kind[0](input.value) : NaN;
  return Number.isNaN(at) ? null : new (realmOf(input).global.Date)(at);
}

function set(input, given) {
  if (given !== null && Object.prototype.toString.call(given) !== "[object Date]") refuseOther("a Date", given);
  const kind = kindOf(input);
  if (!kind) refuse("InvalidStateError", `an input of type '${input.type}' has no date`);
  input.value = given === null || Number.isNaN(Number(given)) ? "" : kind[1](new Date(Number(given)));
}

export const valueAsDate = { type: "any", get, set };

// ---- The same as a number: milliseconds, or months.

const LOCAL = "datetime-local";
const FIRST_YEAR = 1970;

/** Whether a type of input is one of a date or a time. */
export const hasDate = (input) => kindOf(input) !== null || input.type === LOCAL;

export function dateNumber(input) {
  if (input.type === LOCAL) return input.value === "" ? NaN : Date.parse(`${input.value}Z`);
  const at = kindOf(input)[0](input.value);
  if (input.type !== "month" || Number.isNaN(at)) return at;
  return (new Date(at).getUTCFullYear() - FIRST_YEAR) * 12 + new Date(at).getUTCMonth();
}

export function setDateNumber(input, number) {
  const date = input.type === "month" ? new Date(Date.UTC(FIRST_YEAR, number)) : new Date(number);
  const isNone = Number.isNaN(date.getTime());
  if (input.type !== LOCAL) return set(input, isNone ? null : date);
  input.value = isNone ? "" : `${KINDS.date[1](date)}T${time(date)}`;
  return undefined;
}
