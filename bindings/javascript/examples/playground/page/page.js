// The page: the lines that are played, the step that is shown, typed commands and clicks.
import { callOf } from "./calls.js";
import { groups, openPlace, template } from "./commands.js";
import { dialogue, names } from "./dialogues.js";
import { element, others, records, tokenTexts, trees } from "./drawing.js";
import { linesOfHTML } from "./markup.js";
import { play as played } from "./play.js";

const part = (id) => document.getElementById(id);

// The played lines: the first `count` lines of a dialogue (all if it is null), and then lines of one's own. Each step is the state that a line left.
const state = { name: null, count: null, more: [], steps: [], at: 0 };

const MOST_LINES = 500;

// The lines that are played: some of a dialogue, and then one's own.
function linesOf({ name, count, more }) {
  const found = name === null ? { lines: [], options: {} } : dialogue(name);
  const lines = [...found.lines.slice(0, count ?? found.lines.length), ...more];
  if (lines.length > MOST_LINES) throw new Error(`more than ${MOST_LINES} lines`);
  if (more.some((line) => line.includes("\n"))) throw new Error("a command is one line");
  return { lines, options: found.options };
}

function tell(message = "") {
  part("fault").textContent = message;
}

// Plays lines from the beginning, and shows a step: the last one where none is named.
function play({ name, count, more }, at) {
  try {
    const { lines, options } = linesOf({ name, count, more });
    const steps = played(lines, options);
    Object.assign(state, { name, count, more, steps });
    tell();
    drawLines();
    show(Math.min(at ?? steps.length - 1, steps.length - 1));
  } catch (fault) {
    tell(fault.message);
  }
}

function lineOf(step, at) {
  const { line, reply } = step;
  const answer = element("code", reply.startsWith('{"error"') ? "reply refused" : "reply", reply);
  const button = element("button", "line", element("code", "command", line), answer, element("code", "call", callOf(step, groups())));
  button.type = "button";
  button.dataset.step = at + 1;
  return element("li", "", button);
}

function drawLines() {
  part("lines").replaceChildren(...state.steps.slice(1).map(lineOf));
}

// Shows what one step left.
function show(at) {
  state.at = at;
  const [before, step] = [state.steps[at - 1], state.steps[at]];
  for (const it of part("lines").querySelectorAll(".line")) it.setAttribute("aria-current", String(Number(it.dataset.step) === at));
  for (const it of part("lines").querySelectorAll(".line")) it.classList.toggle("later", Number(it.dataset.step) > at);
  part("lines").querySelector('[aria-current="true"]')?.scrollIntoView({ block: "nearest" });
  part("trees").replaceChildren(...trees(step, before));
  part("texts").replaceChildren(...tokenTexts(step));
  part("records").replaceChildren(...records(step));
  part("others").replaceChildren(...others(step));
  part("place").textContent = `${at} of ${state.steps.length - 1}`;
  part("link").href = linkTo(state);
  part("link").textContent = "copy link";
  for (const id of ["first", "back"]) part(id).disabled = at === 0;
  for (const id of ["forward", "last"]) part(id).disabled = at === state.steps.length - 1;
}

// Adds a command after the step that is shown, and removes the later ones.
function add(line) {
  const own = state.steps.length - 1 - state.more.length;
  const count = state.name === null ? 0 : Math.min(state.at, own);
  return play({ name: state.name, count, more: [...state.more.slice(0, Math.max(0, state.at - own)), line] });
}

function select(input) {
  const place = openPlace(input.value);
  input.focus();
  if (place) input.setSelectionRange(...place);
  else input.setSelectionRange(input.value.length, input.value.length);
}

// A number that is clicked fills the next open place of the command.
function fill(number) {
  const input = part("command");
  const place = openPlace(input.value);
  if (!place) return;
  input.value = input.value.slice(0, place[0]) + number + input.value.slice(place[1]);
  select(input);
}

function drawCommands(group) {
  const buttons = groups()[group].map((command) => {
    const it = element("button", "", command.split(" ")[0]);
    it.type = "button";
    it.title = command;
    it.dataset.command = command;
    return it;
  });
  part("commands").replaceChildren(...buttons);
}

// Copies the link, and goes to it, so that the address has it too.
async function copyLink(event) {
  event.preventDefault();
  const { href } = part("link");
  history.replaceState(null, "", href);
  await navigator.clipboard.writeText(href);
  part("link").textContent = "copied";
}

function start(event) {
  event.preventDefault();
  const html = part("html").value.trim();
  if (!html) return;
  part("dialogue").value = "";
  play({ name: null, count: null, more: linesOfHTML(html) });
}

function listen() {
  part("start").addEventListener("submit", start);
  part("link").addEventListener("click", (event) => copyLink(event).catch((fault) => tell(fault.message)));

  const steps = { first: () => 0, back: () => state.at - 1, forward: () => state.at + 1, last: () => state.steps.length - 1 };
  for (const [id, to] of Object.entries(steps)) part(id).addEventListener("click", () => show(to()));
  part("lines").addEventListener("click", ({ target }) => target.closest(".line") && show(Number(target.closest(".line").dataset.step)));
  part("trees").addEventListener("click", ({ target }) => target.dataset.node !== undefined && fill(target.dataset.node));
  part("group").addEventListener("change", ({ target }) => drawCommands(target.value));
  part("dialogue").addEventListener("change", ({ target }) => play({ name: target.value || null, count: null, more: [] }));
  part("commands").addEventListener("click", ({ target }) => {
    if (!target.dataset.command) return;
    part("command").value = template(target.dataset.command);
    select(part("command"));
  });
  part("entry").addEventListener("submit", (event) => {
    event.preventDefault();
    const line = part("command").value.trim();
    if (!line) return;
    add(line);
    part("command").value = "";
  });
  document.addEventListener("keydown", (event) => {
    if (["INPUT", "SELECT"].includes(event.target.tagName)) return;
    const id = { ArrowLeft: "back", ArrowRight: "forward", Home: "first", End: "last" }[event.key];
    if (id) part(id).click();
  });
}

function drawDialogues() {
  const all = names();
  const subjects = [...new Set(all.map((name) => name.split("/")[0]))];
  for (const subject of subjects) {
    const group = element("optgroup");
    group.label = subject.replaceAll("_", " ");
    group.append(...all.filter((name) => name.startsWith(`${subject}/`)).map((name) => new Option(name.split("/")[1].replaceAll("_", " "), name)));
    part("dialogue").append(group);
  }
}

// Returns a link with the played lines and the shown step, after the sign # of the address.
function linkTo({ name, count, more, at }) {
  return `#${new URLSearchParams(Object.entries({ dialogue: name, count, step: at, lines: more.length ? JSON.stringify(more) : null }).filter(([, it]) => it !== null))}`;
}

const numberIn = (words, name) => (words.has(name) ? Number(words.get(name)) : null);

// What the address asks for, as #dialogue=ranges/ends_after_split&step=12
function asked() {
  const words = new URLSearchParams(location.hash.slice(1) || location.search);
  const more = JSON.parse(words.get("lines") ?? "[]").map(String);
  return [{ name: words.get("dialogue"), count: numberIn(words, "count"), more }, numberIn(words, "step") ?? undefined];
}

function follow() {
  try {
    const [what, step] = asked();
    part("dialogue").value = what.name ?? "";
    play(what, step);
  } catch (fault) {
    tell(fault.message);
  }
}

part("group").append(...Object.keys(groups()).map((group) => new Option(group)));
drawCommands("making");
listen();
drawDialogues();
follow();
window.addEventListener("hashchange", follow);
document.documentElement.dataset.ready = "true";
