// Nodes of the package are passed to functions over TypeScript's library "dom", and absent members do not compile. This file is only compiled, never run.
import { createDocument, createPage } from "../lib/dom.js";

const depth = (node: Node): number => (node.parentNode ? depth(node.parentNode) + 1 : 0);
const label = (element: Element): string => `${element.localName}#${element.id}`;
const words = (range: Range): string[] => range.toString().split(" ");
const title = (document: Document): string => document.documentElement.tagName;
const press = (button: HTMLButtonElement): void => button.click();
const whole = (window: Window & typeof globalThis): string => window.location.href;

const document = createDocument();
const element = document.createElement("p");
const text = document.createTextNode("some text");
element.appendChild(text);
const range = document.createRange();
range.selectNodeContents(element);
export const plain: (string | number | string[])[] = [depth(element), depth(text), label(element), words(range), title(document), label(document.documentElement)];
// @ts-expect-error
element.addEventListener("click", () => {});
// @ts-expect-error
element.innerHTML.length;
// @ts-expect-error
range.getBoundingClientRect();
// @ts-expect-error
document.querySelector("p");
// @ts-expect-error
document.nosuch;

const window = createPage("<button>x</button>");
const button = window.document.querySelector("button");
if (button) press(button);
window.document.body.addEventListener("click", (event) => event.preventDefault());
const video = window.document.createElement("video");
video.muted = true;
const list = window.document.createElement("ol");
list.start = 3;
export const page: (string | number | boolean)[] = [whole(window), title(window.document), label(video), depth(list), window.innerWidth];
// @ts-expect-error
window.matchMedia("print");
// @ts-expect-error
window.localStorage.getItem("x");
// @ts-expect-error
window.document.execCommand("copy");
// @ts-expect-error
window.document.body.animate([], 1);
// @ts-expect-error
window.document.createElement("canvas").getContext("2d");
// @ts-expect-error
video.textTracks.length;
