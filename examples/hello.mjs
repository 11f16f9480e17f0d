// A live range is put around a text. A word is inserted into the text, and the range still covers it.
import { createDocument } from "../bindings/javascript/lib/index.js";

const document = createDocument();
const text = document.createTextNode("some text");
const bookmark = document.createRange();
bookmark.selectNodeContents(text);
text.insertData(4, " more");
console.log(`${bookmark}`);
