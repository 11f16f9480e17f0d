import { createDocument } from "huckleport";

const document = createDocument();
const text = document.createTextNode("some text");
const bookmark = document.createRange();
bookmark.selectNodeContents(text);
text.insertData(4, " more");
console.log(`${bookmark}`);
