/** DOMException, and what a status of the library is called by it. */
import { native, STUCK, TOO_LONG } from "./core.js";
import { known } from "./webidl.js";
import { makeThing, thingOf } from "./wrappers.js";

/** The standard's names of exceptions that have a code, in the order of their codes from 1 on; some codes have no name any more. */
const CODES = [
  ["IndexSizeError", "INDEX_SIZE_ERR"],
  [null, "DOMSTRING_SIZE_ERR"],
  ["HierarchyRequestError", "HIERARCHY_REQUEST_ERR"],
  ["WrongDocumentError", "WRONG_DOCUMENT_ERR"],
  ["InvalidCharacterError", "INVALID_CHARACTER_ERR"],
  [null, "NO_DATA_ALLOWED_ERR"],
  ["NoModificationAllowedError", "NO_MODIFICATION_ALLOWED_ERR"],
  ["NotFoundError", "NOT_FOUND_ERR"],
  ["NotSupportedError", "NOT_SUPPORTED_ERR"],
  ["InUseAttributeError", "INUSE_ATTRIBUTE_ERR"],
  ["InvalidStateError", "INVALID_STATE_ERR"],
  ["SyntaxError", "SYNTAX_ERR"],
  ["InvalidModificationError", "INVALID_MODIFICATION_ERR"],
  ["NamespaceError", "NAMESPACE_ERR"],
  ["InvalidAccessError", "INVALID_ACCESS_ERR"],
  [null, "VALIDATION_ERR"],
  ["TypeMismatchError", "TYPE_MISMATCH_ERR"],
  ["SecurityError", "SECURITY_ERR"],
  ["NetworkError", "NETWORK_ERR"],
  ["AbortError", "ABORT_ERR"],
  ["URLMismatchError", "URL_MISMATCH_ERR"],
  ["QuotaExceededError", "QUOTA_EXCEEDED_ERR"],
  ["TimeoutError", "TIMEOUT_ERR"],
  ["InvalidNodeTypeError", "INVALID_NODE_TYPE_ERR"],
  ["DataCloneError", "DATA_CLONE_ERR"],
];

const codeOf = (name) => (name === null ? 0 : CODES.findIndex(([its]) => its === name) + 1);

/** The messages of statuses. */
const MESSAGES = new Map([
  [native.HP_INDEX_SIZE_ERROR, "the offset is past the end"],
  [native.HP_HIERARCHY_REQUEST_ERROR, "the node cannot be inserted there"],
  [native.HP_WRONG_DOCUMENT_ERROR, "the nodes have different roots"],
  [native.HP_INVALID_CHARACTER_ERROR, "a name or a text has a character that it may not have"],
  [native.HP_NOT_FOUND_ERROR, "the node is not a child of this one"],
  [native.HP_NOT_SUPPORTED_ERROR, "this is not supported"],
  [native.HP_INVALID_STATE_ERROR, "this is not possible now"],
  [native.HP_INVALID_NODE_TYPE_ERROR, "a node of this kind cannot be used here"],
  [native.HP_TYPE_ERROR, "the node is of the wrong kind, or options contradict each other"],
  [native.HP_LIMIT, "the session has no number left for a new object"],
  [native.HP_CLOSED, "the session is closed"],
  [STUCK, "a call of the module did not end: no session of it can be used any more"],
]);

/** The name of the exception that stands for a status: the standard's where it has one. */
function nameOf(status) {
  if (status === native.HP_LIMIT) return "QuotaExceededError";
  return CODES[status - 1]?.[0] ?? "InvalidStateError";
}

class ExceptionIs {
  constructor(message, name) {
    this.message = message;
    this.name = name;
  }
}

const exceptionOf = (it) => thingOf(it, ExceptionIs);

function inspected() {
  return exceptionOf(this) ? this.stack : Object.prototype.toString.call(this);
}

export const DOMException = known({
  name: "DOMException",
  is: (it) => exceptionOf(it) !== undefined,
  construct: [
    ['DOMString = ""', "DOMString = undefined"],
    (realm, message, name = "Error") => {
      const made = makeThing(realm, "DOMException", new ExceptionIs(message, name));
      Error.captureStackTrace?.(made, made.constructor);
      return made;
    },
  ],
  constants: Object.fromEntries(CODES.map(([, name], at) => [name, at + 1])),
  attributes: {
    name: (it) => exceptionOf(it).name,
    message: (it) => exceptionOf(it).message,
    code: (it) => codeOf(exceptionOf(it).name),
  },
  finish(realm, made) {
    Object.setPrototypeOf(made.prototype, realm.global.Error.prototype);
    // (so that node shows it as it shows an Error)
    const shown = { value: inspected, writable: true, configurable: true };
    Object.defineProperty(made.prototype, Symbol.for("nodejs.util.inspect.custom"), shown);
  },
});

/** What a refusal is in a realm. */
export function exceptionFor(realm, refusal) {
  const { status } = refusal;
  const message = refusal.message || (MESSAGES.get(status) ?? "");
  if (status === native.HP_TYPE_ERROR) return new realm.global.TypeError(message);
  if (status === TOO_LONG) return new realm.global.RangeError("the text is longer than the longest string");
  if (status === native.HP_OUT_OF_MEMORY) return new realm.global.RangeError("out of memory: nothing has changed, or the session has ended: then it refuses every later change like this");
  return new realm.interfaces.DOMException(message, nameOf(status));
}
