/** Media elements of a page without a network (HTML Standard, section 4.8.11): nothing is ever loaded, so each answers as one with no resource does. */
import { keptOf, realmOf, refuse, refuseOther } from "../core.js";
import { flags, oneOf, urls } from "./reflect.js";

/** The settings of an element that its attributes do not have. */
class Settings {
  volume = 1;
  playbackRate = 1;
  defaultPlaybackRate = 1;
  preservesPitch = true;
  currentTime = 0;
  srcObject = null;

  constructor(isMuted) {
    this.muted = isMuted;
  }
}

const settingsOf = (media) => (keptOf(media).media ??= new Settings(media.hasAttribute("muted")));

const setting = (type, name) => [name, { type, get: (media) => settingsOf(media)[name], set: (media, value) => void (settingsOf(media)[name] = value) }];

const volume = {
  type: "double",
  get: (media) => settingsOf(media).volume,
  set(media, value) {
    if (value < 0 || value > 1) refuse("IndexSizeError", `the volume ${value} is not from 0 to 1`);
    settingsOf(media).volume = value;
  },
};

const srcObject = {
  type: "any",
  get: (media) => settingsOf(media).srcObject,
  set(media, value) {
    if (typeof (value ?? null) !== "object") refuseOther("a source of media", value);
    settingsOf(media).srcObject = value ?? null;
  },
};

const CONSTANTS = {
  ...{ NETWORK_EMPTY: 0, NETWORK_IDLE: 1, NETWORK_LOADING: 2, NETWORK_NO_SOURCE: 3 },
  ...{ HAVE_NOTHING: 0, HAVE_METADATA: 1, HAVE_CURRENT_DATA: 2, HAVE_FUTURE_DATA: 3, HAVE_ENOUGH_DATA: 4 },
};

/** Refuses as a browser does that can play nothing: by a promise. */
function play(media) {
  const { DOMException } = realmOf(media).interfaces;
  return realmOf(media).global.Promise.reject(new DOMException("there is nothing to play: a page without a network loads no media", "NotSupportedError"));
}

export const mediaMembers = {
  constants: CONSTANTS,
  attributes: {
    ...urls("src"),
    preload: oneOf("preload", ["none", "metadata", "auto"], "metadata"),
    ...flags("autoplay", "controls", "loop"),
    defaultMuted: flags("muted").muted,
    ...Object.fromEntries(["muted", "preservesPitch"].map((name) => setting("boolean", name))),
    ...Object.fromEntries(["playbackRate", "defaultPlaybackRate", "currentTime"].map((name) => setting("double", name))),
    srcObject,
    volume,
    currentSrc: () => "",
    networkState: () => CONSTANTS.NETWORK_EMPTY,
    readyState: () => CONSTANTS.HAVE_NOTHING,
    duration: () => NaN,
    paused: () => true,
    ended: () => false,
    seeking: () => false,
    error: () => null,
  },
  operations: {
    play: [[], play],
    pause: [[], () => undefined],
    load: [[], () => undefined],
    canPlayType: [["DOMString"], () => ""],
  },
};

export const videoMembers = { videoWidth: () => 0, videoHeight: () => 0, ...flags("playsInline", "disablePictureInPicture") };

/** Frames have no page within, as one that is in no document. */
export const frameMembers = { contentDocument: () => null, contentWindow: () => null };

