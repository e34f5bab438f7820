// What things are called and mean, in the words of docs/protocol.md and docs/formats.md. The companion reads words.json, too.
import { WORDS } from "./words_json.js";

export const ENDS = WORDS.ends;
export const STATES = WORDS.states;

/** What the code of a Reset frame means, in two digits. */
export function codeWords(code) {
  return WORDS.codes[code] ?? (parseInt(code, 16) >= 0x80 ? "device specific" : "no code of this protocol");
}

/** Why a line is refused. */
export function causeWords(cause) {
  return (WORDS.causes[cause] ?? cause).replace("{first}", "fsoe 1 pair").replace("{most}", "200,000 events");
}

/** What an event is, before anything is known of what it does. */
export function eventWords(event, arrow) {
  const end = `the ${ENDS[event.at]}`;
  const peer = ENDS[event.at === "m" ? "s" : "m"];
  const which = event.back === 1 ? `the last frame that the ${peer} sent` : `the frame ${event.back} back of those that the ${peer} sent`;
  const since = arrow ? `, in event ${arrow.from},` : "";
  switch (event.kind) {
    case "deliver":
      return `${which}${since} comes to ${end}${arrow?.kind === "again" ? ", not for the first time" : ""}`;
    case "alter":
      return `${which}${since} comes to ${end} with byte ${event.place} altered by the mask ${event.mask.toString(16).padStart(2, "0")}`;
    case "invent":
      return `a frame that nobody sent comes to ${end}`;
    case "tick":
      return `one tick at ${end}`;
    case "put":
      return `${end} offers the data ${event.hex} from now on`;
    case "hold":
      return event.on ? `${end} sends fail-safe data in place of its offer from now on` : `${end} sends its offer from now on`;
    case "nonce":
      return `${event.id} is the id of each session that ${end} begins from now on`;
    default:
      return `${end} is told to reset`;
  }
}

/** What an end did. */
export function didWords(did) {
  switch (did.word) {
    case "took":
      return `takes the frame: ${did.command}`;
    case "drop":
      return `drops the frame without an answer: ${WORDS.drops[did.why]}`;
    case "reset":
      if (did.cause === "own") return "resets, as it was told to";
      if (did.cause === "peer") return `resets, since its peer sent a Reset frame with code ${did.code}: ${codeWords(did.code)}`;
      return `finds a fault, and resets with code ${did.code}: ${codeWords(did.code)}`;
    case "again":
      return "sends a frame";
    default:
      return "does nothing that is seen";
  }
}

/** What an arrow of the chart is called; a plain one has no name. */
export const ARROWS = { plain: "", late: "late", again: "again", altered: "altered", invented: "invented" };

/** How the run ended, by the program's status. */
export function endingWords(status, place, events) {
  switch (status) {
    case 0:
      return `All ${events} events were run, without an “other” entry: the law of the pair holds of every line.`;
    case 1:
      return `All ${events} events were run. Entry ${place} is the first “other” one: the law of the pair holds of the lines before it.`;
    case 4:
      return `Line ${place} is refused. The events before it were run; such a report says nothing of an “other” entry.`;
    default:
      return `The run ended with status ${status} at place ${place}.`;
  }
}
