// Claims about flows and distances, judged, certified and made by functions that are proved, compiled to WebAssembly by
// a translation that isn't. A yes is returned, and a no is thrown as Refused.
import {library} from "./loaded.js";

export {OutOfMemory, Trapped} from "./library.js";
export {
    Beyond, Certified, Feasible, GaveUp, Infeasible, NotOptimal,
    PastLimit, Refused, Solved, UNREACHED, Verdict,
} from "./answers.js";
export * from "./texts.js";
export * from "./arrays.js";
export {read, write} from "./reading.js";

/** The version of the module. */
export const version = library.version;

/** Whether the module was compiled from code that is proved. */
export const proved = library.proved;
