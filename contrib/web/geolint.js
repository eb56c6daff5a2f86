// geolint for pages and for Node: is a text GeoJSON (RFC 7946), and otherwise where and why not.
//
//     import { load } from "geolint";
//     const geolint = await load();
//     const verdict = await geolint.check(file);           // bytes, a Blob or File, a ReadableStream, an async iterable
//
// The verdict comes from a WebAssembly module of proved source. What stands in these files of JavaScript is tested.

import { Geolint, PATH_REACH } from "./check.js";

export { Geolint, PATH_REACH };
export * from "./report.js";
export * from "./terminal.js";

/** Compiles the module: its bytes, a WebAssembly.Module, or by itself the file `geolint.wasm` beside this one. */
export async function load(module = undefined) {
  if (typeof WebAssembly === "undefined") throw new Error("there is no WebAssembly here: it may be switched off");
  if (module instanceof WebAssembly.Module) return new Geolint(module);
  return new Geolint(await WebAssembly.compile(module ?? (await ownModule())));
}

async function ownModule() {
  const url = new URL("./geolint.wasm", import.meta.url);
  if (url.protocol !== "file:") {
    const answer = await fetch(url);
    if (!answer.ok) throw new Error(`${url} cannot be loaded: status ${answer.status}`);
    return answer.arrayBuffer();
  }
  const { readFile } = await import("node:fs/promises");
  return readFile(url);
}
