// The files that are dropped or chosen, with those in folders.

import { endsIn, FOLDER_ENDINGS } from "./endings.js";

/** The endings of files that are checked in a folder. */
export const ENDINGS = [...FOLDER_ENDINGS, ".json"];

/** What is dropped: `files` as { name, file }, and how many others lie in the folders. */
export async function droppedFiles(transfer) {
  // The items are there only until this function first waits. A page from a file: address gets no file from an entry in Chromium, so
  // folders are read by their handles where there are such.
  const items = [...transfer.items].filter((item) => item.kind === "file");
  const dropped = items.map((item) => ({ file: item.getAsFile(), entry: item.webkitGetAsEntry?.(), handle: item.getAsFileSystemHandle?.() }));
  const found = { files: [], others: 0 };
  for (const { file, entry, handle } of dropped) {
    const given = await handle?.catch(() => null);
    if (given?.kind === "directory") await takeHandle(given, given.name, found);
    else if (entry?.isDirectory) await takeEntry(entry, entry.name, found);
    else if (file) found.files.push({ name: file.name, file });
  }
  return found;
}

async function take(name, fileOf, found) {
  if (endsIn(name, ENDINGS)) found.files.push({ name, file: await fileOf() });
  else found.others++;
}

const byName = (a, b) => (a.name < b.name ? -1 : 1);

async function takeHandle(folder, path, found) {
  const inner = [];
  for await (const it of folder.values()) inner.push(it);
  for (const it of inner.sort(byName)) {
    const name = `${path}/${it.name}`;
    await (it.kind === "directory" ? takeHandle(it, name, found) : take(name, () => it.getFile(), found));
  }
}

async function takeEntry(folder, path, found) {
  for (const it of await entriesOf(folder)) {
    const name = `${path}/${it.name}`;
    await (it.isDirectory ? takeEntry(it, name, found) : take(name, () => new Promise((done, failed) => it.file(done, failed)), found));
  }
}

/** The entries of a folder, by name. A reader gives a hundred at once, and none at the end. */
async function entriesOf(folder) {
  const reader = folder.createReader();
  const all = [];
  for (;;) {
    const some = await new Promise((done, failed) => reader.readEntries(done, failed));
    if (!some.length) return all.sort(byName);
    all.push(...some);
  }
}

/** What is chosen: of a folder the files with the endings, otherwise all. */
export function chosenFiles(list, isFolder) {
  const all = [...list].map((file) => ({ name: file.webkitRelativePath || file.name, file }));
  const files = isFolder ? all.filter(({ name }) => endsIn(name, ENDINGS)) : all;
  files.sort((a, b) => (isFolder ? (a.name < b.name ? -1 : 1) : 0));
  return { files, others: all.length - files.length };
}
