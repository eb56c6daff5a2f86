// How many columns of a terminal a text takes (Unicode Standard Annex 11), by the rules that the native program follows.

/** The characters that are wide or fullwidth in Unicode 18.0 (DerivedEastAsianWidth.txt), as numbers and ranges in base 16. */
const WIDE = `1100-115f 231a-231b 2329-232a 23e9-23ec 23f0 23f3 25fd-25fe 2614-2615 2630-2637 2648-2653 267f 268a-268f 2693 26a1
  26aa-26ab 26bd-26be 26c4-26c5 26ce 26d4 26ea 26f2-26f3 26f5 26fa 26fd 2705 270a-270b 2728 274c 274e 2753-2755 2757 2795-2797 27b0
  27bf 2b1b-2b1c 2b50 2b55 2e80-2e99 2e9b-2ef3 2f00-2fd5 2ff0-303e 3041-3096 3099-30ff 3105-312f 3131-318e 3190-31e5 31ef-321e
  3220-3247 3250-a48c a490-a4c6 a960-a97c ac00-d7a3 f900-faff fe10-fe19 fe30-fe52 fe54-fe66 fe68-fe6b ff01-ff60 ffe0-ffe6
  16fe0-16fe4 16ff0-16ff6 17000-18cda 18cff-18d20 18d80-18df2 18e00-19191 191a0-191d2 1aff0-1aff3 1aff5-1affb 1affd-1affe
  1b000-1b128 1b132 1b150-1b152 1b155 1b164-1b168 1b170-1b2fb 1d300-1d356 1d360-1d376 1f004 1f0cf 1f18e 1f191-1f19a 1f1ae
  1f200-1f202 1f210-1f23b 1f240-1f248 1f250-1f251 1f260-1f265 1f300-1f320 1f32d-1f335 1f337-1f37c 1f37e-1f393 1f3a0-1f3ca
  1f3cf-1f3d3 1f3e0-1f3f0 1f3f4 1f3f8-1f43e 1f440 1f442-1f4fc 1f4ff-1f53d 1f54b-1f54e 1f550-1f567 1f57a 1f595-1f596 1f5a4
  1f5fb-1f64f 1f680-1f6c5 1f6cc 1f6d0-1f6d2 1f6d5-1f6d9 1f6dc-1f6df 1f6eb-1f6ec 1f6f4-1f6fc 1f7da 1f7e0-1f7eb 1f7f0 1f90c-1f93a
  1f93c-1f945 1f947-1f9ff 1fa70-1fa7c 1fa80-1fac6 1fac8 1facc-1fadd 1fadf-1faeb 1faef-1fafa 20000-2fffd 30000-3fffd`
  .split(/\s+/)
  .map((it) => it.split("-").map((number) => parseInt(number, 16)))
  .map(([from, to = from]) => [from, to]);

/** Characters that join others, and how wide all of them are. */
const JOINED = [
  // An emoji as a picture, one as a sign, and one with a colour of skin.
  [/^\p{Emoji}\ufe0f/u, 2],
  [/^(?![\u{1f200}-\u{1f2ff}])\p{Emoji_Presentation}\ufe0e/u, 1],
  [/^\p{Emoji_Modifier_Base}\p{Emoji_Modifier}/u, 2],
  // A quotation mark that is to be wide.
  [/^[\u2018\u2019\u201c\u201d]\ufe01/u, 2],
  // Two letters as one: of Arabic, Khmer, Tifinagh and Lisu.
  [/^[\u0644\u06b5-\u06b8\u076a\u08a6\u08c7]\p{Mn}*[\u0622\u0623\u0625\u0627\u0671-\u0673\u0675\u0773\u0774\u0870-\u0882]/u, 1],
  [/^\u17d2[\u1780-\u1782\u1784-\u1787\u1789-\u178c\u178e-\u1793\u1795-\u1798\u179b-\u179d\u17a0\u17a2\u17a7\u17ab\u17ac\u17af]/u, 0],
  [/^[\u2d31-\u2d65\u2d6f]\u2d7f[\u2d31-\u2d65\u2d6f]/u, 1],
  [/^[\ua4f8-\ua4fb][\ua4fc\ua4fd]/u, 1],
];
/** Characters that have a width of their own. */
const SINGLE = new Map([[0x17d8, 3], [0x115f, 2], [0x17a4, 2], [0x2d7f, 1], [0xff9e, 1], [0xff9f, 1]]);
/** Characters that take no column: marks, what is ignored, the later letters of a syllable of Hangul, and signs around numbers. */
const NONE = new RegExp(
  "^[\\p{Default_Ignorable_Code_Point}\\p{Grapheme_Extend}\\u1160-\\u11ff\\ud7b0-\\ud7c6\\ud7cb-\\ud7fb\\u0605\\u070f\\u0890\\u0891\\u08e2\\ua8fa" +
    "\\u0d4e\\u{111c2}\\u{111c3}\\u{113d1}\\u{1193f}\\u{11941}\\u{11a84}-\\u{11a89}\\u{11d46}\\u{11f02}]",
  "u",
);

function widthOfOne(character) {
  const code = character.codePointAt(0);
  if (SINGLE.has(code)) return SINGLE.get(code);
  if (code < 0x300) return code === 0xad ? 0 : 1;
  if (NONE.test(character)) return 0;
  return WIDE.some(([from, to]) => from <= code && code <= to) ? 2 : 1;
}

/** The columns that a text of a line takes. */
export function widthOf(text) {
  let width = 0;
  for (let rest = text; rest !== ""; ) {
    const [form, all] = JOINED.find(([it]) => it.test(rest)) ?? [null, 0];
    const part = form ? rest.match(form)[0] : String.fromCodePoint(rest.codePointAt(0));
    width += form ? all : widthOfOne(part);
    rest = rest.slice(part.length);
  }
  return width;
}
