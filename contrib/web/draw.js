// A drawing of a feature's geometry, with the part at a path marked. It shows what the numbers say, in the plane of longitude and
// latitude; what is no position is left out.

const SVG = "http://www.w3.org/2000/svg";
const SIZE = { width: 440, height: 260, edge: 18 };
/** More positions than this are not drawn. */
const MOST = 20_000;

const isPosition = (it) => Array.isArray(it) && it.length >= 2 && Number.isFinite(it[0]) && Number.isFinite(it[1]);

/** The steps of a path after the root, as names and indexes. */
const stepsOf = (path) => [...path.matchAll(/\.([a-z*]+)|\[(\d+)\]/g)].map(([, name, index]) => name ?? Number(index));

/** The lines and points in a value of `coordinates`: arrays of positions, and whether the path leads to or into each. */
function partsOf(value, target, parts, inside = false, depth = 0) {
  if (!Array.isArray(value) || depth > 4) return;
  const isTarget = inside || (target !== null && target.length === 0);
  if (isPosition(value)) return void parts.push({ positions: [value], isFaulty: isTarget });
  const places = value.filter(isPosition);
  if (places.length > 0 && places.length * 2 > value.length) {
    // A step further leads to one position of this line.
    const marked = target?.length ? value[target[0]] : null;
    parts.push({ positions: places, isFaulty: isTarget });
    if (isPosition(marked)) parts.push({ positions: [marked], isFaulty: true });
    return;
  }
  value.forEach((it, i) => partsOf(it, target?.length && target[0] === i ? target.slice(1) : null, parts, isTarget, depth + 1));
}

/** The geometries of a value, with the path from each to the target. */
function collect(value, steps, parts, depth = 0) {
  if (value === null || typeof value !== "object" || depth > 8) return;
  const within = (name) => (steps?.[0] === name ? steps.slice(1) : null);
  const isTarget = steps?.length === 0;
  if (value.coordinates !== undefined) partsOf(value.coordinates, isTarget ? [] : within("coordinates"), parts);
  if (value.geometry) collect(value.geometry, within("geometry"), parts, depth + 1);
  const inner = within("geometries");
  if (Array.isArray(value.geometries)) {
    value.geometries.forEach((it, i) => collect(it, inner?.[0] === i ? inner.slice(1) : null, parts, depth + 1));
  }
}

/** What is drawn of a finding: the parts and the box around them; null where there is nothing to draw. */
export function pictureOf({ path, feature, rule }) {
  if (!path || !feature?.value) return null;
  const steps = stepsOf(path);
  const parts = [];
  // In a collection the first two steps lead to the feature. A fault of the feature itself marks no part of its geometry.
  const inner = feature.index === null ? steps : steps.slice(2);
  collect(feature.value, inner.length ? inner : null, parts);
  const positions = parts.flatMap((it) => it.positions);
  if (positions.length === 0 || positions.length > MOST) return null;
  const box = { west: Infinity, south: Infinity, east: -Infinity, north: -Infinity };
  for (const [x, y] of positions) {
    box.west = Math.min(box.west, x);
    box.east = Math.max(box.east, x);
    box.south = Math.min(box.south, y);
    box.north = Math.max(box.north, y);
  }
  // One point alone shows nothing.
  if (box.west === box.east && box.south === box.north) return null;
  return { parts, box, isOpenRing: rule === "G15" };
}

function shape(kind, attributes) {
  const it = document.createElementNS(SVG, kind);
  for (const [name, value] of Object.entries(attributes)) it.setAttribute(name, value);
  return it;
}

/** The drawing as an SVG element; `label` says what it shows. */
export function drawingOf({ parts, box, isOpenRing }, label) {
  const { width, height, edge } = SIZE;
  const [wide, high] = [box.east - box.west, box.north - box.south];
  // A degree of longitude is shorter away from the equator.
  const squeeze = Math.max(0.1, Math.cos((Math.min(89, Math.abs(box.north + box.south) / 2) * Math.PI) / 180));
  const scale = Math.min((width - 2 * edge) / (wide * squeeze || 1e-9), (height - 2 * edge) / (high || 1e-9), 1e9);
  const [left, top] = [(width - wide * squeeze * scale) / 2, (height - high * scale) / 2];
  const at = ([x, y]) => [(left + (x - box.west) * squeeze * scale).toFixed(1), (top + (box.north - y) * scale).toFixed(1)];
  const svg = shape("svg", { viewBox: `0 0 ${width} ${height}`, role: "img", "aria-label": label, class: "drawing" });
  // What is faulty is drawn last, over the rest.
  for (const { positions, isFaulty } of [...parts].sort((a, b) => a.isFaulty - b.isFaulty)) {
    const points = positions.map(at);
    const name = isFaulty ? "faulty" : "plain";
    const line = (those, kind) => svg.append(shape("polyline", { points: those.map((it) => it.join(",")).join(" "), class: kind }));
    if (points.length > 1) line(points, name);
    // What lacks of a ring that is not closed.
    if (isFaulty && isOpenRing && points.length > 1) line([points.at(-1), points[0]], "faulty lacking");
    const ends = isFaulty && points.length > 1 ? [points[0], points.at(-1)] : points.length === 1 ? points : [];
    for (const [cx, cy] of ends) svg.append(shape("circle", { cx, cy, r: isFaulty ? 5 : 3, class: name }));
  }
  return svg;
}
