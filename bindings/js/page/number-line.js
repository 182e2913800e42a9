// A number line of versions, as SVG: the versions that are bounds, in their order and at equal distances, and a row for each alternative.

import { sort } from 'deno-semver';

const SPACE = 'http://www.w3.org/2000/svg';
const ROW = 44;
const WIDTH = 860; // of the page
const STEPS = [90, 130]; // the smallest and the largest distance of two marks, unless their labels need more
const MARGIN = 70;
const RADIUS = 6;
const CHARACTER = 8; // at least the width of a character of a label
const LONGEST = 30; // the characters of a label; the table has the whole text

function element(name, attributes, ...children) {
  const made = document.createElementNS(SPACE, name);
  for (const [key, value] of Object.entries(attributes)) made.setAttribute(key, value);
  made.append(...children);
  return made;
}

const shortened = (text) => (text.length > LONGEST ? `${text.slice(0, LONGEST - 1)}…` : text);
const widthOf = (text) => CHARACTER * shortened(text).length;

const numbersOf = (version) => version.split(/[-+]/, 1)[0];

/** From where to where pre-releases match: within three numbers, below the release and between the bounds. */
function preReleaseBands({ start, end, preReleases }) {
  if (preReleases === 'all') return [{ from: start?.version, to: end?.version }];
  return preReleases.map((numbers) => ({
    from: start && numbersOf(start.version) === numbers && start.version !== numbers ? start.version : `${numbers}-0`,
    to: end && numbersOf(end.version) === numbers ? end.version : numbers,
  }));
}

/** The versions on the axis, the lowest first: bounds, and the ends of pre-releases. */
function marksOf(rows) {
  const bounds = rows.flatMap(({ start, end }) => [start?.version, end?.version]);
  const bands = rows.flatMap(preReleaseBands).flatMap(({ from, to }) => [from, to]);
  return sort([...new Set([...bounds, ...bands].filter((version) => version !== undefined))]);
}

function circle(x, y, { inclusive }) {
  const fill = inclusive ? 'currentColor' : 'var(--background)';
  return element('circle', { cx: x, cy: y, r: RADIUS, fill, stroke: 'currentColor', 'stroke-width': 2 });
}

function arrow(x, y, direction) {
  const back = x - direction * 10;
  return element('path', { d: `M${back},${y - 6} L${x},${y} L${back},${y + 6}`, fill: 'none', stroke: 'currentColor', 'stroke-width': 2 });
}

/** An end of a row: a circle at its bound, or an arrow where it has none. */
function endOf(bound, x, y, direction) {
  return bound ? circle(x, y, bound) : arrow(x, y, direction);
}

function line(from, to, y, className) {
  return element('line', { x1: from, y1: y, x2: to, y2: y, class: className });
}

/** The text of a row above its beginning, or further left where it would leave the picture. */
function labelOf(text, from, y, axis, className) {
  const x = Math.min(from + 8, axis.width - widthOf(text));
  return element('text', { x, y: y - 12, class: className }, shortened(text));
}

function validRow(row, y, axis) {
  const [from, to] = [axis.placeOf(row.start?.version) ?? axis.first, axis.placeOf(row.end?.version) ?? axis.last];
  const bands = preReleaseBands(row).map((band) =>
    line(axis.placeOf(band.from) ?? axis.first, axis.placeOf(band.to) ?? axis.last, y, 'pre-releases'));
  const ends = [endOf(row.start, from, y, -1), endOf(row.end, to, y, 1)];
  const label = labelOf(row.text || '*', from, y, axis, 'range-text');
  return element('g', { class: row.side }, ...bands, line(from, to, y, row.lowest === null ? 'nothing' : 'range'), ...ends, label);
}

function leftOutRow(row, y, axis) {
  const label = labelOf(row.text, axis.first, y, axis, 'left-out-text');
  return element('g', { class: 'left-out' }, line(axis.first, axis.last, y, 'nothing'), label);
}

/** The picture of these alternatives, each with its `side`, `first` or `second`; `description` is what it shows, for who can't see it. */
export function numberLine(rows, description) {
  const marks = marksOf(rows.filter(({ error }) => !error));
  const steps = Math.max(marks.length - 1, 1);
  const widest = Math.max(...marks.map(widthOf));
  const margin = Math.max(MARGIN, widest / 2);
  const step = Math.max(Math.min(Math.max((WIDTH - 2 * margin) / steps, STEPS[0]), STEPS[1]), widest + CHARACTER);
  const width = 2 * margin + steps * step;
  const height = ROW * rows.length + 40;
  const placeOf = (version) => (version === undefined ? undefined : margin + marks.indexOf(version) * step);
  const axis = { placeOf, width, first: MARGIN / 4, last: width - MARGIN / 4 };
  const ticks = marks.flatMap((version) => {
    const x = placeOf(version);
    const label = element('text', { x, y: height - 8, 'text-anchor': 'middle', class: 'axis-label' }, shortened(version));
    return [element('line', { x1: x, y1: 8, x2: x, y2: height - 26, class: 'axis' }), label];
  });
  const drawn = rows.map((row, index) => (row.error ? leftOutRow : validRow)(row, ROW * (index + 1) - 12, axis));
  const size = { viewBox: `0 0 ${width} ${height}`, width, height };
  return element('svg', { ...size, role: 'img', 'aria-label': description }, ...ticks, ...drawn);
}
