/**
 * Charts over one time axis, drawn by Debian's Chart.js, which is loaded where the first is needed.
 * @module
 */

/** @typedef {import("./minutes.js").Zone} Zone */
/** @typedef {{x: number, y: number | null, exact: string}} Point y null leaves a gap */
/**
 * @typedef {{label: string, color: string, points: Point[], stepped?: boolean, fill?: boolean, bar?: boolean,
 *   dash?: number[]}} Series
 */
/** @typedef {{from: number, to: number, label: string}} Shade */
/**
 * @typedef {{
 *   canvas: HTMLCanvasElement, from: number, to: number, zone: Zone, series: Series[], shades: Shade[],
 *   least?: number, most?: number, unit?: (value: number) => string, lanes?: string[],
 * }} Drawing
 */

const LIBRARY = "chart.min.js";
// Y axes of all charts are of one width, so that the same minute stands at the same place.
const AXIS_WIDTH = 64;
const BAR_WIDTH = 12;
const TICK_WIDTH = 90;

/** @type {Promise<any> | null} */
let library = null;

/** @returns {Promise<any>} */
export function chartLibrary() {
  library ??= new Promise((done, failed) => {
    const script = document.createElement("script");
    script.src = LIBRARY;
    script.onload = () => done(/** @type {any} */ (window).Chart);
    script.onerror = () => {
      library = null;
      failed(new Error("the chart library isn't there"));
    };
    document.head.append(script);
  });
  return library;
}

/** @param {string} name of a colour of the style sheet */
export const colour = (name) => getComputedStyle(document.documentElement).getPropertyValue(`--${name}`).trim();

/**
 * The days' begins in a range, as many as there is room for.
 * @param {number} from
 * @param {number} to
 * @param {Zone} zone
 * @param {number} most
 * @returns {number[]}
 */
export function dayTicks(from, to, zone, most) {
  const first = zone.dateOf(from);
  const days = Math.ceil((to - from) / 1440) + 1;
  const every = [1, 2, 3, 5, 7, 10, 14, 28, 60, 120].find((each) => days / each <= most) ?? 240;
  const ticks = [];
  for (let day = 1; day <= days; day += every) {
    const minute = zone.startOf({ ...first, day: first.day + day });
    if (minute < to) ticks.push(minute);
  }
  return ticks.length > 1 ? ticks : hourTicks(from, to, most);
}

/**
 * @param {number} from
 * @param {number} to
 * @param {number} most
 */
function hourTicks(from, to, most) {
  const every = [5, 15, 30, 60, 180, 360, 720].find((each) => (to - from) / each <= most) ?? 1440;
  const ticks = [];
  for (let minute = Math.ceil(from / every) * every; minute <= to; minute += every) ticks.push(minute);
  return ticks;
}

/**
 * Shades ranges behind the lines.
 * @param {Shade[]} shades
 */
const shading = (shades) => ({
  id: "shading",
  beforeDatasetsDraw(/** @type {any} */ chart) {
    const { ctx, chartArea, scales } = chart;
    ctx.save();
    ctx.beginPath();
    ctx.rect(chartArea.left, chartArea.top, chartArea.width, chartArea.height);
    ctx.clip();
    ctx.fillStyle = colour("shade");
    for (const { from, to } of shades) {
      const left = scales.x.getPixelForValue(from);
      const width = Math.max(2, scales.x.getPixelForValue(to) - left);
      ctx.fillRect(left, chartArea.top, width, chartArea.height);
    }
    ctx.restore();
  },
});

/**
 * Writes the name of each lane above its bars.
 * @param {string[]} lanes
 */
const laneNames = (lanes) => ({
  id: "lanes",
  afterDatasetsDraw(/** @type {any} */ chart) {
    const { ctx, chartArea, scales } = chart;
    ctx.save();
    ctx.fillStyle = colour("text");
    ctx.font = "12px sans-serif";
    lanes.forEach((name, lane) => ctx.fillText(name, chartArea.left + 4, scales.y.getPixelForValue(lane) - BAR_WIDTH));
    ctx.restore();
  },
});

/** @param {Series} series */
function dataset({ label, color, points, stepped = false, fill = false, bar = false, dash = [] }) {
  return {
    label,
    data: points,
    borderColor: color,
    backgroundColor: fill ? `${color}33` : color,
    fill,
    stepped,
    borderWidth: bar ? BAR_WIDTH : 2,
    borderCapStyle: "butt",
    borderDash: dash,
    pointRadius: 0,
    pointHitRadius: 8,
    pointHoverRadius: bar ? 0 : 4,
    spanGaps: false,
    clip: 2,
  };
}

/** @param {Drawing} drawing */
function timeAxis({ from, to, zone, canvas }) {
  const isLong = to - from > 2 * 1440;
  return {
    type: "linear",
    min: from,
    max: to,
    grid: { color: colour("line") },
    ticks: {
      color: colour("text"),
      maxRotation: 0,
      autoSkip: false,
      callback: (/** @type {number} */ minute) => (isLong ? zone.dayAndMonth(minute) : zone.time(minute)),
    },
    afterBuildTicks(/** @type {any} */ axis) {
      const most = Math.max(2, Math.floor((canvas.clientWidth - AXIS_WIDTH) / TICK_WIDTH));
      axis.ticks = dayTicks(from, to, zone, most).map((value) => ({ value }));
    },
  };
}

/** @param {Drawing} drawing */
function valueAxis({ least, most, unit, lanes }) {
  return {
    suggestedMin: lanes ? undefined : least,
    suggestedMax: lanes ? undefined : most,
    min: lanes ? -0.7 : undefined,
    max: lanes ? lanes.length - 0.4 : undefined,
    reverse: Boolean(lanes),
    grid: { color: colour("line"), display: !lanes },
    afterFit(/** @type {any} */ axis) {
      axis.width = AXIS_WIDTH;
    },
    ticks: { color: colour("text"), display: !lanes, maxTicksLimit: 6, callback: unit },
  };
}

/**
 * Draws a chart. Nothing in it moves.
 * @param {Drawing} drawing
 * @returns {Promise<{destroy: () => void}>}
 */
export async function draw(drawing) {
  const { canvas, series, shades, lanes, zone } = drawing;
  const Chart = await chartLibrary();
  return new Chart(canvas, {
    type: "line",
    data: { datasets: series.map(dataset) },
    options: {
      animation: false,
      responsive: true,
      maintainAspectRatio: false,
      parsing: false,
      normalized: true,
      interaction: lanes ? { mode: "nearest", intersect: false } : { mode: "index", intersect: false },
      layout: { padding: { right: 12, top: 4 } },
      scales: { x: timeAxis(drawing), y: valueAxis(drawing) },
      plugins: {
        legend: { display: series.length > 1 && !lanes, labels: { color: colour("text"), boxWidth: 16, boxHeight: 2 } },
        tooltip: {
          callbacks: {
            title: (/** @type {any[]} */ items) => (items.length ? zone.full(items[0].raw.x) : ""),
            label: (/** @type {any} */ item) => `${item.dataset.label}: ${item.raw.exact}`,
          },
        },
      },
    },
    plugins: [shading(shades), ...(lanes ? [laneNames(lanes)] : [])],
  });
}
