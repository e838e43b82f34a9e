// The network on a canvas: moved by dragging, zoomed by the wheel, both by keys too. It knows nothing of the server.
import { CanvasSurface, SvgSurface } from "./surfaces.js";

export const INK = "#1c2430", QUIET = "#5b6675", LINE = "#bcc4ce", ACCENT = "#1f5fd0", MEMBER = "#9dc0f5";
// With at most so many nodes they are large, and edges show their weights.
const FEW = 40;
// With more than so many ways are drawn over them.
const MANY = 200;
// With more than so many, edges that lie over one another would hide the nodes.
const CROWDED = 800, FAINT = "#d3dae3";
const MOST_LABELS = 120;
// What is drawn in stock for dragging has at most so many points.
const MOST_POINTS = 16_000_000;
const LONGEST_LABEL = 28;

export const shortened = (name) => ([...name].length > LONGEST_LABEL ? [...name].slice(0, LONGEST_LABEL - 1).join("") + "…" : name);

const key = (a, b) => (a < b ? `${a} ${b}` : `${b} ${a}`);

/** Nothing is marked. */
export const unmarked = () => ({
  landmarks: new Set(),
  chosen: null,
  ends: [],
  cluster: new Set(),
  holders: new Set(),
  way: [],
  shortest: [],
  failed: [],
  anew: new Set(),
  cut: new Set(),
  packet: null,
});

export class Picture {
  /**
   * @param {HTMLCanvasElement} canvas
   * @param {{node: (node: number) => void, edge: (a: number, b: number) => void}} clicked hears what is clicked on
   * @param {(node: number) => string} nameOf what a node is called
   */
  constructor(canvas, clicked, nameOf) {
    this.canvas = canvas;
    this.clicked = clicked;
    this.nameOf = nameOf;
    this.marks = unmarked();
    this.nodes = [];
    this.x = this.y = [];
    this.edges = [];
    this.placeOf = new Map();
    this.scale = 40;
    this.left = this.top = 0;
    this.over = null;
    this.across = this.upright = [0, 0];
    this.isThick = this.isWhole = true;
    this.spread = 1;
    this.sheet = null;
    this.isDragged = false;
    this.listen();
    new ResizeObserver(() => this.resize()).observe(canvas);
  }

  /** Shows nodes where they stand, and edges. What is seen of it stays the same with `keep`. */
  show(part, keep) {
    this.nodes = part.nodes;
    this.x = part.x;
    this.y = part.y.map((y) => -y);
    this.placeOf = new Map(part.nodes.map((node, place) => [node, place]));
    this.edges = part.edges;
    this.over = null;
    this.bundles = this.bundled();
    const [left, right] = (this.across = ends(this.x)), [top, bottom] = (this.upright = ends(this.y));
    this.spread = Math.sqrt(Math.max(1, (right - left) * (bottom - top)) / Math.max(1, this.nodes.length));
    this.sheet = null;
    if (!keep) this.fit();
    this.paint();
  }

  /** Edges by their thickness: the light ones, which packets like, are thick. */
  bundled() {
    const weights = this.edges.filter((_, i) => i % 3 === 2).sort((a, b) => a - b);
    const limits = [0.25, 0.5, 0.75].map((part) => weights[Math.floor(part * (weights.length - 1))]);
    const isFew = this.nodes.length <= FEW;
    const widths = isFew ? [3.6, 2.6, 1.7, 1] : this.nodes.length > CROWDED ? [0.9, 0.65, 0.4, 0.25] : [2, 1.4, 0.9, 0.5];
    const bundles = widths.map((width) => ({ width, ends: [] }));
    const isSame = weights.length === 0 || weights[0] === weights[weights.length - 1];
    for (let i = 0; i < this.edges.length; i += 3) {
      const which = isSame ? 2 : limits.filter((limit) => this.edges[i + 2] > limit).length;
      bundles[which].ends.push(this.placeOf.get(this.edges[i]), this.placeOf.get(this.edges[i + 1]));
    }
    return bundles;
  }

  mark(more) {
    Object.assign(this.marks, more);
    this.sheet = null;
    this.paint();
  }

  // Where things are.

  resize() {
    const { clientWidth, clientHeight } = this.canvas;
    const ratio = window.devicePixelRatio || 1;
    this.canvas.width = Math.round(clientWidth * ratio);
    this.canvas.height = Math.round(clientHeight * ratio);
    this.sheet = null;
    // What nobody has moved stays whole, also where the legend takes another line.
    if (this.isWhole) this.fit();
    this.paint();
  }

  fit() {
    const { clientWidth: width, clientHeight: height } = this.canvas;
    if (!this.nodes.length || !width) return;
    this.isWhole = true;
    const [left, right] = this.across, [top, bottom] = this.upright;
    const margin = this.nodes.length <= FEW ? 60 : 34;
    const across = Math.max(right - left, 0.5), up = Math.max(bottom - top, 0.5);
    this.scale = Math.min((width - 2 * margin) / across, (height - 2 * margin) / up, 150);
    this.left = width / 2 - (this.scale * (left + right)) / 2;
    this.top = height / 2 - (this.scale * (top + bottom)) / 2;
    this.paint();
  }

  zoom(factor, x = this.canvas.clientWidth / 2, y = this.canvas.clientHeight / 2) {
    this.isWhole = false;
    const scale = Math.min(2_000, Math.max(0.5, this.scale * factor));
    this.left = x - ((x - this.left) * scale) / this.scale;
    this.top = y - ((y - this.top) * scale) / this.scale;
    this.scale = scale;
    this.paint();
  }

  move(x, y) {
    this.isWhole = false;
    this.left += x;
    this.top += y;
    this.paint();
  }

  /** Moves it as a person drags it: what was drawn goes along, and is drawn anew where its sheet ends. */
  drag(x, y) {
    this.isDragged = true;
    this.move(x, y);
  }

  drop() {
    this.isDragged = false;
    this.sheet = null;
    this.paint();
  }

  /** Moves the picture so that a node is seen. */
  bring(node) {
    const place = this.placeOf.get(node);
    if (place === undefined) return;
    const { clientWidth: width, clientHeight: height } = this.canvas;
    const x = this.atX(place), y = this.atY(place);
    if (x < 40 || y < 40 || x > width - 40 || y > height - 40) this.move(width / 2 - x, height / 2 - y);
  }

  atX(place) {
    return this.left + this.scale * this.x[place];
  }

  atY(place) {
    return this.top + this.scale * this.y[place];
  }

  /** The pixels between two nodes, where all of them share the room. */
  get spacing() {
    return this.scale * this.spread;
  }

  get radius() {
    if (this.nodes.length <= FEW) return Math.min(15, Math.max(7, this.scale / 6));
    return Math.min(9, Math.max(1.7, 0.2 * this.spacing));
  }

  nodeAt(x, y) {
    const near = Math.max(8, this.radius + 3);
    let found = null, least = near * near;
    for (let place = 0; place < this.nodes.length; place++) {
      const gap = (this.atX(place) - x) ** 2 + (this.atY(place) - y) ** 2;
      if (gap < least) [found, least] = [this.nodes[place], gap];
    }
    return found;
  }

  edgeAt(x, y) {
    let found = null, least = 36;
    for (let i = 0; i < this.edges.length; i += 3) {
      const a = this.placeOf.get(this.edges[i]), b = this.placeOf.get(this.edges[i + 1]);
      const gap = toSegment(x, y, this.atX(a), this.atY(a), this.atX(b), this.atY(b));
      if (gap < least) [found, least] = [[this.edges[i], this.edges[i + 1]], gap];
    }
    return found;
  }

  // What people do.

  listen() {
    const canvas = this.canvas;
    let down = null;
    canvas.addEventListener("pointerdown", (event) => {
      if (event.button !== 0) return;
      canvas.setPointerCapture(event.pointerId);
      down = { x: event.offsetX, y: event.offsetY, moved: false };
    });
    canvas.addEventListener("pointermove", (event) => {
      const { offsetX: x, offsetY: y } = event;
      if (!down) return this.hover(this.nodeAt(x, y));
      if (!down.moved && Math.hypot(x - down.x, y - down.y) < 4) return;
      canvas.classList.add("moving");
      this.drag(x - down.x, y - down.y);
      down = { x, y, moved: true };
    });
    const lift = () => {
      const was = down;
      down = null;
      canvas.classList.remove("moving");
      if (was?.moved) this.drop();
      return was;
    };
    canvas.addEventListener("pointercancel", lift);
    canvas.addEventListener("pointerup", (event) => {
      const was = lift();
      if (!was || was.moved) return;
      const node = this.nodeAt(event.offsetX, event.offsetY);
      const edge = node === null ? this.edgeAt(event.offsetX, event.offsetY) : null;
      if (node !== null) this.clicked.node(node);
      else if (edge) this.clicked.edge(...edge);
    });
    canvas.addEventListener("pointerleave", () => this.hover(null));
    canvas.addEventListener(
      "wheel",
      (event) => {
        event.preventDefault();
        this.zoom(Math.exp(-event.deltaY * (event.deltaMode ? 0.05 : 0.0015)), event.offsetX, event.offsetY);
      },
      { passive: false },
    );
    const keys = {
      ArrowLeft: () => this.move(60, 0),
      ArrowRight: () => this.move(-60, 0),
      ArrowUp: () => this.move(0, 60),
      ArrowDown: () => this.move(0, -60),
      "+": () => this.zoom(1.25),
      "=": () => this.zoom(1.25),
      "-": () => this.zoom(0.8),
      0: () => this.fit(),
    };
    canvas.addEventListener("keydown", (event) => {
      if (event.ctrlKey || event.metaKey || event.altKey || !keys[event.key]) return;
      event.preventDefault();
      keys[event.key]();
    });
  }

  hover(node) {
    if (node === this.over) return;
    this.over = node;
    this.canvas.classList.toggle("on", node !== null);
    this.paint();
  }

  // Drawing.

  /** Draws it anew with the next frame. */
  paint() {
    if (this.asked) return;
    this.asked = true;
    requestAnimationFrame(() => this.paintNow());
  }

  paintNow() {
    this.asked = false;
    const { width, height } = this.canvas;
    const context = this.canvas.getContext("2d");
    context.setTransform(1, 0, 0, 1, 0, 0);
    context.clearRect(0, 0, width, height);
    // A packet on its way is drawn anew with each frame.
    if (this.isDragged && width && height && !this.marks.packet) {
      const sheet = this.heldSheet();
      context.drawImage(sheet.canvas, sheet.x - sheet.marginX, sheet.y - sheet.marginY);
      return;
    }
    const ratio = window.devicePixelRatio || 1;
    context.scale(ratio, ratio);
    this.draw(new CanvasSurface(context));
  }

  /** What is drawn and some of what stands around it, as it is moved now; `x` and `y` say how far, in the screen's points. */
  heldSheet() {
    const ratio = window.devicePixelRatio || 1;
    const { width, height } = this.canvas;
    const sheet = this.sheet;
    if (sheet && sheet.scale === this.scale) {
      sheet.x = Math.round((this.left - sheet.left) * ratio);
      sheet.y = Math.round((this.top - sheet.top) * ratio);
      if (sheet.isAll || (Math.abs(sheet.x) <= sheet.marginX && Math.abs(sheet.y) <= sheet.marginY)) return sheet;
    }
    // A margin on each side that leaves the sheet at most so many points.
    const part = Math.max(0, Math.min(0.5, (Math.sqrt(MOST_POINTS / Math.max(1, width * height)) - 1) / 2));
    const marginX = Math.round(part * width), marginY = Math.round(part * height);
    const canvas = Object.assign(document.createElement("canvas"), { width: width + 2 * marginX, height: height + 2 * marginY });
    const context = canvas.getContext("2d");
    context.setTransform(ratio, 0, 0, ratio, marginX, marginY);
    this.draw(new CanvasSurface(context), { x: marginX / ratio, y: marginY / ratio });
    const isAll = this.isWithin(marginX / ratio, marginY / ratio);
    this.sheet = { canvas, marginX, marginY, isAll, x: 0, y: 0, left: this.left, top: this.top, scale: this.scale };
    return this.sheet;
  }

  /** Whether all nodes stand in what is seen and a margin around it, with room for their names. */
  isWithin(marginX, marginY) {
    const { clientWidth: width, clientHeight: height } = this.canvas;
    const [left, right] = this.across, [top, bottom] = this.upright, room = 100;
    return (
      this.left + this.scale * left > room - marginX &&
      this.left + this.scale * right < width + marginX - room &&
      this.top + this.scale * top > room - marginY &&
      this.top + this.scale * bottom < height + marginY - room
    );
  }

  svg() {
    const { clientWidth: width, clientHeight: height } = this.canvas;
    const measured = new CanvasSurface(document.createElement("canvas").getContext("2d"));
    const surface = new SvgSurface(width, height, (said, size) => measured.measure(said, size));
    this.draw(surface);
    return surface.toString();
  }

  png() {
    const { width, height, clientWidth, clientHeight } = this.canvas;
    const sheet = Object.assign(document.createElement("canvas"), { width, height });
    const context = sheet.getContext("2d");
    context.fillStyle = "#fff";
    context.fillRect(0, 0, width, height);
    context.scale(width / clientWidth, height / clientHeight);
    this.draw(new CanvasSurface(context));
    return new Promise((done) => sheet.toBlob(done, "image/png"));
  }

  /** Draws what is seen, and a margin of so many pixels on each side. */
  draw(surface, margin = { x: 0, y: 0 }) {
    if (!this.nodes.length) return;
    const { clientWidth: width, clientHeight: height } = this.canvas;
    const seen = { left: -margin.x, top: -margin.y, right: width + margin.x, bottom: height + margin.y };
    this.drawEdges(surface, seen);
    this.drawNodes(surface, seen);
    this.drawLabels(surface, seen);
  }

  drawEdges(surface, { left, top, right, bottom }) {
    const failed = new Set(this.marks.failed.map(([a, b]) => key(a, b)));
    const gone = [];
    for (const { width, ends } of this.bundles) {
      const points = [];
      for (let i = 0; i < ends.length; i += 2) {
        const ax = this.atX(ends[i]), ay = this.atY(ends[i]), bx = this.atX(ends[i + 1]), by = this.atY(ends[i + 1]);
        // Both ends beyond one side: nothing of it is seen.
        if ((ax < left && bx < left) || (ax > right && bx > right) || (ay < top && by < top) || (ay > bottom && by > bottom)) continue;
        const isGone = failed.size > 0 && failed.has(key(this.nodes[ends[i]], this.nodes[ends[i + 1]]));
        (isGone ? gone : points).push(ax, ay, bx, by);
      }
      surface.lines(points, { stroke: this.nodes.length > CROWDED ? FAINT : LINE, width: this.isThick ? width : Math.min(1.2, this.bundles[1].width) });
    }
    if (this.nodes.length <= MANY) this.drawWays(surface);
    surface.lines(gone, { stroke: QUIET, width: 1.4, dash: [2, 5] });
    for (let i = 0; i < gone.length; i += 4) {
      const x = (gone[i] + gone[i + 2]) / 2, y = (gone[i + 1] + gone[i + 3]) / 2;
      surface.lines([x - 5, y - 5, x + 5, y + 5, x - 5, y + 5, x + 5, y - 5], { stroke: INK, width: 2.2 });
    }
    if (this.nodes.length > FEW || this.edges.length > 240) return;
    for (let i = 0; i < this.edges.length; i += 3) {
      const a = this.placeOf.get(this.edges[i]), b = this.placeOf.get(this.edges[i + 1]);
      const x = (this.atX(a) + this.atX(b)) / 2, y = (this.atY(a) + this.atY(b)) / 2;
      if (!failed.has(key(this.edges[i], this.edges[i + 1])))
        surface.text(x, y, String(this.edges[i + 2]), { fill: QUIET, size: 11 });
    }
  }

  drawWays(surface) {
    surface.lines(this.alongside(this.marks.way), { stroke: ACCENT, width: 5 });
    surface.lines(this.alongside(this.marks.shortest), { stroke: INK, width: 1.8, dash: [5, 4] });
  }

  alongside(way) {
    const points = [];
    for (let i = 0; i + 1 < way.length; i++) {
      const a = this.placeOf.get(way[i]), b = this.placeOf.get(way[i + 1]);
      if (a !== undefined && b !== undefined) points.push(this.atX(a), this.atY(a), this.atX(b), this.atY(b));
    }
    return points;
  }

  drawNodes(surface, { left, top, right, bottom }) {
    const marks = this.marks, radius = this.radius;
    const groups = { cut: [], anew: [], plain: [], cluster: [], holders: [], both: [], landmarks: [], members: [] };
    for (let place = 0; place < this.nodes.length; place++) {
      const node = this.nodes[place], x = this.atX(place), y = this.atY(place);
      if (x < left - 20 || x > right + 20 || y < top - 20 || y > bottom + 20) continue;
      const isMember = marks.cluster.has(node), isHolder = marks.holders.has(node);
      let group = isMember ? (isHolder ? "both" : "cluster") : isHolder ? "holders" : "plain";
      if (marks.landmarks.has(node)) group = isMember ? "members" : "landmarks";
      if (marks.anew.has(node)) group = "anew";
      if (marks.cut.has(node)) group = "cut";
      groups[group].push(x, y);
    }
    const thin = Math.max(0.7, radius / 6), thick = Math.max(1.6, radius / 3.2);
    surface.dots(groups.plain, radius, radius < 4 ? { fill: "#8b95a3" } : { fill: "#fff", stroke: QUIET, width: thin });
    surface.dots(groups.cut, radius * 0.8, { fill: "#fff", stroke: LINE, width: thin });
    surface.dots(groups.anew, radius, { fill: LINE, stroke: QUIET, width: thin });
    surface.dots(groups.cluster, radius, { fill: MEMBER, stroke: ACCENT, width: thin });
    surface.dots(groups.holders, radius, { fill: "#fff", stroke: ACCENT, width: thick });
    surface.dots(groups.both, radius, { fill: MEMBER, stroke: ACCENT, width: thick });
    const large = Math.max(radius, 3.4);
    surface.dots(groups.landmarks, large, { fill: INK, stroke: "#fff", width: thin, square: true });
    surface.dots(groups.members, large, { fill: INK, stroke: ACCENT, width: thick, square: true });
    if (this.nodes.length > MANY) this.drawWays(surface);
    const own = [...new Set([...marks.way, ...marks.ends, ...(marks.chosen === null ? [] : [marks.chosen])])];
    for (const node of own) {
      const place = this.placeOf.get(node);
      if (place === undefined) continue;
      const at = [this.atX(place), this.atY(place)], isEnd = marks.ends.includes(node) || node === marks.chosen;
      const size = Math.max(radius, isEnd ? 6 : 3.4);
      const square = marks.landmarks.has(node);
      surface.dots(at, size, { fill: isEnd ? ACCENT : square ? INK : "#fff", stroke: ACCENT, width: 2.4, square });
      if (isEnd) surface.dots(at, size + 3.5, { fill: "none", stroke: ACCENT, width: 1.4, square });
    }
    if (marks.packet) {
      const a = this.placeOf.get(marks.packet.from), b = this.placeOf.get(marks.packet.to), part = marks.packet.part;
      if (a === undefined || b === undefined) return;
      const x = this.atX(a) + part * (this.atX(b) - this.atX(a)), y = this.atY(a) + part * (this.atY(b) - this.atY(a));
      surface.dots([x, y], 6.5, { fill: "#fff", stroke: ACCENT, width: 3 });
    }
  }

  /** Names, those that matter first, and none over another. */
  drawLabels(surface, { left, top, right, bottom }) {
    const marks = this.marks, radius = this.radius;
    const own = [this.over, marks.chosen, ...marks.ends, ...marks.way].filter((node) => node !== null);
    const rest = this.spacing > 34 || this.nodes.length <= 80 ? this.nodes : [];
    const taken = new Set();
    let count = 0;
    for (const node of new Set([...own, ...marks.landmarks, ...rest])) {
      const place = this.placeOf.get(node);
      if (place === undefined || count >= MOST_LABELS) continue;
      const isOwn = own.includes(node);
      if (!isOwn && rest.length === 0 && marks.landmarks.size > 12 && this.spacing < 18) continue;
      const x = this.atX(place), y = this.atY(place);
      if (x < left - 40 || y < top - 10 || x > right + 40 || y > bottom + 10) continue;
      const name = shortened(this.nameOf(node)), size = isOwn ? 13 : 12;
      const wide = surface.measure(name, size);
      if (this.nodes.length <= FEW && radius >= 9 && wide < 1.7 * radius) {
        const isDark = marks.landmarks.has(node) || marks.ends.includes(node) || node === marks.chosen;
        surface.text(x, y, name, { fill: isDark ? "#fff" : INK, size: 11.5, rim: false, bold: isOwn });
        continue;
      }
      const low = y + radius + 10;
      const cells = [];
      for (let cx = Math.floor((x - wide / 2) / 10); cx <= Math.floor((x + wide / 2) / 10); cx++)
        for (const cy of [Math.floor((low - 7) / 8), Math.floor((low + 7) / 8)]) cells.push(`${cx} ${cy}`);
      if (node !== this.over && cells.some((cell) => taken.has(cell))) continue;
      cells.forEach((cell) => taken.add(cell));
      surface.text(x, low, name, { fill: isOwn ? INK : QUIET, size, bold: isOwn });
      count++;
    }
  }
}

function ends(numbers) {
  let least = Infinity, most = -Infinity;
  for (const number of numbers) {
    if (number < least) least = number;
    if (number > most) most = number;
  }
  return [least, most];
}

function toSegment(x, y, ax, ay, bx, by) {
  const long = (bx - ax) ** 2 + (by - ay) ** 2;
  const part = long ? Math.max(0, Math.min(1, ((x - ax) * (bx - ax) + (y - ay) * (by - ay)) / long)) : 0;
  return (x - ax - part * (bx - ax)) ** 2 + (y - ay - part * (by - ay)) ** 2;
}
