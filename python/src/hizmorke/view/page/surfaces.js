// What a picture is drawn on: a canvas, or the text of an SVG. Both take the same calls, in pixels.

/** Draws on a canvas. */
export class CanvasSurface {
  constructor(context) {
    this.context = context;
  }

  /** Lines by their ends: x, y, x, y, .. */
  lines(points, { stroke, width = 1, dash = [] }) {
    const context = this.context;
    context.beginPath();
    for (let i = 0; i < points.length; i += 4) {
      context.moveTo(points[i], points[i + 1]);
      context.lineTo(points[i + 2], points[i + 3]);
    }
    context.strokeStyle = stroke;
    context.lineWidth = width;
    context.setLineDash(dash);
    context.lineCap = dash.length ? "butt" : "round";
    context.stroke();
    context.setLineDash([]);
  }

  /** Circles, or squares, by their middles. */
  dots(points, radius, { fill, stroke, width = 1, square = false }) {
    const context = this.context;
    context.beginPath();
    for (let i = 0; i < points.length; i += 2) {
      const x = points[i], y = points[i + 1];
      if (square) context.rect(x - radius, y - radius, 2 * radius, 2 * radius);
      else {
        context.moveTo(x + radius, y);
        context.arc(x, y, radius, 0, 2 * Math.PI);
      }
    }
    if (fill !== "none") {
      context.fillStyle = fill;
      context.fill();
    }
    if (!stroke) return;
    context.strokeStyle = stroke;
    context.lineWidth = width;
    context.stroke();
  }

  /** A text, with a rim in the ground's colour. */
  text(x, y, said, { fill, size = 12, anchor = "middle", bold = false, rim = true }) {
    const context = this.context;
    context.font = `${bold ? "600 " : ""}${size}px system-ui, "DejaVu Sans", sans-serif`;
    context.textAlign = { middle: "center", start: "left" }[anchor];
    context.textBaseline = "middle";
    if (rim) {
      context.lineJoin = "round";
      context.strokeStyle = "rgba(255, 255, 255, 0.9)";
      context.lineWidth = 4;
      context.strokeText(said, x, y);
    }
    context.fillStyle = fill;
    context.fillText(said, x, y);
  }

  measure(said, size) {
    this.context.font = `${size}px system-ui, "DejaVu Sans", sans-serif`;
    return this.context.measureText(said).width;
  }
}

const rounded = (number) => Math.round(100 * number) / 100;

// XML takes neither other control characters nor halves of pairs, and names may have both.
const escaped = (text) =>
  [...text]
    .map((sign) => (/^(?:[\u0000-\u0008\u000b\u000c\u000e-\u001f\ufffe\uffff]|[\ud800-\udfff])$/.test(sign) ? "\ufffd" : sign))
    .join("")
    .replace(/[&<>"']/g, (sign) => `&#${sign.charCodeAt(0)};`);

/** Writes an SVG. */
export class SvgSurface {
  constructor(width, height, measure) {
    this.width = width;
    this.height = height;
    this.measure = measure;
    this.parts = [];
  }

  lines(points, { stroke, width = 1, dash = [] }) {
    let path = "";
    for (let i = 0; i < points.length; i += 4)
      path += `M${rounded(points[i])} ${rounded(points[i + 1])}L${rounded(points[i + 2])} ${rounded(points[i + 3])}`;
    const dashes = dash.length ? ` stroke-dasharray="${dash.join(" ")}"` : ' stroke-linecap="round"';
    if (path) this.parts.push(`<path d="${path}" fill="none" stroke="${stroke}" stroke-width="${width}"${dashes}/>`);
  }

  dots(points, radius, { fill, stroke, width = 1, square = false }) {
    const r = rounded(radius);
    const made = [];
    for (let i = 0; i < points.length; i += 2) {
      const x = rounded(points[i]), y = rounded(points[i + 1]);
      made.push(
        square
          ? `<rect x="${rounded(x - r)}" y="${rounded(y - r)}" width="${2 * r}" height="${2 * r}"/>`
          : `<circle cx="${x}" cy="${y}" r="${r}"/>`,
      );
    }
    const rim = stroke ? ` stroke="${stroke}" stroke-width="${width}"` : "";
    if (made.length) this.parts.push(`<g fill="${fill}"${rim}>${made.join("")}</g>`);
  }

  text(x, y, said, { fill, size = 12, anchor = "middle", bold = false, rim = true }) {
    const more = (bold ? ' font-weight="600"' : "") + (rim ? ' stroke="#fff" stroke-width="3" paint-order="stroke"' : "");
    this.parts.push(
      `<text x="${rounded(x)}" y="${rounded(y)}" fill="${fill}" font-size="${size}" text-anchor="${anchor}" ` +
        `dominant-baseline="central"${more}>${escaped(said)}</text>`,
    );
  }

  toString() {
    return (
      `<svg xmlns="http://www.w3.org/2000/svg" width="${this.width}" height="${this.height}" ` +
      `viewBox="0 0 ${this.width} ${this.height}" font-family="system-ui, DejaVu Sans, sans-serif">` +
      `<rect width="100%" height="100%" fill="#fff"/>${this.parts.join("\n")}</svg>\n`
    );
  }
}
