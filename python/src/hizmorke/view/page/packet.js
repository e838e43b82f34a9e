// A packet on its way, hop by hop, beside the shortest way; and what still goes where edges have failed.
import { ask, element, plain } from "./api.js";
import { shortened } from "./picture.js";
import { suggest } from "./names.js";

const HOP_MILLISECONDS = 520;
const PARTS = {
  generation: (step) => plain(step.generation),
  destination: (step, page) => page.nameOf(step.destination),
  root: (step, page) => page.nameOf(step.root),
  label: (step) => plain(step.label),
  "hops left": (step) => plain(step.hops_left),
  ports: (step) => (step.ports.length ? step.ports.join(", ") : "none"),
};

export class PacketPanel {
  constructor(page, panel) {
    this.page = page;
    this.panel = panel;
    this.from = this.to = null;
    this.told = this.reached = null;
    this.turn = 0;
    const field = (id, label) => {
      const input = element("input", { id, type: "text", autocomplete: "off", spellcheck: "false" });
      const made = element("div", { class: "field" }, element("label", { for: id }, label), input);
      suggest(page, input);
      return [made, input];
    };
    const [from, fromInput] = field("from", "From");
    const [to, toInput] = field("to", "To");
    this.inputs = { from: fromInput, to: toInput };
    this.anew = element("input", { id: "anew", type: "checkbox", onchange: () => page.attempt(() => this.send()) });
    this.result = element("div", { id: "result", class: "stack" });
    this.hops = element("ol", { id: "hops" });
    this.broken = element("div", { id: "broken", class: "block", hidden: true });
    panel.append(
      element(
        "form",
        { id: "send", class: "row", onsubmit: (event) => this.submit(event) },
        from,
        to,
        element("button", { class: "main", type: "submit" }, "Send"),
      ),
      this.result,
      this.broken,
      this.hops,
    );
  }

  get hint() {
    if (this.from === null) return "Click the node that sends. A click on an edge fails it.";
    if (this.to === null) return "Click the node that it sends to.";
    return "Click the next node that sends. A click on an edge fails it, or mends it.";
  }

  async enter() {
    this.page.picture.mark({ chosen: null, cluster: new Set(), holders: new Set() });
    this.showEnds();
    await this.renew();
  }

  leave() {
    this.turn++;
    this.page.picture.mark({ packet: null, anew: new Set(), cut: new Set(), way: [], shortest: [], ends: [] });
  }

  /** Two clicks send a packet; the third begins the next one. */
  async node(node) {
    if (this.from === null || this.to !== null) await this.set(node, undefined);
    else await this.set(this.from, node);
  }

  /** Sets the ends: null leaves one as it is, undefined takes it away. */
  async set(from, to) {
    if (from !== null) this.from = from ?? null;
    if (to !== null) this.to = to ?? null;
    this.showEnds();
    if (this.from !== null && this.to !== null) return this.renew();
    this.told = null;
    this.turn++;
    this.result.replaceChildren();
    this.hops.replaceChildren();
    this.page.picture.mark({ way: [], shortest: [], packet: null });
    await this.reach();
  }

  showEnds() {
    for (const [which, node] of [["from", this.from], ["to", this.to]])
      this.inputs[which].value = node === null ? "" : this.page.nameOf(node);
    this.page.picture.mark({ ends: [this.from, this.to].filter((node) => node !== null) });
    this.page.showHint();
  }

  submit(event) {
    event.preventDefault();
    const found = {};
    for (const which of ["from", "to"]) {
      const name = this.inputs[which].value;
      found[which] = this.page.nodeOf(name);
      if (found[which] === null) return this.page.tell(name ? `no node named ${name}` : `${which === "from" ? "who sends" : "to whom"}?`, true);
    }
    this.page.attempt(() => this.set(found.from, found.to));
  }

  async renew() {
    const nodes = this.page.network.nodes;
    if (this.from >= nodes) this.from = null;
    if (this.to >= nodes) this.to = null;
    await this.send();
    await this.reach();
  }

  async send() {
    if (this.from === null || this.to === null) return;
    const turn = ++this.turn;
    const wanted = () => turn === this.turn;
    const failed = this.page.failed;
    const body = this.page.under({ from: this.from, to: this.to, failed, anew: this.anew.checked && failed.length > 0 });
    const told = await ask("packet", body, { ...this.page.telling(), wanted });
    if (told === null || !wanted()) return;
    this.told = told;
    const nodes = new Set([...told.steps.map((step) => step.node), ...(told.shortest ?? [])]);
    await this.page.bring([...nodes]);
    this.showResult();
    await this.go(turn);
  }

  showResult() {
    const told = this.told;
    const number = (value, label, line) => element("div", {}, element("b", {}, value), element("span", {}, line ? element("i", { class: line }) : null, label));
    const isThere = told.refused === null && told.lost_at === null;
    const stretch = isThere && told.length !== null && told.shortest_length ? told.length / told.shortest_length : null;
    let said = null;
    if (told.refused !== null) said = `It isn't sent: ${told.refused}.`;
    else if (told.lost_at !== null) {
      const step = told.steps[told.lost_at];
      said = `It is lost at ${this.page.nameOf(step.node)}: the edge over port ${step.port} has failed.`;
    }
    this.result.replaceChildren(
      element(
        "div",
        { class: "lengths" },
        number(isThere ? plain(told.length) : "–", "packet's way", "key"),
        number(plain(told.shortest_length), "shortest way", "key dashed"),
        number(stretch === null ? (isThere && told.length === 0 ? "1.00" : "–") : stretch.toFixed(2), "stretch"),
      ),
      said === null ? "" : element("p", { class: "said" }, said),
    );
  }

  /** The packet goes over one edge after the other, and its bytes are shown at each node. */
  async go(turn) {
    const { picture } = this.page;
    const steps = this.told.steps;
    this.hops.replaceChildren();
    picture.mark({ way: [], shortest: this.told.shortest ?? [] });
    const isStill = matchMedia("(prefers-reduced-motion: reduce)").matches || document.hidden;
    for (let at = 0; at < steps.length; at++) {
      picture.mark({ way: steps.slice(0, at + 1).map((step) => step.node), packet: null });
      this.showHop(at);
      const isLost = at === this.told.lost_at;
      if (at + 1 < steps.length && !isStill) {
        await this.run(turn, steps[at].node, steps[at + 1].node);
        if (turn !== this.turn) return;
      }
      if (isLost) break;
    }
    picture.mark({ packet: null });
    this.hops.dataset.done = String(turn);
  }

  run(turn, from, to) {
    return new Promise((done) => {
      const began = performance.now();
      const step = (now) => {
        const part = Math.min(1, Math.max(0, (now - began) / HOP_MILLISECONDS));
        if (turn === this.turn) this.page.picture.mark({ packet: { from, to, part } });
        if (part < 1 && turn === this.turn) requestAnimationFrame(step);
        else done();
      };
      requestAnimationFrame(step);
    });
  }

  showHop(at) {
    const { page } = this;
    const step = this.told.steps[at];
    const isLast = step.port === null;
    const where = at === this.told.lost_at ? "lost" : isLast ? "arrived" : `port ${step.port}`;
    const button = element(
      "button",
      { type: "button", "aria-expanded": "false" },
      element("span", { class: "at" }, at),
      element("bdi", { class: "hop" }, shortened(page.nameOf(step.node))),
      element("span", { class: "quiet" }, where),
    );
    const bytes = element("div", { class: "bytes", hidden: true });
    button.addEventListener("click", () => {
      const isOpen = button.getAttribute("aria-expanded") === "true";
      this.openHop(isOpen ? null : button);
    });
    const row = element("li", {}, button, bytes);
    row.fill = () => bytes.replaceChildren(this.bytesOf(step));
    this.hops.append(row);
    this.openHop(button);
  }

  openHop(button) {
    for (const row of this.hops.children) {
      const [head, bytes] = row.children;
      const isOpen = head === button;
      head.setAttribute("aria-expanded", String(isOpen));
      bytes.hidden = !isOpen;
      if (isOpen && !bytes.firstChild) row.fill();
    }
  }

  bytesOf(step) {
    return element(
      "table",
      {},
      ...step.fields.map(([name, digits]) => {
        const ended = name === "ports" ? digits.replace(/(?:0000)+$/, "") : digits;
        return element(
          "tr",
          {},
          element("td", {}, name),
          element("td", {}, element("bdi", {}, shortened(PARTS[name](step, this.page)))),
          element("td", {}, element("code", {}, ended, element("span", { class: "zeros" }, digits.slice(ended.length)))),
        );
      }),
    );
  }

  /** What still goes from the node that sends, where edges have failed. */
  async reach() {
    const { page } = this;
    const failed = page.failed;
    page.showLegend();
    if (!failed.length) {
      this.broken.hidden = true;
      this.anew.checked = false;
      page.picture.mark({ anew: new Set(), cut: new Set() });
      return;
    }
    const name = (node) => element("bdi", {}, shortened(page.nameOf(node)));
    const rows = failed.map(([a, b]) =>
      element(
        "div",
        { class: "row" },
        element("span", {}, name(a), " – ", name(b)),
        element("button", { class: "small", type: "button", onclick: () => page.fail(a, b) }, "Mend"),
      ),
    );
    const told = element("p", { id: "reached" }, this.from === null ? "Choose who sends, to see what still goes." : "…");
    this.broken.replaceChildren(
      element("h3", {}, failed.length === 1 ? "An edge has failed" : `${plain(failed.length)} edges have failed`),
      ...rows,
      told,
      element("label", { class: "row" }, this.anew, "send by new tables, built without them"),
    );
    this.broken.hidden = false;
    if (this.from === null) return;
    const body = page.under({ from: this.from, failed, nodes: page.network.is_whole ? [] : page.picture.nodes });
    const wanted = () => failed === page.failed;
    const reached = await ask("reach", body, { ...page.telling(), wanted });
    if (reached === null || !wanted() || page.tab !== "packet") return;
    page.picture.mark({ anew: new Set(reached.anew), cut: new Set(reached.cut) });
    const all = reached.still.length + reached.anew.length + reached.cut.length;
    told.replaceChildren(
      "From ",
      name(this.from),
      ` packets still come to ${plain(reached.still.length)} of ${plain(all)} nodes. ${plain(reached.anew.length)} need new tables, ` +
        `${plain(reached.cut.length)} are cut off.`,
    );
  }
}
