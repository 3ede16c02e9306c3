/**
 * A client of silo, by a gateway's socket (docs/gateway.md).
 *
 *     const silo = await Silo.connect("/run/silo/red.sock");
 *     const counter = silo.client("red/web").grain("counter/red:a");
 *     console.log(await counter.call("add", { by: 3 }));
 */

import net from "node:net";
import { jsonOf, read } from "./values.js";

/** @typedef {import("./values.js").Value} Value */
/** @typedef {{ timeout?: number, onTold?: (grain: string, outcome: Value | SiloError) => void }} Options */
/** @typedef {string | { host?: string, port: number, tenant: string, token: string }} Address */
/** @typedef {{ from: string, resolve: (value: any) => void, reject: (fault: Error) => void, timer?: NodeJS.Timeout }} Waiting */

const WORD = "[a-z][a-z0-9-]{0,31}";
const CALLER = new RegExp(`^${WORD}/${WORD}$`);
const GRAIN = new RegExp(`^${WORD}/${WORD}:[!-~]{1,128}$`);
const MOST_BYTES = 65_536;
const DEFAULT_MILLISECONDS = 60_000;
// what Node's timers can wait for; a longer timeout is for ever
const MOST_MILLISECONDS = 2 ** 31 - 1;

/** A request that was refused, or that its grain answered by a fault: its code and text, as docs/formats.md lists them. */
export class SiloError extends Error {
  /** @param {number} code @param {string} text */
  constructor(code, text) {
    super(`${code}: ${text}`);
    this.name = "SiloError";
    this.code = code;
    this.text = text;
  }
}

/** The connection has ended. `underWay` is true if the request was asked before: then it isn't known whether it was done. */
export class SiloEnded extends Error {
  /** @param {string} told @param {boolean} underWay */
  constructor(told, underWay) {
    super(`the silo can't be asked any more: ${told}${underWay ? "; whether the request was done is not known" : ""}`);
    this.name = "SiloEnded";
    this.underWay = underWay;
  }
}

/** A request that wasn't answered in time. Whether it was done, or will be, is not known. */
export class SiloTimeout extends Error {
  /** @param {number} milliseconds */
  constructor(milliseconds) {
    super(`not answered within ${milliseconds} ms; whether the request was done is not known`);
    this.name = "SiloTimeout";
  }
}

/** A silo behind a gateway. Requests may be made at any time; many may be under way. */
export class Silo {
  /** @type {Map<number, Waiting>} */
  #waiting = new Map();
  #number = 0;
  /** @type {string | undefined} */
  #ended;
  #torn = "";
  /** @type {() => void} */
  #whenOver = () => {};

  /**
   * Connects to a gateway: by the path of a Unix socket, or by TCP with a tenant's token.
   * @param {Address} address
   * @param {Options} [options]
   * @returns {Promise<Silo>}
   */
  static async connect(address, options = {}) {
    const socket = typeof address === "string" ? net.connect(address) : net.connect(address.port, address.host ?? "127.0.0.1");
    await new Promise((resolve, reject) => socket.once("connect", resolve).once("error", reject));
    const silo = new Silo(socket, options);
    if (typeof address !== "string") await silo.#enter(address.tenant, address.token);
    return silo;
  }

  /** @param {net.Socket} socket @param {Options} options */
  constructor(socket, options) {
    this.socket = socket;
    this.options = options;
    this.over = new Promise((resolve) => { this.#whenOver = () => resolve(undefined); });
    socket.setNoDelay(true).setEncoding("utf8");
    socket.on("data", (data) => this.#feed(String(data)));
    socket.on("error", (fault) => this.#end(fault.message));
    socket.on("close", () => this.#end("the gateway closed the connection"));
  }

  /**
   * Who asks, such as `red/web`.
   * @param {string} caller
   */
  client(caller) {
    if (!CALLER.test(caller)) throw new RangeError(`${caller} is no caller: it has to be like red/web`);
    return new Client(this, caller);
  }

  /**
   * Asks, and gives the value, a SiloError, a SiloEnded or a SiloTimeout.
   * @param {string} op @param {string} caller @param {Record<string, unknown>} members
   * @returns {Promise<any>}
   */
  ask(op, caller, members) {
    const number = ++this.#number;
    const line = `${jsonOf({ op, from: caller, id: number }).slice(0, -1)}${Object.entries(members).map(([name, value]) =>
      `,"${name}":${jsonOf(value)}`).join("")}}\n`;
    if (Buffer.byteLength(line) > MOST_BYTES + 1) throw new RangeError(`the line is above ${MOST_BYTES} bytes`);
    if (this.#ended !== undefined) return Promise.reject(new SiloEnded(this.#ended, false));
    return this.#say(number, caller, line);
  }

  /** Asks nothing more, and waits until all is answered. */
  async close() {
    this.#ended ??= "it was closed";
    this.socket.end();
    await this.over;
  }

  /** @param {number} number @param {string} from @param {string} line */
  #say(number, from, line) {
    const milliseconds = this.options.timeout ?? DEFAULT_MILLISECONDS;
    return new Promise((resolve, reject) => {
      const late = () => this.#settle(number, (waiting) => waiting.reject(new SiloTimeout(milliseconds)));
      const timer = milliseconds > MOST_MILLISECONDS ? undefined : setTimeout(late, milliseconds);
      this.#waiting.set(number, { from, resolve, reject, timer });
      this.socket.write(line);
    });
  }

  /** @param {string} tenant @param {string} token */
  async #enter(tenant, token) {
    // its answer has no number: it is the first line, and nothing else is asked before it is there
    await this.#say(0, "", `${JSON.stringify({ op: "enter", tenant, token })}\n`);
  }

  /** @param {number} number @param {(waiting: Waiting) => void} how */
  #settle(number, how) {
    const waiting = this.#waiting.get(number);
    if (waiting === undefined) return;
    this.#waiting.delete(number);
    clearTimeout(waiting.timer);
    how(waiting);
  }

  /** @param {string} data */
  #feed(data) {
    const lines = (this.#torn + data).split("\n");
    this.#torn = lines.pop() ?? "";
    try {
      for (const line of lines) this.#take(read(line));
    } catch (fault) {
      this.#end(`what it writes can't be read: ${fault}`);
      this.socket.destroy();
    }
  }

  /** @param {any} reply */
  #take(reply) {
    const outcome = "ok" in reply ? reply.ok : new SiloError(reply.error, reply.text);
    if ("from" in reply && !("id" in reply)) {
      try {
        this.options.onTold?.(reply.from, outcome);
      } catch (fault) {
        // the service's own fault, and none of the connection
        process.emitWarning(`onTold threw ${fault}`);
      }
      return;
    }
    const number = "id" in reply ? Number(reply.id) : 0;
    if (!("from" in reply) && outcome instanceof SiloError && !this.#waiting.has(0)) {
      // the gateway doesn't let this connection in, and has read nothing of it
      this.#end(outcome.message, false);
      return;
    }
    // what came too late is answered to nobody
    const waiting = this.#waiting.get(number);
    if (waiting !== undefined && number > 0 && waiting.from !== reply.from) throw new Error("a reply is to somebody else");
    if (waiting === undefined && number > this.#number) throw new Error("a reply answers nothing that was asked");
    this.#settle(number, (it) => (outcome instanceof SiloError ? it.reject(outcome) : it.resolve(outcome)));
  }

  /** @param {string} told @param {boolean} [underWay] */
  #end(told, underWay = true) {
    this.#ended ??= told;
    for (const number of [...this.#waiting.keys()]) this.#settle(number, (it) => it.reject(new SiloEnded(told, underWay)));
    this.#whenOver();
  }
}

/** A caller of a silo. */
export class Client {
  /** @param {Silo} silo @param {string} caller */
  constructor(silo, caller) {
    this.silo = silo;
    this.caller = caller;
  }

  /**
   * A grain, such as `counter/red:a`, as this caller calls it.
   * @param {string} grain
   */
  grain(grain) {
    if (!GRAIN.test(grain)) throw new RangeError(`${grain} is no grain: it has to be like counter/red:a`);
    return new Grain(this, grain);
  }

  /** What the caller's tenant has: its activations, requests and so on. @returns {Promise<Record<string, number>>} */
  status() {
    return this.silo.ask("status", this.caller, {});
  }
}

/** A grain, as a caller calls it. */
export class Grain {
  /** @param {Client} client @param {string} grain */
  constructor(client, grain) {
    this.client = client;
    this.grain = grain;
  }

  /**
   * Calls a method, and gives its value.
   * @param {string} method @param {Value} [args]
   * @returns {Promise<any>}
   */
  call(method, args = null) {
    return this.client.silo.ask("call", this.client.caller, { grain: this.grain, method, args });
  }

  /**
   * Writes the grain's row past the grain; gives the row's version.
   * @param {Value} state
   * @returns {Promise<string>}
   */
  poke(state) {
    return this.client.silo.ask("poke", this.client.caller, { grain: this.grain, state });
  }
}
