/** A gateway that a test runs: beside the program that SILO_PROGRAM names, or else the slow silo. */

import { spawn } from "node:child_process";
import fs from "node:fs";
import os from "node:os";
import path from "node:path";

const ROOT = path.resolve(import.meta.dirname ?? path.dirname(new URL(import.meta.url).pathname), "../../..");
export const TOKEN = "a token of red's own";

/** A gateway over red and blue, by Unix sockets in `folder` and by TCP at `port`. */
export class Gateway {
  static async start(...options) {
    const room = fs.mkdtempSync(path.join(os.tmpdir(), "silo-node-"));
    fs.writeFileSync(path.join(room, "red.token"), TOKEN);
    const program = process.env.SILO_PROGRAM ?? path.join(ROOT, "tools/slow-silo");
    const words = ["-m", "silo.gateway", ...options, "--program", program, "--tcp", "0", "--tokens", room, path.join(room, "s"), "red:100:4", "blue:100:4"];
    const child = spawn(process.env.PYTHON ?? "python3", words, {
      env: { ...process.env, PYTHONPATH: path.join(ROOT, "clients/python") }, stdio: ["ignore", "ignore", "pipe"],
    });
    const gateway = new Gateway(room, child);
    await gateway.toldOf(/the gateway listens/);
    await gateway.toldOf(/the program runs/);
    gateway.port = Number((await gateway.toldOf(/let in at 127.0.0.1:(\d+)/))[1]);
    return gateway;
  }

  constructor(room, child) {
    this.room = room;
    this.child = child;
    this.told = "";
    this.port = 0;
    child.stderr.setEncoding("utf8").on("data", (data) => { this.told += data; });
  }

  socket(tenant) {
    return path.join(this.room, "s", `${tenant}.sock`);
  }

  async toldOf(pattern) {
    for (const until = Date.now() + 20_000; Date.now() < until; await new Promise((resolve) => setTimeout(resolve, 10))) {
      const found = pattern.exec(this.told);
      if (found) return found;
      if (this.child.exitCode !== null) break;
    }
    throw new Error(`the gateway didn't tell ${pattern}, but ${this.told}`);
  }

  async end(signal = "SIGTERM") {
    const over = new Promise((resolve) => this.child.once("exit", resolve));
    if (this.child.exitCode === null && this.child.signalCode === null) {
      this.child.kill(signal);
      await over;
    }
    fs.rmSync(this.room, { recursive: true, force: true });
  }
}
