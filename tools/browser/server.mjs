// The network of a recording: one port of the loopback, for TLS and for plain connections, that plays every host.
import { execFileSync } from "node:child_process";
import fs from "node:fs";
import http from "node:http";
import https from "node:https";
import net from "node:net";
import path from "node:path";

import { pageText } from "./scripts.mjs";

const OPEN_TO_ALL = [
  "Access-Control-Allow-Origin", "*", "Access-Control-Allow-Headers", "*", "Access-Control-Allow-Methods", "*",
  "Access-Control-Expose-Headers", "*", "Cache-Control", "no-store",
];
const TLS_FIRST_BYTE = 0x16;

function certificate(folder) {
  const key = path.join(folder, "key.pem"), cert = path.join(folder, "certificate.pem");
  const words = ["req", "-x509", "-newkey", "ec", "-pkeyopt", "ec_paramgen_curve:prime256v1", "-nodes", "-days", "2", "-subj", "/CN=swhost"];
  execFileSync("openssl", [...words, "-keyout", key, "-out", cert], { stdio: "ignore" });
  return { key: fs.readFileSync(key), cert: fs.readFileSync(cert) };
}

async function bodyOf(request) {
  const parts = [];
  for await (const part of request) parts.push(part);
  return Buffer.concat(parts).toString();
}

// `line` is a fetch line, or null where there is none: a network error. `bytes` takes the place of its body.
function give(response, line, bytes, mark) {
  if (line === null || line.error || line.status < 200) return response.destroy();
  const headers = (line.headers ?? []).flat();
  try {
    response.writeHead(line.status, [...headers, ...OPEN_TO_ALL, ...mark ? ["x-mark", crypto.randomUUID()] : []]);
  } catch {
    return response.destroy();
  }
  response.end(bytes);
}

export const bytesOf = ({ text, body }) => body === undefined ? Buffer.from(text ?? "") : Buffer.from(body, "base64");

// `player` is who plays now: `script(address)`, `data(address)` and `ask(question)` give a promise of what to answer.
export class Server {
  player = null;

  static async start(folder) {
    const server = new Server();
    const answer = (scheme) => (request, response) => {
      response.on("error", () => {});
      server.#answer(scheme, request, response).catch(() => response.destroy());
    };
    const secure = https.createServer(certificate(folder), answer("https")), plain = http.createServer(answer("http"));
    for (const each of [secure, plain]) each.maxRequestsPerSocket = 1;
    server.listener = net.createServer((socket) => {
      socket.on("error", () => {});
      socket.once("readable", () => {
        const first = socket.read(1);
        if (first === null) return socket.destroy();
        socket.unshift(first);
        (first[0] === TLS_FIRST_BYTE ? secure : plain).emit("connection", socket);
      });
    });
    await new Promise((resolve) => server.listener.listen(0, "127.0.0.1", resolve));
    server.port = server.listener.address().port;
    return server;
  }

  async #answer(scheme, request, response) {
    const { headers } = request, address = new URL(`${scheme}://${headers.host}${request.url}`);
    if (address.hostname.endsWith(".hub.test")) {
      response.writeHead(200, OPEN_TO_ALL).end(JSON.stringify(await this.player.ask(JSON.parse(await bodyOf(request)))));
    } else if (headers["service-worker"] === "script") {
      const { line, bytes } = await this.player.script(address.href);
      give(response, line, bytes, false);
    } else if (headers["upgrade-insecure-requests"] !== undefined) {
      response.writeHead(200, ["Content-Type", "text/html", ...OPEN_TO_ALL]).end(pageText);
    } else if (headers["sec-fetch-dest"] === "image" || address.pathname === "/favicon.ico") {
      response.writeHead(404, OPEN_TO_ALL).end();
    } else if (headers["access-control-request-method"] !== undefined) {
      response.writeHead(204, OPEN_TO_ALL).end();
    } else if (this.player === null) {
      response.destroy();
    } else {
      const line = await this.player.data(address.href);
      give(response, line, line === null ? null : bytesOf(line), true);
    }
  }

  end() {
    this.listener.close();
  }
}
