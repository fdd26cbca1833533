// The host's interface, at this page's own origin (docs/HTTP.md), and what is known beside it.

// Why a request wasn't answered as asked: `reason` is the host's name for it, and `told` the rest of the reply.
export class Refused extends Error {
  constructor(status, told) {
    super(told.error ?? `status ${status}`);
    this.status = status;
    this.reason = told.error;
    this.told = told;
  }
}

// No reply came, so nobody knows whether a change was made.
export class Lost extends Error {}

async function ask(method, target, body) {
  let reply;
  try {
    reply = await fetch(`/api/v1/${target}`, {
      method, cache: "no-store", redirect: "error",
      ...(body && { body: JSON.stringify(body), headers: { "Content-Type": "application/json" } }),
    });
  } catch (fault) {
    throw new Lost(fault.message);
  }
  const told = await reply.json().catch(() => ({}));
  if (!reply.ok) throw new Refused(reply.status, told);
  return told;
}

export const changesOf = async (site) => (await ask("GET", `sites/${site}/changes`)).changes;
export const undo = (site, change) => ask("POST", `sites/${site}/undo`, { change });
export const restore = (site, deploy) => ask("POST", `sites/${site}/deploys/${deploy}/restore`);
export const moveAlias = (site, alias, deploy) => ask("PUT", `sites/${site}/aliases/${alias}`, { deploy });

// The state of a deploy: "kept", "open" with what it lacks, or "gone".
export async function deploy(number) {
  try {
    const told = await ask("GET", `deploys/${number}`);
    return { state: told.state, lacks: told.required.length };
  } catch (fault) {
    if (fault instanceof Refused && fault.reason === "NoSuchDeploy") return { state: "gone", lacks: 0 };
    throw fault;
  }
}

// Where sites are read: settings.json names another origin, or this is it.
export async function placeOfSites() {
  try {
    const { sites } = await (await fetch("settings.json", { cache: "no-cache" })).json();
    return /^https?:\/\/[^/?#]+$/.test(sites) ? sites : "";
  } catch {
    return "";
  }
}
