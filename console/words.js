// Changes and refusals in words (docs/CHANGES.md).

const KINDS = {
  open: (entry) => `opened deploy ${entry}`,
  publish: () => "published a deploy",
  cancel: () => "cancelled an open deploy",
  alias: () => "moved an alias",
  unalias: () => "removed an alias",
  rename: () => "renamed a file",
  "rename-folder": () => "renamed a folder",
  remove: () => "removed a file",
  restore: () => "served a deploy again, or published an open one",
  delete: () => "removed a deploy",
};

export const wordsOf = (change) => change.kind === "undo" ? `took back change ${change.of}` : KINDS[change.kind]?.(change.entry) ?? change.kind;

const CELLS = { live: "the file", kept: "the files of deploy", alias: "the alias", draft: "the open deploy" };

// A cell as the host prints it, such as `live /b.txt`.
export function cellInWords(cell) {
  const [kind] = cell.split(" ", 1);
  return `${CELLS[kind] ?? kind} ${cell.slice(kind.length + 1)}`;
}

const REASONS = {
  AlreadyUndone: "It is taken back already.",
  NoSuchChange: "The site has no such change.",
  NotAChange: "An undo can't be taken back.",
  NoSuchDeploy: "There is no such deploy any more.",
  NotComplete: "Not all of its files are uploaded yet.",
  HistoryFull: "The host's history is full: nothing can be changed any more.",
  BadName: "A name has 1 to 63 of a to z, 0 to 9 and hyphens.",
  Broken: "The host can't write its journal. Nothing was done; whoever runs the host has to start it again.",
  Device: "The host's disk failed. Whether this was done is known once the host was started again.",
  OutOfMemory: "The host had no memory for it. It may have been done or not: the list says so.",
};

export function reasonInWords(fault) {
  if (REASONS[fault.reason]) return REASONS[fault.reason];
  if (fault.status === 401) return "You aren't logged in any more: load this page again.";
  if (fault.status === 403) return "The proxy before the host refused this.";
  if (fault.status === 502 || fault.status === 504) return "The host doesn't answer at the moment. Look at the list again before you repeat this.";
  return `It was refused: ${fault.message}.`;
}
