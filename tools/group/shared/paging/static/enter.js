// What the page asks its server for, and how it shows its token.

// How long an answer may take, in milliseconds: on a link that is gone none would come for minutes.
const LONGEST = 10000;

// The status and the sentence of the answer.
export async function ask(path, what) {
  const answer = await fetch(path, {
    method: "POST", body: JSON.stringify(what), credentials: "same-origin",
    headers: { "Content-Type": "application/json" }, signal: AbortSignal.timeout(LONGEST),
  });
  return [answer.status, (await answer.json()).text];
}

// The token stands behind the # of the address, which no request has in it, and stays there until
// the server has answered. Why it is refused, or nothing.
export async function enter() {
  const token = location.hash.slice(1);
  if (!token) return null;
  const [status, why] = await ask("/enter", { token });
  history.replaceState(null, "", "/");
  return status === 200 ? null : why;
}
