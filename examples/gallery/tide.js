// the next stop of a line, or null
export async function nextStop(line, { after = Date.now() } = {}) {
  const answer = await fetch(`/stops/${line}?after=${after}`);
  if (!answer.ok) throw new Error("no answer: " + answer.status);
  const stops = await answer.json();
  return stops.find(stop => /^\d+[a-z]?$/.test(stop.name)) ?? null;
}
