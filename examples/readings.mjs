#!/usr/bin/env node
// Adds up the readings of a lab's instruments, each of which is a session of a queue.
//
// usage: node readings.mjs PORT QUEUE [SECONDS]
//
// A reading is a message whose body is a whole number and whose SessionId is its instrument; the queue is one with
// "requires_session":true. The next instrument that has readings is accepted, they are received in their order,
// and its session remembers their count and their sum. That is set as a reading is completed, both in one request or
// neither: so each counts once, wherever a worker dies. Several of these may run at once; what one that dies held comes to
// another once its lock has ended. With SECONDS it ends where no instrument has readings for so long; else it goes on.
import { setTimeout as pause } from 'node:timers/promises'

const [port, queue, seconds] = process.argv.slice(2)
if (!queue) {
  console.error('usage: node readings.mjs PORT QUEUE [SECONDS]')
  process.exit(2)
}

// The response to a request that was accepted; a refusal is an error.
async function ask(method, url, body, headers) {
  const response = await fetch(url, { method, body, headers })
  if (!response.ok) throw new Error(`${method} ${url}: ${response.status} ${await response.text()}`)
  return response
}

// Where what was accepted or received is asked for further, and what is told of it.
function place(response) {
  return [response.headers.get('location'), JSON.parse(response.headers.get('brokerproperties'))]
}

// Counts a reading and completes it, or does neither; what is known behind it.
async function count(session, known, response) {
  const [message, { SequenceNumber: seq, LockToken: token }] = place(response)
  const body = await response.text()
  if (!/^-?\d+$/.test(body.trim())) {
    await ask('PUT', `${message}?disposition=dead-letter`, undefined, { BrokerProperties: '{"DeadLetterReason":"NoNumber"}' })
    return known
  }
  known = { count: known.count + 1, sum: known.sum + Number(body) }
  const held = { from: queue, session: session.split('/').pop() }
  const completed = { do: 'complete', ...held, seq, token }
  const remembered = { do: 'session-set', ...held, state: JSON.stringify(known) }
  const turn = { do: 'together', entity: queue, operations: [completed, remembered] }
  await ask('POST', new URL('/$together', session), JSON.stringify(turn))
  return known
}

// Counts the readings of an instrument whose session was accepted, and gives that back.
async function work(response) {
  const [session, { SessionId: name, LockedUntilUtc: until }] = place(response)
  const half = (Date.parse(until) - Date.now()) / 2
  let renewed = performance.now()
  const state = await ask('GET', `${session}/state`)
  let known = state.status === 200 ? await state.json() : { count: 0, sum: 0 }
  for (;;) {
    if (performance.now() - renewed > half) { // receiving doesn't renew the session's lock
      await ask('POST', session)
      renewed = performance.now()
    }
    const received = await ask('POST', `${session}/messages/head?timeout=0`)
    if (received.status === 204) break
    known = await count(session, known, received)
  }
  await ask('DELETE', session)
  console.log(`${name}: ${known.count} readings, ${known.sum} together`)
}

for (;;) {
  try {
    const response = await ask('POST', `http://127.0.0.1:${port}/${queue}/sessions/head?timeout=${seconds ?? 60}`)
    if (response.status === 201) await work(response)
    else if (seconds) break
  } catch (fault) {
    console.error(`again in a second, after: ${fault.message}`)
    await pause(1000)
  }
}
