#!/usr/bin/env node
// Works on the orders of a queue, each under its lock.
//
// usage: node worker.mjs PORT QUEUE [SECONDS]
//
// Each message is received under a lock, which is renewed while its order takes longer. Once that is done
// the message is completed. An order that can never be done is dead-lettered with its reason; where
// something else fails the message is abandoned, comes again, and is dead-lettered once it came too often.
// A worker that dies leaves nothing behind: its lock ends, and the message comes to another one.
// With SECONDS it ends where no message came for so long; else it goes on.
import { setTimeout as pause } from 'node:timers/promises'

const [port, queue, seconds] = process.argv.slice(2)
if (!queue) {
  console.error('usage: node worker.mjs PORT QUEUE [SECONDS]')
  process.exit(2)
}
const server = `http://127.0.0.1:${port}`

class BadOrder extends Error {}

// What is done for one order, as {"lamps":2,"seconds":3}: here it only takes its time.
async function carryOut(text) {
  let order
  try {
    order = JSON.parse(text)
  } catch {
    throw new BadOrder('the order is no JSON')
  }
  if (!(order?.seconds >= 0)) throw new BadOrder('the order has no seconds')
  await pause(order.seconds * 1000)
}

// Whether it was settled so: a message whose lock was lost isn't.
async function settle(method, location) {
  const response = await fetch(location, { method })
  if (!response.ok) console.error(`${method} ${location}: ${response.status} ${await response.text()}`)
  return response.ok
}

async function bury({ SequenceNumber: seq, LockToken: token }, description) {
  const call = { do: 'dead-letter', from: queue, seq, token, reason: 'BadOrder', description }
  const response = await fetch(`${server}/$script`, { method: 'POST', body: JSON.stringify(call) })
  const reply = await response.json()
  if (reply.refused) console.error(`dead-letter ${seq}: ${reply.refused}`)
}

async function work(response) {
  const location = response.headers.get('location')
  const order = await response.text()
  const properties = JSON.parse(response.headers.get('brokerproperties'))
  const half = (Date.parse(properties.LockedUntilUtc) - Date.now()) / 2
  const renew = () => settle('POST', location).catch((fault) => console.error(`renew: ${fault.message}`))
  const renewal = setInterval(renew, Math.min(Math.max(half, 500), 150_000)) // a lock lives 300 s at the most
  try {
    await carryOut(order).finally(() => clearInterval(renewal))
    const completed = await settle('DELETE', location)
    console.log(`${properties.SequenceNumber} ${completed ? 'done' : 'is done, but not completed: it may come again'}`)
  } catch (fault) {
    if (fault instanceof BadOrder) await bury(properties, fault.message)
    else await settle('PUT', location)
    console.log(`${properties.SequenceNumber} ${fault instanceof BadOrder ? 'is no order' : 'is put back'}: ${fault.message}`)
  }
}

for (;;) {
  try {
    const response = await fetch(`${server}/${queue}/messages/head?timeout=${seconds ?? 60}`, { method: 'POST' })
    if (response.status === 204 && seconds) break
    if (response.status === 201) await work(response)
    else if (response.status !== 204) throw new Error(`${response.status} ${await response.text()}`)
  } catch (fault) {
    console.error(`again in a second, after: ${fault.message}`)
    await pause(1000)
  }
}
