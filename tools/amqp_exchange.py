#!/usr/bin/env python3
"""Exchanges messages with Apache Qpid Proton through lines of the built program, in the bytes of AMQP 1.0.

usage: tools/amqp_exchange.py PROGRAM

PROGRAM is the built program (crates/sb_bus/out/sb_bus). Each case is a message with fields at their least or
greatest. Proton writes it, a line sends its bytes, and a look has to show these fields; the same look in the form
`amqp` is read by Proton and has to have them, too. The other way a line sends the fields, and Proton has to find
them in the bytes that are shown. It needs python3-qpid-proton (Debian's name), and says `not run` where that isn't
there. The exit status is 1 where a case differs.
"""
import json
import os
import sys
import tempfile
import uuid

import lib

SYSTEM = "/usr/bin/python3"  # the python that Debian's packages are for
SCHEDULE = "x-opt-scheduled-enqueue-time"
TEXTS = {
    "id": "MessageId",
    "address": "To",
    "subject": "Label",
    "reply_to": "ReplyTo",
    "correlation_id": "CorrelationId",
    "content_type": "ContentType",
    "group_id": "SessionId",
    "reply_to_group_id": "ReplyToSessionId",
}
UNSET = "None"  # what Proton calls a content type that isn't there
LEAST = 1 << 63

try:
    import proton
except ImportError:
    if os.path.realpath(sys.executable) != os.path.realpath(SYSTEM) and os.access(SYSTEM, os.X_OK):
        os.execv(SYSTEM, [SYSTEM, *sys.argv])
    print("not run: for want of python3-qpid-proton")
    sys.exit(0)


def plain(**fields):
    """The fields of a message as a look shows them: those that aren't given are empty."""
    return {"body": "", "props": {}, "sys": {}, **fields}


def written(body=b"", inferred=True, properties=None, annotations=None, ttl=None, **texts):
    """The bytes that Proton writes of these fields; a time to live in s."""
    message = proton.Message(body=body, inferred=inferred, properties=properties, **texts)
    if annotations:
        message.annotations = annotations
    if ttl is not None:
        message.ttl = ttl
    return message.encode()


def scheduled(moment):
    return {proton.symbol(SCHEDULE): proton.timestamp(moment)}


def text_cases():
    """Each text with one character, with the most that the broker keeps, and beyond ASCII."""
    for field, name in TEXTS.items():
        most = 128 if name in ("MessageId", "SessionId", "ReplyToSessionId") else 60000
        for text in ["x", "é", "x" * most]:
            if field == "content_type" and not text.isascii():
                continue  # Proton's symbols are ASCII
            yield f"{name} of {len(text)}", written(**{field: text}), plain(sys={name: text})


def id_cases():
    ids = {
        "the number 0": (proton.ulong(0), "0"),
        "the greatest number": (proton.ulong((1 << 64) - 1), str((1 << 64) - 1)),
        "the least UUID": (uuid.UUID(int=0), str(uuid.UUID(int=0))),
        "the greatest UUID": (uuid.UUID(int=(1 << 128) - 1), str(uuid.UUID(int=(1 << 128) - 1))),
    }
    for field, name in [("id", "MessageId"), ("correlation_id", "CorrelationId")]:
        for what, (value, text) in ids.items():
            yield f"{name}: {what}", written(**{field: value}), plain(sys={name: text})


def property_cases():
    values = {
        "a byte": [(proton.byte(-128), -128), (proton.byte(127), 127), (proton.ubyte(255), 255)],
        "two bytes": [(proton.short(-32768), -32768), (proton.short(32767), 32767), (proton.ushort(65535), 65535)],
        "four bytes": [(proton.int32(-(1 << 31)), -(1 << 31)), (proton.int32((1 << 31) - 1), (1 << 31) - 1)],
        "four bytes, unsigned": [(proton.uint(0), 0), (proton.uint((1 << 32) - 1), (1 << 32) - 1)],
        "eight bytes": [(-LEAST, -LEAST), (LEAST - 1, LEAST - 1), (0, 0), (-1, -1)],
        "eight bytes, unsigned": [(proton.ulong(0), 0), (proton.ulong(LEAST - 1), LEAST - 1)],
        "truth": [(True, True), (False, False)],
        "texts": [("", ""), ("é", "é"), ("x" * 60000, "x" * 60000), (proton.symbol("s"), "s")],
    }
    for what, pairs in values.items():
        for value, kept in pairs:
            yield f"a property of {what}", written(properties={"n": value}), plain(props={"n": kept})
    for name in ["n", "n" * 128]:
        yield f"a name of {len(name)}", written(properties={name: 1}), plain(props={name: 1})
    many = {f"p{number}": number for number in range(256)}
    yield "256 properties", written(properties=many), plain(props=many)
    yield "a null, and names that fold", written(properties={"N": 1, "m": None}), plain(props={"n": 1})


def cases():
    """A name, the bytes that Proton writes, and the fields that a look has to show."""
    yield "nothing", written(), plain()
    yield "a body of bytes", written(b"\xff"), {"body_hex": "ff", "props": {}, "sys": {}}
    yield "the greatest body", written(b"x" * 262144), plain(body="x" * 262144)
    yield "a body of one value", written(b"hi", inferred=False), plain(body="hi")
    yield "a body of a string", written("hi", inferred=False), plain(body="hi")
    yield "the least time to live", written(ttl=0.001), plain(ttl=1)
    yield "the greatest time to live", written(ttl=4294967), plain(ttl=4294967)
    yield "the least schedule", written(annotations=scheduled(0)), plain()
    yield "a schedule", written(annotations=scheduled(1)), plain(schedule=1)
    yield "the greatest schedule", written(annotations=scheduled(LEAST - 1)), plain(schedule=LEAST - 1)
    yield from text_cases()
    yield from id_cases()
    yield from property_cases()


def found_by_proton(digits):
    """The fields that Proton finds in the bytes."""
    message = proton.Message()
    message.decode(bytes.fromhex(digits))
    body = bytes(message.body)
    try:
        fields = plain(body=body.decode())
    except UnicodeDecodeError:
        fields = {"body_hex": body.hex(), "props": {}, "sys": {}}
    texts = {name: getattr(message, field) for field, name in TEXTS.items()}
    fields["sys"] = {name: text for name, text in texts.items() if text and text != UNSET}
    fields["props"] = dict(message.properties or {})
    if message.ttl:
        fields["ttl"] = round(message.ttl)
    if message.annotations and SCHEDULE in message.annotations:
        fields["schedule"] = int(message.annotations[SCHEDULE])
    return fields


def shown_of(copy):
    """The message's own fields of a copy that was looked at in the plain form."""
    return {key: copy[key] for key in ("body", "body_hex", "props", "sys", "ttl", "schedule") if key in copy}


def exchanged(program, message):
    """A message that a line sends, as looks show it: in fields, and in bytes."""
    peek = {"do": "peek", "from": "q", "start": 1, "count": 1}
    calls = [{"do": "create-queue", "name": "q"}, {"do": "send", "to": "q", "messages": [message]}]
    lines = [json.dumps(call, ensure_ascii=False) for call in [*calls, peek, {**peek, "form": "amqp"}]]
    with tempfile.TemporaryDirectory() as folder:
        told = lib.run(program, folder, lines)
    replies = [json.loads(line) for line in told.stdout.splitlines()]
    lib.wants(told.returncode == 0 and len(replies) == 4, f"the run was answered {replies[1:]}"[:300])
    return replies[2]["copies"][0], replies[3]["copies"][0]


def differs(program, sent, fields):
    """What is wrong with a case, if something is."""
    try:
        for message in [{"amqp_hex": sent.hex()}, fields]:
            in_fields, in_bytes = exchanged(program, message)
            lib.wants(shown_of(in_fields) == fields, f"a look shows {shown_of(in_fields)}"[:300])
            found = found_by_proton(in_bytes["amqp_hex"])
            lib.wants(found == fields, f"Proton finds {found}"[:300])
    except lib.Failed as wrong:
        return str(wrong)
    return None


def main():
    program, _ = lib.given_words(__doc__)
    count = failed = 0
    for name, sent, fields in cases():
        count += 1
        wrong = differs(program, sent, fields)
        if wrong is not None:
            failed += 1
            print(f"WRONG: {name}: {wrong}")
    print(f"{count - failed} of {count} messages came through both ways, Proton {'.'.join(map(str, proton.VERSION))}")
    sys.exit(1 if failed else 0)


if __name__ == "__main__":
    main()
