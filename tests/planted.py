"""Cells of pages that are altered, one at a time, and the groups of checks over tables that have to see it. It is tried
by tests/checks.py."""
import os
import re
import shutil
import tempfile
from pathlib import Path

import pages
import tables
import told
import told_scripts
import told_services
import told_worlds

ROOT = pages.ROOT
SERVICES, SCRIPTS, FAULTS = "docs/SERVICES.md", "docs/SCRIPTS.md", "docs/FAULTS.md"


def worked_words():
    """What the worked tables tell in words."""
    return told.worked_words(tables.WORKED)


# What reads a table, and how a cell of a page is altered so that it has to see it: by a pattern, which stands
# there once, and what is put in its place.
PLANTED = (
    (worked_words, "README.md", r"Its message has identifier 1\.", "Its message has identifier 2."),
    (worked_words, "README.md", r"and four objects are left", "and five objects are left"),
    (worked_words, "docs/CONNECTIONS.md", r"context 7, client 32\.36, identifier 2, byte 61", "context 9"),
    (worked_words, "docs/CONNECTIONS.md", r"identifier 2, byte 62", "identifier 2, byte 61"),
    (worked_words, "docs/CONNECTIONS.md", r"three threads, five ports", "three threads, six ports"),
    (worked_words, "docs/EXCEPTIONS.md", r"code 80000003, chance 1", "code 80000004, chance 1"),
    (worked_words, "docs/EXCEPTIONS.md", r"Type 7, with chance 2", "Type 8, with chance 2"),
    (worked_words, "docs/EXCEPTIONS.md", r"Identifier 7 is that", "Identifier 8 is that"),
    (worked_words, "docs/SECURITY.md", r"lesser of level 2 and level 3", "lesser of level 1 and level 3"),
    (worked_words, "docs/SECURITY.md", r"eight ports, three tokens", "eight ports, two tokens"),
    (worked_words, "docs/SECURITY.md", r"Her server port has handle 8", "Her server port has handle 12"),
    (worked_words, "docs/VIEWS.md", r"by a handle with the right 2", "by a handle with the right 1"),
    (told.lists, "docs/SECURITY.md", r"(an access list without an entry) \| C0000022", r"\1 | goes on"),
    (told.lists, "docs/SECURITY.md", r"(first entry that counts is `D`) \| C0000022", r"\1 | C00000A5"),
    (told.lists, "docs/SECURITY.md", r"(`acl:A/2/S-1-5-21-9`) \| C0000022", r"\1 | goes on"),
    (told.taken, "docs/SECURITY.md", r"(\| as itself \| for somebody) \| itself \|", r"\1 | that somebody |"),
    (told.taken, "docs/SECURITY.md", r"the first one \| the other one", "the other one | the first one"),
    (told.taken, "docs/SECURITY.md", r"(closes its port \| as before) \| no, C000021F", r"\1 | no, C000000B"),
    (told.taken, "docs/SECURITY.md", r"(process ends) \| as before \|", r"\1 | as itself |"),
    (told.turns, "docs/EXCEPTIONS.md", r"\| 1 \| 64, 44 \|", "| 1 | 44, 64 |"),
    (told.turns, "docs/EXCEPTIONS.md", r"Process 40 is doomed \|", "Process 60 is doomed |"),
    (told.turns, "docs/EXCEPTIONS.md", r"\| the least number first \|", "| the oldest first |"),
    (told.waits, "docs/WAITS.md", r"(in whose queue it stands) \| C0000253", r"\1 | C0000037"),
    (told.waits, "docs/WAITS.md", r"step 5( \| \[a-server-port-ends-its-clients-receives\])", r"step 4\1"),
    (told.waits, "docs/WAITS.md", r"(`raise` \| the frame handlers handled it) \| a reply continued it", r"\1 | "),
    (told.residents, "docs/RESIDENT.md", r"with the data `0000000000c00000`", "with the data `0000000000c10000`"),
    (told.residents, "docs/RESIDENT.md", r"and thread 24 wakes with type 5", "and thread 24 wakes with type 6"),
    (told.ends, "docs/ENDINGS.md", r"\| 45, 46, 48 \|", "| 45, 46, 49 |"),
    (told.one_line_more, "docs/ENDINGS.md", r"It was the debugger of 56:", "It was the debugger of 60:"),
    (told.before, "docs/CLOSING.md", r"(on handle 8 \|) 4, 8 \|", r"\1 4, 12 |"),
    (told.before, "docs/ENDINGS.md", r"\| 24, which received", "| 28, which received"),
    (told.reply_handles, "docs/CONNECTIONS.md", r"(client's port \|) C000021F", r"\1 C0000037"),
    (told.offers, "docs/VIEWS.md", r"(the client \| `h`), `vbase`", r"\1, `base`"),
    (told.offers, "docs/VIEWS.md", r"(the server \| `h`, `base`), `target`", r"\1, `vbase`"),
    (told.files_of_names, "docs/DEFINITIONS.md", r"(`woken` \|) `Entering.antt`", r"\1 `Refusal.antt`"),
    (told.traced, "docs/TRACES.md", r"`\$api = @main NtCreatePort", "`$api = @main NtListenPort"),
    (told.printed_fields, "docs/SCRIPTS.md", r"(message that was received \|) 8 hexadecimal digits", r"\1 4 digits"),
    (told.printed_fields, "docs/SCRIPTS.md", r"\| `vsize` \|", "| `wsize` |"),
    (told.layout, "docs/SCRIPTS.md", r"16 to 19 \| MessageId", "16 to 17 | MessageId"),
    (told.options, "docs/CONFORMANCE.md", r"`--shard I/N`", "`--shared I/N`"),
    (told.options, "docs/CONFORMANCE.md", r"may take; 60 where", "may take; 30 where"),
    (told.options, "docs/CONFORMANCE.md", r"`means`, `rule`, `page`", "`means`, `rules`, `page`"),
    (told.steps_here, "docs/CLOSING.md", r"\| the request of 28 \| empties", "| the request of 40 | empties"),
    (told.steps_here, "docs/ENDINGS.md", r"then 40, the second", "then 44, the second"),
    (told.steps_here, "docs/ENDINGS.md", r"and a message of type 5 enters", "and a message of type 6 enters"),
    (told.folders, "docs/CONFORMANCE.md", r"\| `resident`, `turn` \|", "| `resident`, `turns` |"),
    (told.words_of_program, "README.md", r"writes `usage: ntlpc COMMAND", "writes `usage: ntlpc COMMANDS"),
    (told.traced, "docs/TRACES.md", r"`r:\$event:02000100`", "`r:$event:01000180`"),
    (told_services.ports, SERVICES, r"(`NtConnectPort` \| the queue of its) connection port", r"\1 client port"),
    (told_services.ports, SERVICES, r"(the queue of its connection port \|) 0 \|", r"\1 1 |"),
    (told_services.ports, SERVICES, r"\| unnamed \| `NtCreatePort -`", "| unnamed | `NtCreatePort NAME`"),
    (told_services.written, SERVICES, r"\| the thread that ended \| 0 \| 0 \|", "| the thread that ended | 1 | 0 |"),
    (told_services.written, SERVICES, r"\| 2 \| as given \| as given", "| 2 | as given | the identifier that it drew"),
    (told_services.written, SERVICES, r"\| the connecting thread \|", "| the accepting thread |"),
    (told_services.written, SERVICES, r"data, 8 bytes \| that thread's", "data, 4 bytes | that thread's"),
    (told_services.written, SERVICES, r"\| 0, which no thread draws \|", "| 1, which no thread draws |"),
    (told_services.views, SERVICES, r"(the client port \| VIEW is given \|) `target`", r"\1 `vbase`"),
    (told_services.views, SERVICES, r"(client's \| the server \|) the server port", r"\1 the client port"),
    (told_services.limits, SERVICES, r"where a token is opened, where a handle", "where a handle"),
    (told_services.limits, SERVICES, r"wait in a connect, accepted or not\. Tested", "wait in a connect. Tested"),
    (told_services.limits, SERVICES, r"what one `NtReadVirtualMemory`", "what one `NtMapViewOfSection`"),
    (told_services.limits, SERVICES, r"it has registered, closed ones too\.", "it has registered, open ones."),
    (told_services.counts, SERVICES, r"\| 2 for a process of which", "| 1 for a process of which"),
    (told_services.counts, SERVICES, r"\| a datagram, a request, an event,", "| a datagram, a request, a reply,"),
    (told_services.counts, SERVICES, r"\| a live thread of it \|", "| a handle of it |"),
    (told_services.counts, SERVICES, r"\| a connect that waits, offers it", "| a connect that offers it"),
    (told_services.closing, SERVICES, r"(a connect of this pair that isn't completed \|) C0000041", r"\1 C0000037"),
    (told_services.closing, SERVICES, r"(in the order of the queue \|) C0000253", r"\1 C0000037"),
    (told_services.closing, SERVICES, r"\| 6\. port closed \|", "| 8. port closed |"),
    (told_services.closing, SERVICES, r"(C0000253)\. What is still queued is taken out", r"\1"),
    (told_services.ending, SERVICES, r"can't be completed \(C0000037\)", "can't be completed (C0000253)"),
    (told_services.ending, SERVICES, r"its handles, those with lower values first", "its handles, the oldest first"),
    (told_services.exceptions, SERVICES, r"begin with the bytes 02000100", "begin with the bytes 01000180"),
    (told_services.exceptions, SERVICES, r"handle it \| returns at once with 00000000", "handle it | waits"),
    (told_services.written, SERVICES, r"CODE, and the chance, 1 or 2;", "CODE, and the chance, 0 or 1;"),
    (told_services.written, SERVICES, r"for a thread of a directive 0, and", "for a thread of a directive 1, and"),
    (told_services.limits, SERVICES, r"nor does what a child or a directive made", "nor does what a directive made"),
    (told_services.counts, SERVICES, r"also one that is closed and still stands, and", "but none that is closed, and"),
    (told_services.closing, SERVICES, r"C0000041, oldest first", "C0000041, newest first"),
    (told_services.closing, SERVICES, r"port ends those made on its server ports too", "port ends no others"),
    (told_services.ending, SERVICES, r"for each, with the code, behind the", "for each, with the code, before the"),
    (told_services.ending, SERVICES, r"A process or a thread that it names lives on", "A process that it names ends"),
    (told_scripts.word_forms, SCRIPTS, r"with 1 to 8 hexadecimal", "with 1 to 16 hexadecimal"),
    (told_scripts.word_forms, SCRIPTS, r"`w:H:OFFSET:SIZE` with", "`v:H:OFFSET:SIZE` with"),
    (told_scripts.word_forms, SCRIPTS, r"a number below 2\^48", "a number below 2^32"),
    (told_scripts.word_forms, SCRIPTS, r"and 0 to 16 entries", "and 1 to 16 entries"),
    (told_scripts.word_forms, SCRIPTS, r"1 to 32 letters, digits or `_`", "1 to 31 letters, digits or `_`"),
    (told_scripts.word_forms, SCRIPTS, r"NtTerminateThread, NtTerminateProcess and", "NtTerminateThread and"),
    (told_scripts.word_forms, SCRIPTS, r"a Number: 2 for what may be read", "a Number: 1 for what may be read"),
    (told_scripts.message_forms, SCRIPTS, r"the same with ClientId P\.T", "the same with ClientId T.P"),
    (told_scripts.lines, SCRIPTS, r"`24 NtCreateThread self 28`", "`24 NtCreateThread it 28`"),
    (told_scripts.lines, SCRIPTS, r"up to 16 further words", "up to 15 further words"),
    (told_scripts.lines, SCRIPTS, r"NtReadRequestData H MSG INDEX LEN`", "NtReadRequestData H MSG LEN INDEX`"),
    (told_scripts.classes, SCRIPTS, r"or the exception port \(8\)", "or the exception port (9)"),
    (told_scripts.word_forms, SCRIPTS, r"`0X18` is none", "`0x18` is none"),
    (told_scripts.lines, SCRIPTS, r"`boot 20 24 alice`", "`boots 20 24 alice`"),
    (told_scripts.examples, SCRIPTS, r"`d:0`, `m:41:42`", "`d:00`, `m:41:42`"),
    (told_scripts.examples, SCRIPTS, r"`24 NtListenPort 08`", "`24 NtListenPort 8`"),
    (told_scripts.examples, SCRIPTS, r"a byte outside 32 to 126 \|", "a byte outside 32 to 127 |"),
    (told_scripts.examples, SCRIPTS, r"begins with none of `m:`, `d:` and `r:`", "begins with none of `m:` and `r:`"),
    (told_scripts.entries, SCRIPTS, r"`LINE \*TID CALL STATUS`", "`LINE ~TID CALL STATUS`"),
    (told_scripts.entries, SCRIPTS, r"\| `LINE TID CALL wait` and fields", "| `LINE TID CALL wait`"),
    (told_scripts.faults, FAULTS, r"\[3\]\(#kind-3-no-such-call\)", "[3](#kind-2-a-word-that-cant-stand-there)"),
    (told_scripts.faults, FAULTS, r"-failed\), \[4\]\(#status-4", "-failed), [5](#status-4"),
    (told_scripts.faults, FAULTS, r"## Kind 3: no such call", "## Kind 3: too few or too many words"),
    (told_scripts.faults, FAULTS, r"\[nothread\]\(#nothread-no-such-thread\)", "[busy](#nothread-no-such-thread)"),
    (told_scripts.exercises, "docs/EXERCISES.md", r"\[3\]\(#3-datagrams\)", "[3](#2-receives-that-wait)"),
    (told_scripts.exercises, "docs/EXERCISES_CONNECTIONS.md", r"\[9\]\(#9-two-clients\)", "[8](#9-two-clients)"),
    (told_worlds.keys, "docs/STATES.md", r"(\| `debug_port`, `exception_port` \|) name", r"\1 number"),
    (told_worlds.keys, "docs/STATES.md", r"\| `next_identifier`, `next_ordinal`", "| `next_ordinal`, `id`"),
    (told_worlds.keys, "docs/STATES.md", r"two numbers, name, hex", "two numbers, hex, name"),
    (told_worlds.keys, "docs/STATES.md", r"`chance`: hex, true or false", "`chance`: number, true or false"),
    (told_worlds.keys, "docs/STATES.md", r"`last debug` or `last exception`", "`last exception` or `last debug`"),
    (told_worlds.keys, "docs/STATES.md", r"\| section \| `process`, `size`", "| section | `size`, `process`"),
    (told_worlds.names, "docs/STATES.md", r"\| `handle 20/4` \|", "| `handle 20.4` |"),
    (told_worlds.names, "docs/STATES.md", r"\| `view 32/00010000`", "| `view 32/65536`"),
    (told_worlds.going, "docs/VIEWS.md", r"(process ends) \| both stay \| both go", r"\1 | both go | both go"),
    (told_worlds.going, "docs/VIEWS.md", r"(thread ends before the accept \| its own) goes", r"\1 stays"),
    (told_worlds.going, "docs/VIEWS.md", r"both stay until the server port closes", "both stay"),
    (told_worlds.going, "docs/VIEWS.md", r"the server's comes \| both come", "both come | the server's comes"),
    (told_worlds.closings, "docs/CLOSING.md", r"the connection port's queue go on; what", "its queue go on; what"),
    (told_worlds.closings, "docs/CLOSING.md", r"\| all stay \|", "| the same |"),
    (told_worlds.closings, "docs/CLOSING.md", r"are received, or the client port closes", "are received"),
    (told_worlds.next_calls, "docs/RESIDENT.md", r"connection request \(type 10\)", "connection request (type 1)"),
    (told_worlds.next_calls, "docs/RESIDENT.md", r"(got the handle h \|) `NtCompleteConnectPort h`", r"\1 `NtClose h`"),
    (told_worlds.next_calls, "docs/RESIDENT.md", r"`c0000035` where a server is", "`c000000b` where a server is"),
    (told_worlds.next_calls, "docs/RESIDENT.md", r"`busy` where the thread waits;", "`busy` where it ended;"),
    (told_worlds.names, "docs/STATES.md", r"the handle 4 of process 20", "the handle 20 of process 40"),
    (told_worlds.requests, "docs/RESIDENT.md", r"C0000034: no text has the", "C0000044: no text has the"),
    (told_worlds.requests, "docs/RESIDENT.md", r"console \| as with 3 \|", "console | as with 1 |"),
    (told_worlds.holders, "docs/CLOSING.md", r"whose connection port it is \| 3", "whose connection port it is | 4"),
    (told_worlds.holders, "docs/CLOSING.md", r"the datagram of 36 and its own", "the datagram of 28 and its own"),
    (told_worlds.changing, "docs/SECURITY.md", r"with its next request, by the tracking", "no, C000021F"),
)


def whole(root):
    """Puts what the pages are held against, and copies of the pages, into a folder."""
    for name in ("conformance", "examples", "tools", "crates"):
        os.symlink(ROOT / name, root / name)
    shutil.copytree(ROOT / "docs", root / "docs", ignore=shutil.ignore_patterns("*.png"))
    shutil.copy(ROOT / "README.md", root / "README.md")


def unseen(group, page, pattern, other):
    """What is wrong with a group that is to see an altered cell: it finds something wrong of the pages as they are, or
    nothing behind the change; or the pattern doesn't stand there once."""
    altered, count = re.subn(pattern, other, (ROOT / page).read_text(encoding="utf-8"))
    if count != 1:
        return f"{pattern} stands there {count} times"
    places = pages.ROOT, pages.DOCS
    with tempfile.TemporaryDirectory() as folder:
        root = Path(folder)
        whole(root)
        pages.ROOT, pages.DOCS = root, root / "docs"
        try:
            if any(wrong for _, wrong in group()):
                return "the pages as they are don't pass"
            (root / page).write_text(altered, encoding="utf-8")
            return "" if any(wrong for _, wrong in group()) else "it isn't seen"
        finally:
            pages.ROOT, pages.DOCS = places


def planted():
    """A cell that is altered is seen."""
    for group, page, pattern, other in PLANTED:
        yield f"{page} with {other}", lambda: unseen(group, page, pattern, other)
