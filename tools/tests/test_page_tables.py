"""The tables of `page`: what stands in them behind each line, what is marked, and what a browser makes of them.

What the program prints was written by hand from the definitions of its rows, and what the tables have to say from that.
"""
import json
import re
import unittest

import reading
import support
from ntlpc_tool import states

SCRIPT = br"""boot 20 24
thread 28 20
24 NtCreatePort \P
28 NtReplyWaitReceivePort 4
24 NtRequestWaitReplyPort 4 d:4142
28 NtReplyPort 4 r:20.24.1:43
24 NtRequestPort 4 d:44
28 NtReplyWaitReceivePort 4
24 NtClose 4
"""
TOKEN = '{"user":"S-1-5-18","groups":["S-1-5-32-544","S-1-1-0"]}'
PROCESS = f'"process 0.20","number":20,"maker":null,"token":{TOKEN},"debug_port":null,"exception_port":null,"doom":null'
PORT = (
    '"port 24.1","kind":"connection","connection":null,"pair":null,"context":"00000000","completed":false,'
    '"creator":null,"security":null,"handles":1,"pointers":'
)
MESSAGE = '"data_size":{0},"message_size":{1},"ranges_offset":0,"section_size":0,"data":"{2}"'
REQUEST = '{"type":1,"process":20,"thread":24,"identifier":1,' + MESSAGE.format(2, 26, "4142") + "}"


def thread(number, identifier, ordinal):
    """The row of a thread."""
    return (
        f'"thread 0.{number}","number":{number},"process":20,"live":true,"next_identifier":{identifier},'
        f'"next_ordinal":{ordinal},"registrations":[],"acts_as":null,"handles":0,"pointers":1'
    )


def wait(number, call, identifier, more):
    """The row of a wait on the port."""
    return (
        f'"wait {number}.{identifier}","process":20,"thread":{number},"call":"{call}","port":"port 24.1",'
        f'"queue":"port 24.1","identifier":{identifier},"received":{more}'
    )


# The entries of each line, and what became of rows.
TOLD = (
    ("1 - boot 00000000", f'came {PROCESS},"handles":0,"pointers":1', f"came {thread(24, 1, 1)}"),
    ("2 - thread 00000000", f'changed {PROCESS},"handles":0,"pointers":2', f"came {thread(28, 1, 1)}"),
    (
        "3 24 NtCreatePort 00000000 h=4",
        f"changed {thread(24, 1, 2)}",
        'came "handle 20/4","process":20,"value":4,"object":"port 24.1","access":"001f0001"',
        f"came {PORT}1",
        r'came "name \\P","is":"port","port":"port 24.1"',
    ),
    (
        "4 28 NtReplyWaitReceivePort wait",
        f'came {wait(28, "NtReplyWaitReceivePort", 0, "false")},"for":"message"',
        f"changed {PORT}2",
    ),
    (
        "5 24 NtRequestWaitReplyPort wait id=1\n5 *28 NtReplyWaitReceivePort 00000000 ctx=00000000 "
        "msg=02001a0001000000140000001800000001000000000000004142",
        'went "wait 28.0"',
        f"changed {thread(24, 2, 2)}",
        f'came {wait(24, "NtRequestWaitReplyPort", 1, "true")},"for":"reply","message":{REQUEST}',
    ),
    (
        "6 28 NtReplyPort 00000000\n6 *24 NtRequestWaitReplyPort 00000000 "
        "msg=01001900020000001400000018000000010000000000000043",
        'went "wait 24.1"',
        f"changed {PORT}1",
    ),
    (
        "7 24 NtRequestPort 00000000 id=2",
        f"changed {thread(24, 3, 2)}",
        f"changed {PORT}2",
        'came "message 24.1 24.1 24.2 3","queue":"port 24.1","sender":"port 24.1","context":"00000000","type":3,'
        f'"process":20,"thread":24,"identifier":2,{MESSAGE.format(1, 25, "44")}',
    ),
    (
        "8 28 NtReplyWaitReceivePort 00000000 ctx=00000000 msg=01001900030000001400000018000000020000000000000044",
        'went "message 24.1 24.1 24.2 3"',
        f"changed {PORT}1",
    ),
    ("9 24 NtClose 00000000", 'went "handle 20/4"', 'went "port 24.1"', r'went "name \\P"'),
)  # fmt: skip
END = "end 9 11 3\n"
# What each step changes, as the page tells it.
CHANGES = {
    "line-1": [
        "process 20 came: Token S-1-5-18; groups S-1-5-32-544, S-1-1-0; Handles 0; Pointers 1",
        "thread 24 came: Process 20; Next identifier 1; Next object 1; Handles 0; Pointers 1",
    ],
    "line-2": [
        "process 20 changed: Pointers 1 → 2",
        "thread 28 came: Process 20; Next identifier 1; Next object 1; Handles 0; Pointers 1",
    ],
    "line-3": [
        "thread 24 changed: Next object 1 → 2",
        "handle 20/4 came: Process 20; Object port 24.1; Access 001f0001",
        "port 24.1 came: Kind connection; Handles 1; Pointers 1",
        "name \\P came: Leads to port 24.1",
    ],
    "line-4": [
        "thread 28 changed: Waits in nothing → NtReplyWaitReceivePort; On nothing → port 24.1; "
        "For nothing → a message",
        "port 24.1 changed: Pointers 1 → 2",
    ],
    "line-5": [
        "thread 28 changed: Waits in NtReplyWaitReceivePort → nothing; On port 24.1 → nothing; For a message → nothing",
        "thread 24 changed: Waits in nothing → NtRequestWaitReplyPort; On nothing → port 24.1; "
        'For nothing → the reply to its request 1, received; sent 4142 "AB"; Next identifier 1 → 2',
    ],
    "line-6": [
        "thread 24 changed: Waits in NtRequestWaitReplyPort → nothing; On port 24.1 → nothing; "
        'For the reply to its request 1, received; sent 4142 "AB" → nothing',
        "port 24.1 changed: Pointers 2 → 1",
    ],
    "line-7": [
        "thread 24 changed: Next identifier 2 → 3",
        "port 24.1 changed: Pointers 1 → 2",
        'queued datagram 20.24.2 came: Queue port 24.1; Sent on port 24.1; Context 00000000; Data 44 "D"',
    ],
    "line-8": ["queued datagram 20.24.2 went", "port 24.1 changed: Pointers 2 → 1"],
    "line-9": ["handle 20/4 went", "port 24.1 went", "name \\P went"],
    "end": [],
}


def printed(told, end):
    """What the form `states` prints for entries and rows."""
    lines = []
    for number, (entries, *rows) in enumerate(told, 1):
        lines += [f"{entries}\n"] if entries else []
        parted = (it.partition(" ") for it in rows)
        lines += [f'{{"line":{number},"{word}":{row}}}\n' for word, _, row in parted]
    return ("".join(lines) + end).encode()


def words(node):
    """The text of a node, with single spaces."""
    return " ".join(node.text().split())


def steps_of(page):
    """The data from which the page's script makes the tables."""
    return json.loads(page.one("steps").text())


def cell_text(cell):
    return cell if isinstance(cell, str) else "".join(it if isinstance(it, str) else it[1] for it in cell)


def tables_behind(page, last):
    """The tables behind a step by the data, each by its heading: of each row what stands in the columns that aren't
    empty."""
    rows = {}
    for step in steps_of(page)[: last + 1]:
        for number, given in step:
            if given is None:
                del rows[number]
            elif isinstance(given, list):
                assert number not in rows
                rows[number] = given
            else:
                rows[number] = [given.get(str(at), it) for at, it in enumerate(rows[number])]
    found, begin = {}, 0
    for table in page.all("details", "rows"):
        heads = [it.text() for it in next(table.all("thead")).all("th")]
        end = begin + int(table.attributes["data-rows"])
        texts = ([cell_text(it) for it in rows[number]] for number in sorted(rows) if begin <= number < end)
        told = [{head: it for head, it in zip(heads, cells) if it} for cells in texts]
        assert all(len(rows[it]) == len(heads) for it in rows if begin <= it < end)
        name = next(table.all("summary")).text().rsplit(" ", 1)[0]
        begin, found = end, {**found, name: told} if told else found
    return found


class WithTables(support.WithFolder):
    """A test that writes a script, and what `ntlpc states` prints for it."""

    def page(self, told=TOLD, script=SCRIPT, end=END):
        """The tree of a page."""
        return reading.tree(self.text(told, script, end))

    def text(self, told=TOLD, script=SCRIPT, end=END):
        path, other = self.file("s.script", script), self.file("s.states", printed(told, end))
        ran = support.inside("page", path, "--transcript", other)
        self.assertEqual((ran.returncode, ran.stderr), (0, ""))
        return ran.stdout

    def cells(self, *rows):
        """The tables of a script of one line in which rows come, which are given as JSON."""
        told = [("1 - dir 00000000", *(f"came {it}" for it in rows))]
        return tables_behind(self.page(told, b"dir \\x\n", "end 1 1 0\n"), 0)


class Read(unittest.TestCase):
    def test_the_transcript_and_the_changes(self):
        transcript, changes = states.split(printed(TOLD, END))
        self.assertEqual(transcript.decode(), "".join(f"{it[0]}\n" for it in TOLD) + END)
        self.assertEqual(len(changes), sum(len(it) - 1 for it in TOLD))
        first, last = changes[0], changes[-1]
        self.assertEqual((first.line, first.word, first.name), (1, "came", "process 0.20"))
        self.assertEqual((first.values["number"], first.values["doom"]), (20, None))
        self.assertEqual((last.line, last.word, last.name, last.values), (9, "went", "name \\P", {}))

    def test_a_transcript_has_no_changes(self):
        for data in (b"", b"end 0 0 0\n", b"1 - boot 00000000\nend"):
            self.assertEqual(states.split(data), (data, []))

    def test_lines_that_tell_of_no_row(self):
        wrong = (
            b"{", b"{}", b"{]", b'{"line":1}', b'{"came":"port 1.1"}', b'{"line":1,"came":1}', b"{" * 9999,
            b'{"line":"1","came":"x"}', b'{"line":true,"came":"x"}', b'{"line":1,"came":""}', b'{"line":1,"came":',
            b'{"line":1,"came":"x","went":"x"}', b'{"line":1,"came":"x","size":NaN}', b'{"line":1,"came":"x"}{',
            b'{"line":1,"came":"\xff"}',
        )  # fmt: skip
        for line in wrong:
            with self.assertRaisesRegex(states.Malformed, "line 2 of what was printed"):
                states.split(b"1 - boot 00000000\n" + line + b"\nend 1 1 2\n")


class Told(WithTables):
    def test_what_each_step_changes(self):
        page = self.page()
        for name, wanted in CHANGES.items():
            lists = [it for part in page.one(name).all("div", "changes") for it in part.all("li")]
            self.assertEqual([words(it) for it in lists], wanted, name)

    def test_the_tables_behind_a_line(self):
        counts, token = {"Handles": "0", "Pointers": "1"}, "S-1-5-18; groups S-1-5-32-544, S-1-1-0"
        process = {"Process": "process 20", "Token": token, "Handles": "0", "Pointers": "2"}
        threads = [
            {"Thread": "thread 24", "Process": "20", "Waits in": "NtRequestWaitReplyPort", "On": "port 24.1",
             "For": 'the reply to its request 1, received; sent 4142 "AB"', "Next identifier": "2", "Next object": "2",
             **counts},
            {"Thread": "thread 28", "Process": "20", "Next identifier": "1", "Next object": "1", **counts},
        ]
        wanted = {
            "Processes": [process],
            "Threads": threads,
            "Ports": [{"Port": "port 24.1", "Kind": "connection", "Handles": "1", "Pointers": "2"}],
            "Handles": [{"Handle": "handle 20/4", "Process": "20", "Object": "port 24.1", "Access": "001f0001"}],
            "Names": [{"Name": "\\P", "Leads to": "port 24.1"}],
        }
        page = self.page()
        self.assertEqual(tables_behind(page, 4), wanted)
        self.assertEqual(list(tables_behind(page, 0)), ["Processes", "Threads"])
        queued = {"Message": "datagram 20.24.2", "Queue": "port 24.1", "Sent on": "port 24.1", "Context": "00000000"}
        self.assertEqual(tables_behind(page, 6)["Queued messages"], [{**queued, "Data": '44 "D"'}])
        self.assertEqual(list(tables_behind(page, 8)), ["Processes", "Threads"])
        self.assertEqual(tables_behind(page, 9), tables_behind(page, 8))

    def test_the_page_has_the_tables_of_the_end_without_its_script(self):
        page = self.page()
        shown = {it.text().rsplit(" ", 1)[0]: "hidden" not in table.attributes
                 for table in page.all("details", "rows") for it in table.all("summary")}
        wanted = {"Processes": True, "Threads": True, "Ports": False, "Handles": False, "Queued messages": False,
                  "Names": False}
        self.assertEqual(shown, wanted)
        rows = [[words(it) for it in row.inner if "hidden" not in it.attributes] for row in page.all("tr")]
        self.assertIn(["thread 24", "20", "3", "2", "0", "1"], rows)
        self.assertIn("The machine behind the last line", words(page.one("machine")))
        for name in ("only", "controls"):
            self.assertIn("hidden", page.one(name).attributes)

    def test_names_lead_to_rows(self):
        page = self.page(TOLD[:8], SCRIPT.rsplit(b"\n", 2)[0] + b"\n", "end 8 10 4\n")
        (row,) = [it for it in page.all("tr") if words(it).startswith("handle 20/4")]
        links = {it.text(): it.attributes["href"][1:] for it in row.all("a")}
        self.assertEqual(list(links), ["20", "port 24.1"])
        self.assertTrue(words(page.one(links["20"])).startswith("process 20"))
        self.assertTrue(words(page.one(links["port 24.1"])).startswith("port 24.1"))
        gone = [it.attributes for it in page.one("line-8").all("a") if it.text() == "queued datagram 20.24.2"]
        self.assertEqual(["href" in it for it in gone], [False])

    def test_links_inside_lead_somewhere_and_names_are_single(self):
        page = self.page()
        names = [it.attributes["id"] for it in page.all() if "id" in it.attributes]
        self.assertEqual(len(names), len(set(names)))
        given = [it.attributes.get("href", "") for it in page.all("a")]
        self.assertLessEqual({it[1:] for it in given if it.startswith("#")}, set(names))

    def test_the_page_leads_to_what_the_tables_tell(self):
        (link,) = [it.attributes["href"] for it in self.page().all("a") if it.text() == "What the tables tell"]
        self.assertEqual(link, f"{(support.ROOT / 'docs').as_uri()}/STEPPING.md#the-machine-behind-a-line")

    def test_a_line_without_an_entry_counts_for_the_next_step(self):
        told = ('came "token_name x","token":{"user":"S-1-1-0","groups":[]}',)
        page = self.page([("", *told), ("2 - dir 00000000",)], b"token x S-1-1-0\ndir \\x\n", "end 2 1 0\n")
        self.assertEqual(list(tables_behind(page, 0)), ["Names of tokens"])


class Kinds(WithTables):
    """Each kind of rows, with values of each form."""

    BOOT = f'{PROCESS},"handles":0,"pointers":1'

    def waits(self, call, more, port="port 24.2", queue="port 24.1"):
        """The cells of a thread's wait."""
        row = f'"wait 24.2","process":20,"thread":24,"call":"{call}","port":"{port}","queue":"{queue}"{more}'
        (cells,) = self.cells(thread(24, 1, 1), row)["Threads"]
        return [cells.get(it) for it in ("Waits in", "On", "Queue", "For")]

    def test_waits(self):
        sent = '"message":{"type":10,"process":20,"thread":24,"identifier":2,' + MESSAGE.format(0, 24, "") + "}"
        head, ports = ',"identifier":2,"received":', ["port 24.2", "port 24.1"]
        offer = '{"section":"section 24.3","offset":4096,"size":8192}'
        self.assertEqual(
            self.waits("NtConnectPort", f'{head}false,"for":"answer",{sent},"offer":{offer}'),
            ["NtConnectPort", *ports,
             "the answer to its connect 2, not received; offers section 24.3 from 4096, 8192 bytes"],
        )
        self.assertEqual(
            self.waits("NtConnectPort", f'{head}true,"for":"answer",{sent},"offer":null'),
            ["NtConnectPort", *ports, "the answer to its connect 2, received"],
        )
        accepted = '{"info":"4f4b","target":"00020000","vbase":"00030000","vsize":4096}'
        told = 'answer 4f4b "OK"; its view there at 00020000; the other\'s view at 00030000; 4096 bytes of it'
        self.assertEqual(
            self.waits("NtConnectPort", f'{head}true,"for":"completion",{sent},"accepted":{accepted}'),
            ["NtConnectPort", *ports, f"the completion of its connect 2, received; {told}"],
        )
        raised = '{"code":"c0000005","handled":false,"chance":"last debug"}'
        self.assertEqual(
            self.waits("raise", f'{head}true,"for":"event","exception":{raised}'),
            ["raise", *ports, "what becomes of its event 2, received; c0000005 ACCESS_VIOLATION; "
             "unhandled by frame handlers; chance: last debug"],
        )
        self.assertEqual(
            self.waits("NtListenPort", ',"identifier":0,"received":false,"for":"connection request"', "port 24.1"),
            ["NtListenPort", "port 24.1", None, "a connection request"],
        )

    def test_a_wait_with_another_identifier_is_of_the_same_thread(self):
        raised = '"for":"event","exception":{"code":"c0000005","handled":false,"chance":"%s"}'
        rows = [f'{wait(24, "raise", number, "true")},{raised % chance}'
                for number, chance in ((1, "first debug"), (2, "last debug"))]
        told = [("1 - dir 00000000", f"came {thread(24, 1, 1)}", f"came {rows[0]}"),
                ("2 - dir 00000000", 'went "wait 24.1"', f"came {rows[1]}"), ("3 - dir 00000000", 'went "wait 24.2"')]
        page = self.page(told, b"dir \\x\n" * 3, "end 3 3 1\n")
        self.assertIn("its event 2, received;", tables_behind(page, 1)["Threads"][0]["For"])
        (((_, cells),), ((_, last),)) = steps_of(page)[1:3]
        self.assertEqual([len(cells), len(last)], [1, 3])

    def test_a_thread_that_ended_is_registered_marked_and_acts_for_a_client(self):
        row = (
            '"thread 24.5","number":36,"process":20,"live":false,"next_identifier":1,"next_ordinal":1,'
            '"registrations":["port 24.1","port 24.2"],"handles":1,"pointers":1,'
            '"acts_as":{"token":{"user":"S-1-5-21-7","groups":[]},"level":2}'
        )
        (cells,) = self.cells(row, '"mark 36","thread":36')["Threads"]
        self.assertEqual(cells["Made as"], "24.5")
        self.assertEqual((cells["Life"], cells["Mark"]), ("ended", "not handled"))
        self.assertEqual(cells["Its end is told to"], "port 24.1, port 24.2")
        self.assertEqual(cells["Acts as"], "S-1-5-21-7; level 2 (impersonation)")

    def test_a_process_with_ports_that_is_to_end(self):
        row = (
            f'"process 24.4","number":32,"maker":20,"token":{TOKEN},"debug_port":"port 24.1",'
            '"exception_port":"port 24.2","doom":"c0000005","handles":1,"pointers":1'
        )
        process = self.cells(self.BOOT, row)["Processes"][1]
        self.assertEqual((process["Process"], process["Made as"], process["Made by"]), ("process 32", "24.4", "20"))
        self.assertEqual((process["Debug port"], process["Exception port"]), ("port 24.1", "port 24.2"))
        self.assertEqual(process["Ended unhandled with"], "c0000005 ACCESS_VIOLATION")

    def test_ports(self):
        kept = '{"token":{"user":"S-1-5-21-7","groups":["S-1-1-0"]},"level":null}'
        client = (
            '"port 36.1","kind":"client","connection":"port 24.1","pair":"port 24.2","context":"00000007",'
            '"completed":true,"creator":{"process":32,"thread":36,"identifier":1},"security":{"level":2,'
            f'"tracking":"dynamic","connected_as":{kept}}},"handles":1,"pointers":2'
        )
        guard = '{"allow":false,"mask":"00000001","sid":"S-1-5-21-7"},{"allow":true,"mask":"ffffffff","sid":"S-1-1-0"}'
        guarded = f'{PORT}1'.replace('"security":null', f'"security":{{"dacl":[{guard}]}}')
        closed = f'{PORT}1'.replace('24.1', '24.9').replace('"security":null', '"security":{"dacl":[]}')
        rows = {it["Port"]: it for it in self.cells(client, guarded, closed)["Ports"]}
        self.assertEqual(rows["port 36.1"], {
            "Port": "port 36.1", "Kind": "client", "Connection port": "port 24.1", "Other end": "port 24.2",
            "Context": "00000007", "Completed": "yes", "Made by connect": "32.36.1", "Handles": "1", "Pointers": "2",
            "Allows": "level 2 (impersonation); dynamic tracking; connected as S-1-5-21-7; groups S-1-1-0",
        })  # fmt: skip
        self.assertEqual(rows["port 24.1"]["Allows"],
                         "list: deny 00000001 to S-1-5-21-7; allow ffffffff to S-1-1-0")
        self.assertEqual(rows["port 24.9"]["Allows"], "list: nobody")
        self.assertNotIn("Context", rows["port 24.1"])

    def test_handles_stand_by_process_and_value(self):
        other = self.BOOT.replace("20", "8")
        rows = [f'"handle {pid}/{value}","process":{pid},"value":{value},"object":"process 0.8","access":"00000001"'
                for pid, value in ((8, 12), (20, 100), (20, 4), (8, 8))]
        found = self.cells(self.BOOT, other, *rows)["Handles"]
        wanted = ["handle 20/4", "handle 20/100", "handle 8/8", "handle 8/12"]
        self.assertEqual([it["Handle"] for it in found], wanted)
        self.assertEqual({it["Object"] for it in found}, {"process 8"})

    def test_messages_stand_by_queue_in_their_order(self):
        ports = [f"{PORT}1".replace("24.1", it) for it in ("24.1", "24.2")]
        row = '"message {0} 24.1 24.{1} 1","queue":"port {0}","sender":"port 24.1","context":"00000000","type":1,' \
              '"process":20,"thread":24,"identifier":{1},{2}'
        ranges = '"data_size":40,"message_size":70,"ranges_offset":24,"section_size":4096,"data":"' + "41" * 40 + '"'
        given = (("24.2", 9, ranges), ("24.1", 8, MESSAGE.format(0, 24, "")), ("24.2", 3, MESSAGE.format(0, 24, "")))
        found = self.cells(*ports, *(row.format(*it) for it in given))["Queued messages"]
        self.assertEqual([it["Message"] for it in found], ["request 20.24.8", "request 20.24.9", "request 20.24.3"])
        self.assertEqual(found[1]["Header"], "MessageSize 70, range table at 24, SectionSize 4096")
        self.assertEqual(found[1]["Data"], f'{" ".join(["41414141"] * 8)} .. "{"A" * 12} .. {"A" * 10}"')
        self.assertEqual(found[0].get("Header"), None)
        self.assertEqual(found[0]["Data"], "none")

    def test_names_sections_views_and_tokens(self):
        section = '"section 24.3","process":20,"size":8192,"writable":true,"bytes":"{}","handles":1,"pointers":2'
        view = '"view 20/00010000","process":20,"base":"00010000","size":4096,"section":"section 24.3","offset":4096,'
        found = self.cells(
            self.BOOT,
            r'"name \\W\\P","is":"link","target":"\\D"', r'"name \\D","is":"directory"',
            r'"name \\W","is":"port","port":"port 24.1"',
            section.format("0041420000" + "00" * 8 + "05"),
            f'{view}"writable":false,"owner":"port 24.1"',
            f'"token 24.6","token":{TOKEN},"level":3,"handles":1,"pointers":1',
            '"token_name alice","token":{"user":"S-1-5-21-7","groups":[]}',
        )  # fmt: skip
        names = [(it["Name"], it["Leads to"]) for it in found["Names"]]
        self.assertEqual(names, [("\\D", "directory"), ("\\W", "port 24.1"), ("\\W\\P", "link to \\D")])
        stretches = 'from 1: 4142 "AB"; from 13: 05'
        self.assertEqual(found["Sections"], [{
            "Section": "section 24.3", "Made by": "20", "Size": "8192", "May be written": "yes", "Bytes": stretches,
            "Handles": "1", "Pointers": "2",
        }])  # fmt: skip
        self.assertEqual(found["Views"], [{
            "View": "view 20/00010000", "Process": "20", "Size": "4096", "From": "4096", "Section": "section 24.3",
            "May be written": "no", "Owner": "port 24.1",
        }])  # fmt: skip
        self.assertEqual(found["Tokens"], [{
            "Token": "token 24.6", "User": "S-1-5-18", "Groups": "S-1-5-32-544, S-1-1-0", "Level": "3 (delegation)",
            "Handles": "1", "Pointers": "1",
        }])  # fmt: skip
        self.assertEqual(found["Names of tokens"], [{"Name": "alice", "User": "S-1-5-21-7"}])
        self.assertEqual(self.cells(section.format(""))["Sections"][0]["Bytes"], "zeros")

    def test_bytes_that_change_where_the_cell_does_not_show_them(self):
        row = '{} "section 24.3","process":20,"size":4096,"writable":true,"bytes":"%s","handles":1,"pointers":1'
        told = [("1 - dir 00000000", row.format("came") % ("41" * 90 + "01")),
                ("2 - dir 00000000", row.format("changed") % ("41" * 90 + "02"))]
        page = self.page(told, b"dir \\x\ndir \\y\n", "end 2 2 1\n")
        ((number, cells),) = steps_of(page)[1]
        self.assertEqual((number, list(cells)), (0, ["4"]))

    def test_rows_of_a_kind_that_is_not_known(self):
        found = self.cells('"gate 24.1","width":"<b>"', '"wait 99.0","thread":99')
        self.assertEqual(found, {"Other rows": [{"Row": "gate 24.1", "Values": '{"width": "<b>"}'},
                                                {"Row": "wait 99.0", "Values": '{"thread": 99}'}]})


class Escaping(WithTables):
    MISCHIEF = r"""</script><script>alert(1)</script><!--]]>$data&amp;'"""

    def named(self, name):
        """The page of a script with such a name."""
        told = [
            ("1 24 NtCreatePort 00000000 h=4", f'came "name \\\\{name}","is":"directory"',
             f'came "name \\\\z","is":"link","target":"\\\\{name}"'),
            ("2 24 NtCreatePort 00000000 h=4", f'changed "name \\\\z","is":"link","target":"\\\\{name}{name}"'),
            ("3 24 NtCreatePort 00000000 h=4", f'went "name \\\\{name}"', f'came "odd {name}","x{name}":"{name}"'),
        ]
        return self.text(told, b"24 NtCreatePort \\P\n" * 3, "end 3 3 3\n")

    def test_nothing_breaks_out(self):
        text = self.named(self.MISCHIEF)
        page, harmless = reading.tree(text), reading.tree(self.named("P" * len(self.MISCHIEF)))
        self.assertEqual(page.skeleton(), harmless.skeleton())
        self.assertEqual(len(list(page.all("script"))), 2)
        self.assertNotRegex(page.one("steps").text(), "[<>&]")
        names = [it["Name"] for it in tables_behind(page, 0)["Names"]]
        self.assertEqual(names, [f"\\{self.MISCHIEF}", "\\z"])
        for it in page.all():
            self.assertNotRegex(it.attributes.get("id", ""), "[^a-z0-9-]")

    def test_bytes_that_are_no_text(self):
        name = "\\\\\\u0001\\u00ff\\u0085\\u002c\\u00c3\\u00a4"
        told = ("1 - dir 00000000", f'came "name {name}","is":"directory"')
        page = self.page([told], b"dir \\x\n", "end 1 1 0\n")
        self.assertEqual(tables_behind(page, 0)["Names"][0]["Name"], "\\\\x01\\xff\\x85,\u00e4")
        self.assertTrue(words(page).isprintable())

    def test_the_policy_allows_the_pages_own_style_and_script_alone(self):
        (policy,) = [it.attributes["content"] for it in self.page().all("meta") if "http-equiv" in it.attributes]
        own = r"style-src 'sha256-\S+'; script-src 'sha256-\S+'"
        self.assertRegex(policy, rf"^default-src 'none'; {own}; base-uri 'none'; form-action 'none'$")
        text = self.text()
        self.assertNotRegex(text, r"(?i)@import|url\(|https?:|src=")


class Size(WithTables):
    def many(self, threads, lines):
        """How many bytes the data have of a script with so many threads, each of whose lines changes one."""
        told = [(f"{at} - thread 00000000", f"came {thread(at, 1, 1)}") for at in range(1, threads + 1)]
        told += [(f"{at} 1 NtClose 00000000", f"changed {thread(at % threads + 1, at, 1)}")
                 for at in range(threads + 1, threads + lines + 1)]
        page = self.page(told, b"1 NtClose 4\n" * (threads + lines), f"end {threads + lines} {threads + lines} 9\n")
        self.assertEqual(len(tables_behind(page, threads + lines)["Threads"]), threads)
        return len(page.one("steps").text())

    def test_data_grow_with_what_changed(self):
        few, more, most = self.many(10, 100), self.many(10, 400), self.many(200, 100)
        self.assertLess((more - few) / 300, 40)
        self.assertLess((most - few) / 190, 120)


class Program(WithTables):
    def run_over(self, *cases):
        """What is printed where the program does what shell code says, by its word."""
        code = "\n".join(f"[ $1 = {word} ] && {{ cat '{self.file(word, told)}'; exit {status}; }}"
                         for word, told, status in cases)
        program = self.program(f"{code}\nexit 9\n".encode())
        return support.run("page", self.file("s.script", SCRIPT), "--program", program)

    def test_the_program_is_run_in_the_form_that_has_rows(self):
        ran = self.run_over(("states", printed(TOLD, END), 0))
        self.assertEqual((ran.returncode, ran.stdout), (0, self.text()))

    def test_a_script_that_stops(self):
        ran = self.run_over(("states", printed(TOLD[:1], "stop 2 2\n"), 2))
        page = reading.tree(ran.stdout)
        self.assertEqual((ran.returncode, list(tables_behind(page, 1))), (0, ["Processes", "Threads"]))

    def test_a_program_that_does_not_know_the_form(self):
        transcript = states.split(printed(TOLD, END))[0]
        ran = self.run_over(("states", b"usage: ..\n", 64), ("replay", transcript, 0))
        page = reading.tree(ran.stdout)
        self.assertEqual(ran.returncode, 0)
        untold = [words(it) for it in page.all("p", "untold")]
        told = "This page has no tables of the machine: the program doesn't know the word `states`."
        self.assertEqual(untold, [told])
        self.assertEqual((list(page.all("details", "rows")), list(page.all("section", "machine"))), ([], []))
        self.assertEqual(len(list(page.all("code", "raw"))), 12)
        self.assertEqual(len(list(page.all("script"))), 1)

    def test_a_program_that_ends_otherwise_with_a_word_that_it_does_not_know(self):
        transcript = states.split(printed(TOLD, END))[0]
        for told, status in ((b"usage: ..\n", 1), (b"", 2), (b"", 0), (b"1 - boot 00000000\n", 5)):
            ran = self.run_over(("states", told, status), ("replay", transcript, 0))
            page = reading.tree(ran.stdout)
            self.assertEqual((ran.returncode, len(list(page.all("code", "raw")))), (0, 12))
            (untold,) = page.all("p", "untold")
            self.assertIn(f"with the word `states` the program ended with status {status}.", words(untold))

    def test_a_transcript_without_rows(self):
        page = self.page([it[:1] for it in TOLD])
        untold = [words(it) for it in page.all("p", "untold")]
        told = "This page has no tables of the machine: what was printed tells of no rows, as `ntlpc states` does."
        self.assertEqual(untold, [told])
        self.assertEqual(list(self.page().all("p", "untold")), [])

    def test_what_is_wrong_is_told(self):
        cases = (
            (b"{}\nend 0 0 0\n", 0, "line 1 of what was printed tells of no row"),
            (b'{"line":1,"came":"port 1.1","security":7}\nend 0 0 0\n', 0, "the values of port 1.1 aren't of"),
            (b'{"line":1,"came":"handle 1/4","process":[]}\nend 0 0 0\n', 0, "the values of handle 1/4 aren't"),
            (b"1 - boot 00000000\n", 3, "ended with status 9"),
        )
        for told, status, wanted in cases:
            ran = self.run_over(("states", told, status))
            self.assertEqual((ran.returncode, ran.stdout), (2, ""))
            self.assertIn(wanted, ran.stderr)
        ran = self.run_over(("states", b"usage: ..\n", 2))
        self.assertIn("printed no transcript: line 1 of the transcript", ran.stderr)

    @support.needs_program
    def test_each_example(self):
        """The rows are as many as the transcript's end counts objects, and have the counts that its queries tell."""
        kinds = ("Processes", "Threads", "Ports", "Sections", "Tokens")
        for script in support.EXAMPLES:
            page = reading.tree(support.inside("page", script).stdout)
            if not list(page.all("section", "machine")):
                self.assertIn("This page has no tables of the machine", words(page))
                continue
            steps = list(page.all("article", "step"))
            self.assertEqual(len(steps_of(page)), len(steps))
            for at, step in enumerate(steps):
                tables = tables_behind(page, at)
                self.assertNotIn("Other rows", tables)
                raw = " ".join(it.text() for it in step.all("code", "raw"))
                end = re.search(r"\bend \d+ \d+ (\d+)$", raw)
                if end:
                    self.assertEqual(sum(len(tables.get(it, ())) for it in kinds), int(end[1]), script)
                told = re.search(r"NtQueryObject 00000000 .* handles=(\d+) pointers=(\d+)", raw)
                if told:
                    rows = [it for kind in kinds for it in tables.get(kind, ())]
                    self.assertIn(told.groups(), [(it["Handles"], it["Pointers"]) for it in rows], script)


class Browser(support.WithBrowser, WithTables):
    """What a browser makes of the tables."""

    POLICY = re.compile("<meta http-equiv=[^>]*>")
    DOING = """
        const at = (id) => document.getElementById(id);
        const press = (key) => document.body.dispatchEvent(new KeyboardEvent('keydown', {key, bubbles: true}));
        const slide = (to) => { at('slider').value = to; at('slider').dispatchEvent(new Event('input')); };
        const seen = (it) => it.checkVisibility();
        const rows = () => [...document.querySelectorAll('.rows tbody tr')].filter(seen);
        const told = (row) => [...row.cells].filter(seen).map((it) => it.textContent).join('|');
        const marked = () => rows().filter((it) => it.className).map(told);
        const link = (text) => [...document.querySelectorAll('#tables a')].find((it) => it.textContent === text);
        const then = [];
    """

    def behind(self, fragment):
        """The tables that a browser shows behind a line: the rows by table, with the class of each."""
        dom = self.loaded(self.text(), fragment)
        found = {}
        for table in dom.all("details", "rows"):
            head, *rows = ([words(it) for it in row.inner if "hidden" not in it.attributes] for row in table.all("tr"))
            marks = [it.attributes.get("class", "") for it in table.all("tr")]
            if "hidden" not in table.attributes:
                rows = [(mark, *row) for mark, row in zip(marks[1:], rows)]
                found[words(next(table.all("summary")))] = [tuple(head), *rows]
        return words(dom.one("state")), words(dom.one("changed")), found

    def did(self, *deeds):
        """What is told behind each of some deeds, in a page whose policy is gone, so that they can be done."""
        done = "".join(f"{deed};\n" for deed in deeds)
        script = f"<script>{self.DOING}{done}document.title = JSON.stringify(then);</script></body>"
        text = self.POLICY.sub("", self.text()).replace("</body>", script)
        return json.loads(next(self.loaded(text).all("title")).text())

    def test_the_tables_of_the_step_with_marks(self):
        state, changed, tables = self.behind("#line-8")
        self.assertEqual((state, changed), ("The machine behind line 8", "1 changed, 1 went"))
        headings = ["Processes 1", "Threads 2", "Ports 1", "Handles 1", "Queued messages 0", "Names 1"]
        self.assertEqual(list(tables), headings)
        self.assertEqual(tables["Ports 1"], [("Port", "Kind", "Handles", "Pointers"),
                                             ("changed", "± changed port 24.1", "connection", "1", "1was 2")])
        self.assertEqual(tables["Queued messages 0"][1:],
                         [("went", "− went datagram 20.24.2", "port 24.1", "port 24.1", "00000000", '44 "D"')])
        heads = ("Thread", "Process", "Next identifier", "Next object", "Handles", "Pointers")
        self.assertEqual(tables["Threads 2"][0], heads)

    def test_a_column_that_is_empty_stays_where_its_cell_changed(self):
        _, changed, tables = self.behind("#line-6")
        self.assertEqual(changed, "2 changed")
        heads, first, second = tables["Threads 2"]
        self.assertEqual(heads[2:5], ("Waits in", "On", "For"))
        self.assertEqual(first[3:6], ("was NtRequestWaitReplyPort", "was port 24.1",
                                      'was the reply to its request 1, received; sent 4142 "AB"'))
        self.assertEqual(second[:6], ("", "thread 28", "20", "", "", ""))

    def test_the_first_step_and_the_last(self):
        state, changed, tables = self.behind("")
        self.assertEqual((state, changed), ("The machine behind line 1", "2 came"))
        self.assertEqual(list(tables), ["Processes 1", "Threads 1"])
        self.assertEqual([it[0] for it in tables["Threads 1"][1:]], ["came"])
        state, changed, tables = self.behind("#end")
        self.assertEqual((state, changed), ("The machine behind the end", "nothing changed"))
        self.assertEqual({it[0] for rows in tables.values() for it in rows[1:]}, {""})

    def test_keys_and_the_slider_move_the_tables_to_and_fro(self):
        mark = "then.push([at('behind').textContent, rows().map(told).sort().join(), marked().length])"
        there = [f"press('Home'); {mark}", *(f"press('ArrowRight'); {mark}" for _ in range(9))]
        back = [mark, *(f"press('ArrowLeft'); {mark}" for _ in range(9))]
        jumps = [f"slide({at}); {mark}" for at in (4, 9, 2, 10)]
        told = self.did(*there, *back, *jumps)
        self.assertEqual([it[0] for it in told[:10]], [*(f"line {it}" for it in range(1, 10)), "the end"])
        self.assertEqual(told[10:20], told[9::-1])
        self.assertEqual(told[20:], [told[3], told[8], told[1], told[9]])
        self.assertEqual([it[2] for it in told[:10]], [2, 2, 4, 2, 2, 2, 3, 2, 3, 0])

    def test_links_lead_to_rows_and_leave_the_step(self):
        tell = "then.push(document.activeElement.id && told(document.activeElement).slice(0, 11), location.hash)"
        told = self.did("slide(4)", f"link('port 24.1').click(); {tell}",
                        "at('tables').querySelector('details').open = false", f"link('20').click(); {tell}",
                        "then.push(at('tables').querySelector('details').open)",
                        "slide(10); then.push(link('20').hasAttribute('href'), link('port 24.1') === undefined)")
        self.assertEqual(told, ["± changed p", "#line-4", "process 20|", "#line-4", True, True, True])

    def test_only_what_changed(self):
        tell = "then.push(rows().map((it) => it.className).join())"
        there, back = "slide(2); at('marked').click()", "slide(3); at('marked').click()"
        told = self.did(there, tell, "slide(10)", tell, back, tell)
        self.assertEqual(told, ["changed,came", "", ",changed,,came,came,came"])

    def test_the_focus_stays_with_the_tables(self):
        told = self.did("slide(4); link('port 24.1').focus(); press('ArrowLeft'); press('ArrowLeft')",
                        "then.push(document.activeElement.id)")
        self.assertEqual(told, ["tables"])

    def test_shift_moves_what_has_the_focus_sideways(self):
        event = "new KeyboardEvent('keydown', {key: 'Arrow%s', shiftKey: true, bubbles: true})"
        right, left = (f"at('tables').dispatchEvent({event % it})" for it in ("Right", "Left"))
        tell = "then.push(at('tables').scrollLeft, at('behind').textContent)"
        told = self.did("slide(4); at('tables').style.width = '150px'", right, right, tell, left, tell)
        self.assertEqual(told, [120, "line 4", 60, "line 4"])

    def test_a_name_that_looks_like_markup(self):
        text = Escaping.named(self, Escaping.MISCHIEF)
        dom = self.loaded(text, "#line-2")
        self.assertEqual(len(list(dom.all("script"))), 2)
        self.assertIn(f"\\{Escaping.MISCHIEF}", [words(it) for it in dom.one("tables").all("th")])


if __name__ == "__main__":
    unittest.main()
