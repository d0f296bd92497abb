"""Tells which statuses of which calls a set of transcripts reaches, and which of docs/SERVICES.md it doesn't.

For each call and directive of docs/SERVICES.md it lists the statuses that the tables there name, and in how many of
the transcripts each one is printed: a status alone is an answer, `wait` a wait, a star before the status a wake.
MISSING stands where none prints it. Then come the kinds of faults and entries, the fields and the last lines of
docs/SCRIPTS.md.

The exit status is 0 where all that can come about is reached and nothing else is, and 1 where not.
"""
from ntlpc_tool import rules, transcript

NAME = "coverage"


def add_arguments(parser):
    parser.add_argument("transcripts", metavar="TRANSCRIPT", nargs="+", help=transcript.FILE)
    parser.add_argument("--missing", action="store_true", help="lists what isn't reached alone")


def run(arguments):
    found = [transcript.load(path) for path in arguments.transcripts]
    texts = ["\n".join(it.raw for it in (*one.entries, one.closing) if it).encode() for one in found]
    reached, missing, others = rules.tell(rules.of_pages(), rules.reached_by(texts), only_missing=arguments.missing)
    print(f"{reached} reached, {missing} missing, {others} not named")
    return 1 if missing or others else 0
