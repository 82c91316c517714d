"""The shell for Python: by a pipe, by words, and typed at a terminal."""
import csv
import html
import json
import os
import pty
import re
import select
import subprocess
import sys
import time
from types import SimpleNamespace

HERE = os.path.dirname(os.path.abspath(__file__))
sys.path.insert(0, os.path.dirname(HERE))
from shared import DEBIANS_PYTHON, ROOT, RX, SCHEMA, SEED, Server, Skipped, case, checked  # noqa: E402
from shared import compact, insist, main, run, same, told  # noqa: E402

CLIENT = os.path.join(ROOT, "clients", "python")
sys.path.insert(0, CLIENT)
import rx  # noqa: E402
from rx.shell import transfer  # noqa: E402
from rx.shell.progress import Interrupt, Progress  # noqa: E402
from rx.shell.prompt import completions  # noqa: E402
from rx.shell.statements import Wrong  # noqa: E402

os.environ["RX"] = RX
SHELL = [sys.executable, "-m", "rx"]
# The shell where Debian's packages for terminals aren't there.
BARE_SHELL = [
    sys.executable,
    "-c",
    "import sys; sys.modules.update(rich=None, prompt_toolkit=None)\n"
    "from rx.shell.main import main; sys.exit(main(sys.argv[1:]))",
]
WHERE = {**os.environ, "RX": RX, "PYTHONPATH": CLIENT}
TODOS = {
    "version": 0,
    "primaryKey": "id",
    "type": "object",
    "properties": {
        "id": {"type": "string", "maxLength": 20},
        "title": {"type": "string", "maxLength": 80},
        "done": {"type": "boolean"},
        "rank": {"type": "integer", "minimum": 0, "maximum": 1000, "multipleOf": 1},
    },
    "required": ["title"],
    "indexes": ["rank"],
}
MAKE = f"collection todos {json.dumps(TODOS)}"
SECONDS = 60
COUNT = 100_000
RATIO = 0.7


def piped(folder, *statements, journal="journal", shell=SHELL, words=()):
    """The status, output and faults of the shell over statements from a pipe."""
    ran = subprocess.run(
        [*shell, os.path.join(folder, journal), *words],
        input="\n".join(statements) + "\n",
        cwd=folder,
        env=WHERE,
        capture_output=True,
        text=True,
        timeout=SECONDS,
    )
    return ran.returncode, ran.stdout, ran.stderr


def shown(folder, *statements, **how):
    """What statements show, which are all done."""
    status, out, faults = piped(folder, *statements, **how)
    same((status, faults), (0, ""), out)
    return out


def write(folder, name, text):
    path = os.path.join(folder, name)
    with open(path, "w", encoding="utf-8", newline="") as file:
        file.write(text)
    return path


def read(folder, name):
    with open(os.path.join(folder, name), encoding="utf-8", newline="") as file:
        return file.read()


def todos(folder, *rows):
    """A journal with these documents."""
    shown(folder, MAKE, *(f"insert todos {json.dumps(row)}" for row in rows))


MILK = {"id": "milk", "title": "Buy milk", "done": False, "rank": 2}
RENT = {"id": "rent", "title": "Pay", "done": True, "rank": 10}
TEA = {"id": "tea", "title": "Tee für Zoë"}


@case()
def documents_are_written_and_shown_as_tables(folder):
    same(
        shown(
            folder,
            MAKE,
            f"insert todos {json.dumps(MILK)}",
            f"upsert todos {json.dumps(RENT)}",
            'patch todos rent {"rank": 11}',
            f"insert todos {json.dumps(TEA)}",
            "todos",
            "count todos",
            "remove todos rent",
            "todos sort rank",
            "get todos tea",
        ).splitlines()[:-1],
        [
            "made",
            "1-todos",
            "1-todos",
            "2-todos",
            "1-todos",
            "id    done   rank  title",
            "milk  false     2  Buy milk",
            "rent  true     11  Pay",
            "tea                Tee für Zoë",
            "3 rows",
            "3",
            "3-todos",
            "id    done   rank  title",
            "tea                Tee für Zoë",
            "milk  false     2  Buy milk",
            "2 rows",
            '{"id": "tea", "title": "Tee für Zoë"}',
        ],
    )


@case()
def queries_by_json_and_in_short(folder):
    rows = [{"id": f"k{n}", "title": f"t {n % 3}", "done": n % 2 == 0, "rank": n} for n in range(10)]
    todos(folder, *rows, {"id": "9", "title": "a number's text"})

    def keys(statement):
        out = shown(folder, ".mode json", statement)
        return " ".join(json.loads(line)["id"] for line in out.splitlines())

    for short, query, wanted in (
        ("rank>=3 rank<6 done=false", {"selector": {"rank": {"$gte": 3, "$lt": 6}, "done": False}}, "k3 k5"),
        (
            'title="t 1" sort rank desc limit 2',
            {"selector": {"title": "t 1"}, "sort": [{"rank": "desc"}], "limit": 2},
            "k7 k4",
        ),
        (
            "rank != 0 rank != 1 rank<3",
            {"selector": {"$and": [{"rank": {"$nin": [0, 1]}}, {"rank": {"$lt": 3}}]}},
            "k2",
        ),
        ("sort title, rank desc skip 9", {"sort": [{"title": "asc"}, {"rank": "desc"}], "skip": 9}, "k5 k2"),
        ("id=9", {"selector": {"id": "9"}}, "9"),
    ):
        same((keys(f"todos {short}"), keys(f"todos {json.dumps(query)}")), (wanted, wanted), short)
        line = {"do": "find", "in": "todos", "query": query}
        same(shown(folder, ".mode json", json.dumps(line)), shown(folder, ".mode json", f"todos {short}"))
    same(shown(folder, "todos", words=["todos id=9", "count todos"]).splitlines()[-2:], ["1 row", "11"])


@case()
def faults_are_in_words_with_the_member_that_is_wrong(folder):
    todos(folder, MILK)
    wrong = {
        "todoz": "todoz is no command and no collection: is it todos?",
        "count todoz": "there is no collection todoz: is it todos?",
        "todos bank=1": "query (16): bank is no property of the schema",
        "todos some words": "some says nothing: a query is COLLECTION",
        "todos limit x": 'query (16): limit "x" is no whole number from 0 to 1,000,000,000',
        'insert todos {"id": "a", "title": 5}': "invalid (13): title 5 is of the wrong kind: the sch",
        'insert todos {"id": "a", "title": "t", "rank": 1001}': "invalid (13): rank 1001 isn't within",
        'insert todos {"id": "a"}': "invalid (13): title is missing",
        f"insert todos {json.dumps(MILK)}": 'conflict (14): "milk" is there already, at revision 1-todos',
        'insert todos {"id": "a",}': "the document is no JSON",
        "insert todos": "the document is missing",
        "remove todos": "the key is missing",
        "remove todos tea": 'no_document (15): there is no document "tea"',
        f"collection myTodos {json.dumps(TODOS)}": 'name (8): name "myTodos" is no name: a lower-case letter',
        '{"do": "fly"}': 'unknown_do (4): do "fly" is no word that is known',
        ".turn sync": "no_replication (18): there is no replication sync",
        ".sweep todoz": "there is no collection todoz: is it todos?",
        ".sweep todos 101": "batch (20): batch 101 isn't from 1 to 100",
        '{"do": "sweep", "name": "none"}': "no_collection (10): there is no collection none",
        ".import none.jsonl todos": "none.jsonl: No such file or directory",
        ".import a.txt todos": "a.txt: it is neither .jsonl nor .csv",
        ".mode x": "mode x is neither table nor json",
        ".unwatch 3": "no query 3 is watched",
        'insert todos {"id": "\\ud800", "title": "t"}': "not_json (2): id holds half of a surrogate pair",
    }
    status, out, faults = piped(folder, *wrong, "count todos")
    same((status, out.splitlines()[-1]), (1, "1"), "nothing was changed, and the rest was done")
    for number, (said, wanted) in enumerate(zip(faults.splitlines(), wrong.values()), 1):
        same(said.startswith(f"line {number}: {wanted}"), True, said)
    same(len(faults.splitlines()), len(wrong))


@case()
def what_is_no_text_is_refused_by_name(folder):
    todos(folder)
    ran = subprocess.run(
        [*SHELL, "journal"],
        input=b'insert todos {"id": "a", "title": "\xff"}\ncount todos\n',
        cwd=folder,
        env=WHERE,
        capture_output=True,
    )
    same((ran.returncode, ran.stdout), (1, b"0\n"))
    same(b"line 1: not_json (2): title holds half" in ran.stderr, True, ran.stderr)
    same(piped(folder, words=["todos x"])[0], 1, "a word that is refused")


@case()
def an_output_that_nobody_reads_ends_it_quietly(folder):
    todos(folder, *({"id": f"k{n}", "title": "t" * 70} for n in range(100)))
    child = subprocess.Popen(
        [*SHELL, "journal"],
        stdin=subprocess.PIPE,
        stdout=subprocess.PIPE,
        stderr=subprocess.PIPE,
        cwd=folder,
        env=WHERE,
    )
    child.stdin.write(b"todos\n" * 100)
    child.stdin.close()
    same(child.stdout.readline(), b"id   done  rank  title\n")
    child.stdout.close()
    same((child.stderr.read(), child.wait(SECONDS)), (b"", 0))


@case()
def a_statement_goes_on_while_a_bracket_is_open_until_a_blank_line(folder):
    status, out, faults = piped(
        folder,
        *json.dumps(TODOS, indent=2).replace("{", "collection todos {", 1).split("\n"),
        'insert todos {"id": "a", "title": "a brace {"',
        ', "done": true}',
        'insert todos {"id": "b"',
        "",
        "# a remark",
        "todos",
    )
    same(
        (status, out.splitlines()),
        (1, ["made", "1-todos", "id  done  rank  title", "a   true        a brace {", "1 row"]),
    )
    same(re.match(r"line \d+: the document is no JSON", faults) is not None, True, faults)


@case()
def what_a_journal_is_opened_as(folder):
    text = write(folder, "text", "something else than a journal")
    for path, status, words in (
        (text, 7, "the file is no journal"),
        (os.path.join(folder, "none", "j"), 3, "can't be opened"),
    ):
        ended = piped(folder, "todos", journal=path)
        same((ended[:2], words in ended[2], path in ended[2]), ((status, ""), True, True), ended)
    talk = subprocess.Popen(
        [RX, "run", os.path.join(folder, "journal")], stdin=subprocess.PIPE, stdout=subprocess.PIPE
    )
    talk.stdin.write(b'{"do":"restart"}\n')
    talk.stdin.flush()
    talk.stdout.readline()
    ended = piped(folder, "todos")
    same((ended[0], "another process has the journal" in ended[2]), (3, True), ended)
    talk.communicate()
    ended = piped(
        folder,
        MAKE,
        *(f"insert todos {json.dumps({**MILK, 'id': f'k{n}'})}" for n in range(100)),
        journal="small",
        words=["--max-journal", "2000"],
    )
    same((ended[0], "its limit is 2,000" in ended[2]), (8, True), ended)
    write(folder, "many.jsonl", "".join(json.dumps({**MILK, "id": f"k{n}"}) + "\n" for n in range(5000)))
    words = ["--max-journal", "200000"]
    status, out, faults = piped(folder, MAKE, ".import many.jsonl todos", journal="full", words=words)
    count = int(re.match(r"made\nimported ([\d,]+) documents", out)[1].replace(",", ""))
    same((status, "its limit is 200,000" in faults, 0 < count < 5000), (8, True, True), out + faults)
    same(shown(folder, "count todos", journal="full"), f"{count:,}\n")
    ran = subprocess.run(
        [*SHELL, "journal"], env={**WHERE, "RX": "none"}, cwd=folder, capture_output=True, text=True
    )
    same((ran.returncode != 0, "tools/install" in ran.stderr), (True, True), ran.stderr)
    ran = subprocess.run(SHELL, env=WHERE, cwd=folder, capture_output=True, text=True)
    same((ran.returncode, "are required: JOURNAL\n" in ran.stderr), (2, True), ran.stderr)


@case()
def collections_schemas_and_the_report(folder):
    todos(folder, MILK, RENT)
    out = shown(
        folder,
        f"collection other {json.dumps(SCHEMA)}",
        "remove todos rent",
        ".collections",
        ".schema",
        ".check",
    )
    for line in (
        "todos               1  id",
        "other               0  id",
        "2 collections",
        "todos: version 0, primary key id, index rank",
        "title  string   true             80",
        "other: version 0, primary key id",
    ):
        same(line in out, True, f"{line} in {out}")
    report = checked(os.path.join(folder, "journal"))
    found = next(it for it in report if it.get("collection") == "todos")
    same((found["count"], found["digest"] in out, found["schema"] in out), (2, True, True), out)
    same(re.search(r"([\d,]+) bytes, ([\d,]+) records, epoch 2", out) is not None, True, out)


@case()
def a_migration_is_typed_as_a_line_and_seen_at_once_and_later(folder):
    """The fork of a collection goes with it, and what is no more of them stays."""
    todos(folder, MILK)
    properties = {name: it for name, it in TODOS["properties"].items() if name != "rank"}
    schema = {**TODOS, "version": 1, "properties": {**properties, "order": {"type": "integer"}}, "indexes": []}
    steps = [{"rename": "rank", "to": "order"}, {"scale": "order", "by": 10}]
    replicate = {"do": "replicate", "name": "r", "fork": "phone", "master": "todos", "handler": "join"}
    migrate = json.dumps({"do": "migrate", "in": "phone", "schema": schema, "steps": steps})
    out = shown(
        folder,
        f"collection phone {json.dumps(TODOS)}",
        f"collection other {json.dumps(SCHEMA)}",
        json.dumps(replicate),
        migrate,
        ".schema",
        "todos order=20",
    )
    again = shown(folder, 'insert phone {"id": "a", "title": "A", "order": 3}', "todos", ".schema")
    lines = [f"{name}: version {it}, primary key id" for name, it in (("todos", 1), ("phone", 1), ("other", 0))]
    for line in ('{"collections": ["todos", "phone"]}', *lines, "milk  false     20  Buy milk"):
        same(line in out, True, f"{line} in {out}")
    for line in ("1-phone", *lines, "milk  false     20  Buy milk"):
        same(line in again, True, f"{line} in {again}")
    status, _, faults = piped(folder, 'insert phone {"id": "b", "title": "B", "order": "x"}')
    same((status, "the schema says integer" in faults), (1, True), faults)


@case()
def what_waits_in_a_stream_is_delivered(folder):
    todos(folder, MILK)
    replicate = {"do": "replicate", "name": "r", "fork": "phone", "master": "todos", "handler": "join"}
    out = shown(
        folder,
        f"collection phone {json.dumps(TODOS)}",
        json.dumps(replicate),
        ".stream r",
        ".deliver r",
        ".turn r",
        f"insert todos {json.dumps(RENT)}",
        ".watch phone",
        ".deliver r",
        ".deliver r",
    )
    due = ["opened", "0 events", "not level", "1 exchange", "the turn ended quiet", "1-todos", "event  rows  took"]
    due += ["    1     1  taken", "1 event", "level", "2 rows", "0 events", "level"]
    lines = iter(out.splitlines())
    same(all(line in lines for line in due), True, f"{due} in {out}")
    status, _, faults = piped(folder, ".deliver r")
    same((status, "no stream of r is open" in faults), (1, True), faults)


@case()
def a_tree_of_three_is_swept(folder):
    todos(folder, MILK)
    by = [{"name": "r", "fork": "phone", "master": "todos"}, {"name": "s", "fork": "laptop", "master": "phone"}]
    replicate = [json.dumps({"do": "replicate", **it, "handler": "greater", "field": "rank"}) for it in by]
    out = shown(
        folder,
        *(f"collection {name} {json.dumps(TODOS)}" for name in ("phone", "laptop")),
        *replicate,
        f"insert laptop {json.dumps({**MILK, 'rank': 1})}",
        f"insert laptop {json.dumps(TEA)}",
        ".watch laptop sort id",
        ".sweep todos",
        ".sweep laptop",
        ".sweep phone 1",
    )
    same(
        out.splitlines()[out.splitlines().index("2 rows") + 1 :],
        [
            "replication  pass  exchanges  rows  conflicts  end",
            "s            up            2     4             quiet",
            "r            up            2     4  milk       quiet",
            "r            down          1     0             quiet",
            "s            down          1     1             quiet",
            "4 turns",
            "the sweep ended quiet",
            "watched 1: laptop sort id",
            "id    done   rank  title",
            "milk  false     2  Buy milk",
            "tea                Tee für Zoë",
            "2 rows",
            "0 turns",
            "the sweep ended quiet",
            "replication  pass  exchanges  rows  conflicts  end",
            "s            up            1     0             quiet",
            "s            down          1     0             quiet",
            "2 turns",
            "the sweep ended quiet",
        ],
    )


@case(needs=[])
def what_may_follow_a_turn_or_a_sweep(_folder):
    names = SimpleNamespace(schemas={"todos": TODOS, "phone": TODOS}, replications=["to-todos"])
    for text, due in (
        (".s", [".schema", ".stream", ".sweep"]),
        (".turn ", ["to-todos"]),
        (".sweep ", ["phone", "todos"]),
        (".sweep to", ["todos"]),
        (".sweep todos ", []),
    ):
        same(completions(SimpleNamespace(names=names), text), due, text)


@case()
def what_is_watched_follows_each_statement(folder):
    todos(folder, MILK)
    same(
        shown(
            folder,
            ".watch todos done=false sort rank",
            f"insert todos {json.dumps(RENT)}",
            'patch todos rent {"done": false, "rank": 1}',
            ".unwatch 1",
            'patch todos rent {"rank": 3}',
        ).splitlines(),
        [
            "watched 1: todos done=false sort rank",
            "id    done   rank  title",
            "milk  false     2  Buy milk",
            "1 row",
            "1-todos",
            "2-todos",
            "watched 1: todos done=false sort rank",
            "id    done   rank  title",
            "rent  false     1  Pay",
            "milk  false     2  Buy milk",
            "2 rows",
            "3-todos",
        ],
    )


@case()
def a_turn_with_a_served_master(folder):
    with_master = os.path.join(folder, "server")
    os.mkdir(with_master)
    server = Server(with_master, 1, keys=["a", "b"]).wait()
    out = shown(
        folder,
        f"collection phone {json.dumps(SCHEMA)}",
        json.dumps(
            {"do": "replicate", "name": "sync", "fork": "phone", "port": server.port, "handler": "join"}
        ),
        ".watch phone",
        ".turn sync",
        ".turn sync",
    )
    for line in (
        "ok",
        "       1  pull     2",
        "1 exchange",
        "the turn ended quiet",
        "a   1",
        "dial",
        "the turn ended lost",
    ):
        same(line in out, True, f"{line} in {out}")
    same(server.end(), (0, [told(1, "peer", 1)]))


@case()
def files_go_in_and_come_out_as_they_were(folder):
    rows = [
        MILK,
        RENT,
        {"id": "tea", "title": ""},
        {"id": "x\ny", "title": 'a "quoted", text\n', "rank": 0},
        TEA | {"id": "é"},
    ]
    text = "".join(json.dumps(row) + "\n" for row in rows)
    write(folder, "a.jsonl", text.replace("\n", "\r\n", 1) + "\n  \n")
    out = shown(
        folder,
        MAKE,
        ".import a.jsonl todos",
        ".export b.jsonl todos",
        ".export b.csv todos",
        ".export c.csv todos done=false",
        ".export d.jsonl todos sort rank desc limit 2",
    )
    same(
        [re.sub(r" in .*", "", line) for line in out.splitlines()[1:]],
        [
            "imported 5 documents",
            "exported 5 documents",
            "exported 5 documents",
            "exported 1 document",
            "exported 2 documents",
        ],
    )
    wanted = sorted(rows, key=lambda row: row["id"].encode())
    same([json.loads(line) for line in read(folder, "b.jsonl").splitlines()], wanted)
    same([json.loads(line)["id"] for line in read(folder, "d.jsonl").splitlines()], ["rent", "milk"])
    same(read(folder, "c.csv"), "id,done,rank,title\nmilk,false,2,Buy milk\n")
    with open(os.path.join(folder, "b.csv"), encoding="utf-8", newline="") as file:
        same(list(csv.reader(file))[1], ["milk", "false", "2", "Buy milk"])
    for name in ("b.jsonl", "b.csv"):
        shown(folder, MAKE, f".import {name} todos", f".export {name}.jsonl todos", journal=f"{name}.journal")
        same(read(folder, f"{name}.jsonl"), read(folder, "b.jsonl"), name)
    ended = piped(folder, ".export b.csv todos", ".export e.txt todos")
    same(
        (ended[0], "b.csv: it is there already" in ended[2], "e.txt: it is neither" in ended[2]),
        (1, True, True),
        ended,
    )


@case()
def a_file_that_is_wrong_somewhere_leaves_what_was_acknowledged(folder):
    good = [json.dumps({"id": f"k{n:05}", "title": "t", "rank": n % 1000}) for n in range(5000)]
    wrong = {
        "bad.jsonl": ('{"id":', "line 2,500 is no JSON", None),
        "list.jsonl": ("[1]", "line 2,500 is no object", None),
        "nan.jsonl": (
            '{"id": "x", "title": "t", "rank": NaN}',
            "line 2,500 is no JSON: NaN is no number",
            None,
        ),
        "kind.jsonl": (
            '{"id": "x", "title": 5}',
            "line 2,500: invalid (13): title 5 is of the wrong kind",
            2000,
        ),
        "key.jsonl": (
            '{"id": "k00001", "title": "t"}',
            'line 2,500: conflict (14): "k00001" is there already',
            2000,
        ),
        "half.jsonl": ('{"id": "x", "title": "\\ud800"}', "line 2,500: not_json (2): title holds half", 2000),
        "two.jsonl": ('{"id":"x","title":"t"},{"id":"y","title":"t"}', "line 2,500 is no JSON", None),
        "across.jsonl": (
            '{"id":"x}\n{y","title":"t"}\n{"id":"z","title":"t"},{"id":"u","title":"t"}',
            "is no JSON",
            None,
        ),
        "out.jsonl": ('{"id":"x","title":"t"}],"in":"other"', "line 2,500 is no JSON", None),
        "long.jsonl": (json.dumps({"id": "x", "title": "t" * 1_100_000}), "line 2,500: too_long (1)", None),
    }
    for name, (line, words, count) in wrong.items():
        write(folder, name, "\n".join([*good[:2499], line, *good[2499:]]))
        status, out, faults = piped(
            folder, MAKE, f".import {name} todos", "count todos", journal=f"{name}.journal"
        )
        count = 2499 if count is None else count
        same((status, out.splitlines()[2]), (1, f"{count:,}"), f"{name}: {faults}")
        same(out.splitlines()[1].startswith(f"imported {count:,} documents"), True, out)
        same(words in faults and name in faults, True, faults)
    cells = {
        "rank": ("x,t,true,1.5", 'rank "1.5" is no whole number'),
        "done": ("x,t,yes,1", 'done "yes" is no true or false'),
        "few": ("x,t", "has 2 cells, and the first line 4"),
    }
    for name, (line, words) in cells.items():
        write(folder, f"{name}.csv", f"id,title,done,rank\na,t,true,1\n{line}\n")
        status, out, faults = piped(
            folder, MAKE, f".import {name}.csv todos", "count todos", journal=f"{name}.journal"
        )
        same((status, out.splitlines()[2], words in faults, "line 3" in faults), (1, "1", True, True), faults)
    write(folder, "field.csv", "id,titel\na,t\n")
    same("titel is no property of the schema" in piped(folder, MAKE, ".import field.csv todos")[2], True)


def documents_file(folder, count=COUNT):
    """A file of small documents, and a script that makes the same by bulks of the shell's size."""
    rows = [compact({"id": f"k{n * SEED % count}", "n": n}) for n in range(count)]
    write(folder, "docs.jsonl", "".join(row + "\n" for row in rows))
    size = transfer.DOCUMENTS
    bulks = [
        f'{{"do":"bulk","in":"c","docs":[{",".join(rows[at:at + size])}]}}' for at in range(0, count, size)
    ]
    write(
        folder,
        "script.jsonl",
        "\n".join([compact({"do": "collection", "name": "c", "schema": SCHEMA}), *bulks, ""]),
    )


@case(in_memory=True)
def an_import_is_nearly_as_fast_as_the_program(folder):
    """The best of five runs in turn: the import by what it says, the program's whole run."""
    documents_file(folder)
    bare, imports = [], []
    make = f"collection c {json.dumps(SCHEMA)}"
    for n in range(5):
        begun = time.perf_counter()
        with open(os.path.join(folder, "script.jsonl"), "rb") as script:
            words = [RX, "run", os.path.join(folder, f"bare-{n}")]
            ended = subprocess.run(words, stdin=script, stdout=subprocess.DEVNULL, check=False)
        bare.append(time.perf_counter() - begun)
        out = shown(folder, journal=f"shell-{n}", words=[make, ".import docs.jsonl c"])
        imports.append(float(re.search(r"imported 100,000 documents in ([\d.]+) s", out)[1]))
        same(ended.returncode, 0)
        if min(bare) >= RATIO * min(imports) and n:
            break
    digests = {checked(os.path.join(folder, name))[0]["digest"] for name in ("bare-0", "shell-0")}
    same(len(digests), 1, "the same documents")
    ratio = min(bare) / min(imports)
    seen = f"{COUNT / min(imports):,.0f} a second, {ratio:.2f} of the program's {COUNT / min(bare):,.0f}"
    if ratio < RATIO and os.getloadavg()[0] > os.cpu_count():
        raise Skipped(f"other work has the processors, of which an import takes two: {seen}")
    insist(ratio >= RATIO, seen)
    return seen


class Terminal:
    """The shell at a terminal of its own."""

    def __init__(self, folder, *words, shell=SHELL, term="xterm", columns=100):
        self.seen, self._from = "", 0
        env = {
            **WHERE,
            "TERM": term,
            "HOME": folder,
            "XDG_STATE_HOME": folder,
            "COLUMNS": str(columns),
            "LINES": "40",
            "INPUTRC": os.devnull,
        }
        self.child, self.fd = pty.fork()
        if self.child == 0:
            os.chdir(folder)
            os.execvpe(shell[0], [*shell, *words], env)

    def type(self, text):
        os.write(self.fd, text.encode())

    def until(self, wanted, seconds=SECONDS):
        """What came up to a text. The shell's questions about its terminal are answered."""
        end = time.monotonic() + seconds
        while (at := self.seen.find(wanted, self._from)) < 0:
            insist(time.monotonic() < end, f"no {wanted!r} in {self.seen[self._from:]!r}")
            part = self.part(0.1)
            insist(part is not None, f"it ended without {wanted!r}: {self.seen[-2000:]!r}")
            if "\x1b[6n" in part:
                self.type("\x1b[1;1R")
        before, self._from = self._from, at + len(wanted)
        return self.seen[before : self._from]

    def part(self, seconds):
        """What comes meanwhile, or none at the end."""
        if not select.select([self.fd], [], [], seconds)[0]:
            return ""
        try:
            part = os.read(self.fd, 1 << 16).decode(errors="replace")
        except OSError:
            return None
        self.seen += part
        return part or None

    def end(self, seconds=SECONDS):
        """The status with which it ends."""
        end = time.monotonic() + seconds
        while self.part(0.1) is not None:
            insist(time.monotonic() < end, f"it doesn't end: {self.seen[-2000:]!r}")
        return os.waitstatus_to_exitcode(os.waitpid(self.child, 0)[1])


def at_terminals():
    """The ways that the shell has at a terminal."""
    yield "plain", BARE_SHELL, "dumb"
    yield "readline", BARE_SHELL, "xterm"
    yield "rich and prompt_toolkit", [DEBIANS_PYTHON, "-m", "rx"], "xterm"


@case(needs=["rich", "prompt_toolkit"])
def typed_at_a_terminal_with_history_and_completion(folder):
    for name, shell, term in at_terminals():
        home = os.path.join(folder, name.split()[0])
        os.mkdir(home)
        todos(home, MILK, RENT)
        it = Terminal(home, "journal", shell=shell, term=term)
        it.until("1 collection")
        it.until("rx>")
        for typed, completed in (("tod", "os"), (" so", "rt"), (" ra", "nk"), (" de", "sc")):
            it.type(typed + (completed if term == "dumb" else "\t"))
            it.until(completed)
        it.type("\r")
        for wanted in ("rent", "milk", "2 rows", "rx>"):
            it.until(wanted)
        it.type('insert todos {"id": "open",\r')
        it.until("..>")
        time.sleep(0.5)  # until it reads, as whoever presses a key does
        it.type("\x03")
        it.until("rx>")
        it.type('insert todos {"id": "tea", "title": "T", "rank": "x"}\r')
        it.until('invalid (13): rank "x" is of the wrong kind')
        it.until("rx>")
        it.type("\x04")
        same(it.end(), 0, f"{name}: {it.seen[-500:]!r}")
        if term == "dumb":
            same("\x1b" in it.seen, False, "nothing but text")
            continue
        again = Terminal(home, "journal", shell=shell, term=term)
        again.until("rx>")
        again.type("\x1b[A\x1b[A\x1b[A\r")
        again.until("2 rows")
        again.until("rx>")
        again.type(".quit\r")
        same(again.end(), 0, name)


@case(needs=["rich", "prompt_toolkit"], in_memory=True)
def ctrl_c_in_an_import_leaves_what_was_acknowledged(folder):
    documents_file(folder, 400_000)
    for name, shell, term in at_terminals():
        journal = name.split()[0]
        it = Terminal(folder, journal, shell=shell, term=term)
        it.until("rx>")
        it.type(f"collection c {json.dumps(SCHEMA)}\r")
        it.until("made")
        it.until("rx>")
        it.type(".import docs.jsonl c\r")
        if term == "dumb":
            time.sleep(0.3)
        else:
            it.until("lines a second")
            it.until(" s left")
        it.type("\x03")
        said = it.until("stopped by Ctrl-C")
        count = int(re.search(r"imported ([\d,]+) documents? in", said)[1].replace(",", ""))
        it.until("rx>")
        it.type("count c\r")
        it.until(f"{count:,}")
        it.until("rx>")
        it.type("\x04")
        same(it.end(), 0)
        same(0 < count < 400_000 and count % transfer.DOCUMENTS == 0, True, f"{count} documents")
        status, replies = run(
            os.path.join(folder, journal), [compact({"do": "count", "in": "c", "query": {}})]
        )
        same((status, replies[0]["count"]), (0, count), "as it said")


@case()
def ctrl_c_in_an_export_leaves_what_was_written(folder):
    documents_file(folder, 12_000)
    with rx.open(os.path.join(folder, "journal")) as db:
        c, interrupt = db.collection("c", SCHEMA), Interrupt()
        transfer.import_file(db, os.path.join(folder, "docs.jsonl"), "c", SCHEMA, Progress(), interrupt)
        interrupt.pressed, drawn, path = True, Progress(), os.path.join(folder, "out.jsonl")
        try:
            transfer.export_file(c, path, {}, SCHEMA, drawn, interrupt)
            raise AssertionError("it was not stopped")
        except Wrong as wrong:
            same((str(wrong), drawn.lines, c.count()), ("stopped by Ctrl-C", 5000, 12_000))
    keys = [json.loads(line)["id"] for line in read(folder, "out.jsonl").splitlines()]
    same(keys, sorted(f"k{n}" for n in range(12_000))[:5000])


def readme(*path):
    with open(os.path.join(ROOT, *path, "README.md"), encoding="utf-8") as file:
        return file.read()


def session():
    """The journal and the lines of the session that clients/README.md shows."""
    return re.search(r"```text\n\$ python3 -m rx (\S+)\n(.*?)```", readme("clients"), re.S).groups()


def untimed(text):
    """Seconds and rates are another time's."""
    return re.sub(r" in [\d.]+ s, [\d,]+ a second", " in ..", text)


@case()
def the_session_of_the_readme(folder):
    """Typed at a terminal as the page shows it."""
    journal, lines = session()
    it = Terminal(folder, journal, term="dumb")
    for line in lines.splitlines():
        if line.startswith(("rx> ", "..> ")):
            it.until(line[:4])
            it.type(line[4:] + "\n")
    same(it.end(), 0)
    same(untimed(it.seen.replace("\r\n", "\n")), untimed(lines), "the session")


@case(needs=[])
def the_picture_of_the_readme_has_its_session(_folder):
    with open(os.path.join(ROOT, "clients", "shell.svg"), encoding="utf-8") as file:
        texts = re.findall(r'<text class="[^"]*-r\d+" x="[\d.]+" y="([\d.]+)"[^>]*>([^<]*)</text>', file.read())
    rows = {}
    for y, text in texts:
        rows[y] = rows.get(y, "") + html.unescape(text).replace("\xa0", " ")
    same(untimed("".join(rows.values())), untimed(session()[1].removesuffix("rx> .quit\n")))


@case(needs=[])
def the_readmes_show_the_pages_and_the_shell_in_pictures_below_200_kb(_folder):
    for path in ((), ("clients",)):
        pictures = re.findall(r"!\[[^\]]+\]\(([^)]+)\)", readme(*path))
        files = [os.path.normpath(os.path.join(ROOT, *path, it)) for it in pictures]
        for name in ("web/todos.png", "inspector/inspector.png", "shell.svg"):
            same(os.path.join(ROOT, "clients", name) in files, True, f"{name} in {path}")
        sizes = {it: os.path.getsize(it) for it in files}
        same([it for it, size in sizes.items() if size > 200_000], [], f"{sizes}")


if __name__ == "__main__":
    main()
