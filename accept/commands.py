"""Calls of the commands in bin/, each with what docs/ say of it: the status, and how output and refusal begin."""

import os
import re
import shutil
from typing import NamedTuple, Optional

from accept import arenas, terminals
from accept.examples import run_shown, text_of
from accept.shell import path_without, run

USAGE = "usage: flow_run [NET WORKERS [LIMIT]]"

# What fails when it is written to.
FULL = "/dev/full"


class Case(NamedTuple):
    """A call, as sh reads it, in the copy."""

    command: str
    status: int
    # The lines that standard output begins with, without the last line feed. Where it is empty, nothing is written; where it is
    # None, anything is.
    output: Optional[str] = ""
    # How the only line of standard error begins; none where it is empty.
    refusal: str = ""


# What the cases behind them read. Each is one line of a call as examples/README.md and docs/past-one-machine.md have it.
PREPARED = [
    "bin/flow_run examples/import.toml 1 < examples/import.csv > import.report",
    "bin/flow_run examples/fault.toml 1 < examples/fault.csv > fault.report",
    "bin/flow_run examples/tours.toml 1 < examples/tours.csv > tours.report",
    "cp examples/import.toml network.toml",
    "cp examples/import.csv records.csv",
    # Two inputs with other orders of keys; a key that one of them does not have; a join of which one input gets more.
    r"printf 'a,orders,10\nb,orders,20\nb,payments,20\na,payments,10\n' > keys.csv",
    "{ cat keys.csv; echo c,payments,30; } > partly.csv",
    r"printf 'orders,1\norders,2\npayments,1\n' > uneven.csv",
    # One message is missing that a block took, though it crossed the link to it.
    "sed '/^block order_numbers/,/^held/s/,\"1002\"//' import.report > damaged.report",
    # Rows with and without a bad one, and orders with other columns.
    r"""printf 'id,amount\n1,10\n2\n3,"30"\r\n' > rows.csv""",
    r"printf '1;10\n' > parted.csv; mkdir tables; touch tables/order_numbers.csv",
    # More than there is memory for, where there is little.
    "truncate -s 1G large.toml",
    """yes "$(printf 'block a done\\nport 0 []\\nheld 0 []\\nleft []')" | head -n 4000000 > large.report""",
    "yes | head -n 3000000 > large.csv",
    # A name of 40,000,000 characters.
    "{ printf 'format = 1\\nblock = [{kind = \"buffer\", name = \"'; head -c 40000000 /dev/zero | tr '\\0' a; } > long.toml",
    "printf '\"}]\\nlink = [{from = \"in\", to = \"in\"}]\\n' >> long.toml",
]

LITTLE = "ulimit -v 200000"

DAMAGED = "the report is damaged: order_numbers did not take at port 0 what its links gave"

FORM = """printf 'format = 1\\nblock = []\\n[[link]]\\nform = "a"\\nto = "b"\\n'"""

# Orders of 99 keys, payments in another order, and an order without one.
KEYED = """cp examples/matches.toml network.toml
{ seq 1 99 | sed 's/.*/k&,orders,&/'; echo k0,orders,5; seq 99 -1 1 | sed 's/.*/k&,payments,&/'; } > keyed.csv
rm alone.csv"""

# Of each command of `flow` a call that does what it is for, and one that is refused.
FLOW = [
    Case("bin/flow --help", 0, None),
    Case("test $(bin/flow_run --version | cut -d , -f 1 | cut -d ' ' -f 2) = $(bin/flow --version | cut -d ' ' -f 2)", 0),
    Case(
        "bin/flow check examples/import.toml examples/import.csv",
        0,
        "examples/import.toml: accepted\nexamples/import.csv: accepted",
    ),
    Case(f"{FORM} | bin/flow check -", 1, '-:4:1: error: link 0 has a key "form", which links do not have. Did you mean "from"?'),
    Case("bin/flow check nowhere.toml", 2, "", "flow: nowhere.toml: "),
    Case("bin/flow check \"$(printf 'no\\nfile')\"", 2, "", "flow: no\\nfile: "),
    Case(
        f"""name=$(printf "o\\n'e"); {FORM} > "$name"; bin/flow check --short "$name\"""",
        1,
        "o\\n'e:4:1: error: link 0 has a key \"form\", which links do not have. Did you mean \"from\"?\n"
        "o\\n'e:5:6: error: link 0 leads to \"b\", and no block has that name.\n",
    ),
    Case("bin/flow \"$(printf 'fl\\ny')\"", 2, "", "flow: unrecognized subcommand 'fl\\ny'"),
    Case(f"{LITTLE}; bin/flow check large.toml", 4, "", "flow: memory"),
    Case(f"{LITTLE}; bin/flow check --short long.toml", 1, 'long.toml:3:17: error: link 0 comes from "in", and no block has that name.'),
    Case("bin/flow draw examples/import.toml import.report", 0, "orders  buffer, input: done, took 3"),
    Case(
        "bin/flow draw examples/import.toml fault.report",
        2,
        "",
        "flow: fault.report: the report is of another network: it has 2 blocks, and the network 8",
    ),
    Case("bin/flow draw examples/import.toml damaged.report", 0, f"{DAMAGED}\norders  buffer, input: done, took 3"),
    Case("bin/flow draw --dot examples/import.toml damaged.report | sed -n 4p", 0, f'  label="{DAMAGED}";'),
    Case("bin/flow page examples/import.toml import.report | sed -n 1p", 0, "<!DOCTYPE html>"),
    Case("bin/flow page examples/import.toml import.report | grep -c '<details.*class=\"done\"'", 0, "8"),
    Case("bin/flow page examples/import.toml | grep -c '<details.*class=\"plain\"'", 0, "8"),
    Case(
        "bin/flow page examples/import.toml fault.report",
        2,
        "",
        "flow: fault.report: the report is of another network: it has 2 blocks, and the network 8",
    ),
    Case("bin/flow why examples/import.toml import.report", 0, None),
    Case(
        "bin/flow why examples/import.toml damaged.report",
        0,
        f"status 0: every block is done, and no record waits\n{DAMAGED}",
    ),
    Case(
        "bin/flow why examples/fault.toml fault.report examples/fault.csv | tail -n 1",
        0,
        'record 3, line 3: cents faulted with 1 (NotInt): "prices,seven"',
    ),
    Case("bin/flow why examples/fault.toml fault.report nowhere.csv", 2, "", "flow: nowhere.csv: "),
    Case("bin/flow why examples/README.md import.report", 2, "", "flow: examples/README.md: 1 Syntax"),
    Case("bin/flow trace fault.report 1200", 0, "cents recorded it: number 1"),
    Case("bin/flow trace fault.report eight", 1),
    Case("bin/flow trace examples/fault.csv 12", 2, "", "flow: examples/fault.csv: line 1: a report has no such line here"),
    Case("bin/flow results import.report order_numbers", 0, "order_numbers,1001\norder_numbers,1002\norder_numbers,1003"),
    Case("bin/flow results - < examples/batches.report", 0, "totals,196850\ntotals,566850\ntotals,359175"),
    Case("bin/flow results import.report nobody", 2, "", 'flow: import.report: the report has no block "nobody"'),
    Case(f"{LITTLE}; bin/flow results large.report", 4, "", "flow: memory"),
    Case("bin/flow results --header import.report ledger", 0, "block,value\nledger,1200\nledger,700\nledger,12000"),
    Case("bin/flow results --header --json import.report", 2, "", "flow: "),
    Case(
        "bin/flow results --files tables import.report",
        2,
        "",
        "flow: tables/order_numbers.csv: it is there already; --force replaces it",
    ),
    Case("ls tables", 0, "order_numbers.csv\n"),
    Case(
        "bin/flow results --files tables --force import.report",
        0,
        "tables/order_numbers.csv\ntables/ledger.csv\ntables/labels.csv\n",
    ),
    Case("cat tables/order_numbers.csv tables/ledger.csv tables/labels.csv > all.csv; bin/flow results import.report | cmp - all.csv", 0),
    Case("bin/flow results --files tables --jsonl import.report ledger", 0, "tables/ledger.jsonl\n"),
    Case(
        "sed 's/^block labels/block LEDGER/' import.report > twice.report; bin/flow results --files . twice.report",
        2,
        "",
        "flow: ./LEDGER.csv: two actions would have this file",
    ),
    Case("test -e ledger.csv", 1),
    Case("bin/flow results --files nowhere import.report", 5, "", "flow: nowhere/order_numbers.csv.new: "),
    Case("bin/flow results --force import.report", 2, "", "flow: --force is for --files"),
    Case(
        "bin/flow feed --header --bad aside.csv examples/orders/orders.csv '#=rows' customer=customers amount=amounts | cmp - orders.records",
        0,
        "",
        "flow: examples/orders/orders.csv: 2 bad rows are in aside.csv, the first: line 7, column 23: 5 fields, and not 4",
    ),
    Case("cmp aside.csv bad.csv; cat aside.csv", 0, "1006,Hopper, Grace,US,18\n1011,Marie Curie\n"),
    Case("bin/flow feed --header rows.csv amount=in", 2, "in,10\n", "flow: rows.csv: line 3, column 2: 1 field, and not 2"),
    Case(
        "bin/flow feed --header --bad one.csv rows.csv amount=in",
        1,
        "in,10\nin,30\n",
        "flow: rows.csv: 1 bad row is in one.csv: line 3, column 2: 1 field, and not 2",
    ),
    Case("bin/flow feed --header --bad one.csv rows.csv amount=in", 2, "", "flow: one.csv: it is there already; --force replaces it"),
    Case("bin/flow feed --header --bad rows.csv --force rows.csv amount=in", 2, "", "flow: rows.csv: the rows are read from it"),
    Case("bin/flow feed --header --bad rows.csv --force - amount=in < rows.csv", 2, "", "flow: rows.csv: the rows are read from it"),
    Case(
        "bin/flow feed --header --bad one.csv --force examples/orders/orders.csv amounts=in",
        2,
        "",
        'flow: examples/orders/orders.csv: the header has no column "amounts"',
    ),
    Case("cat one.csv; ls | grep 'csv.new'", 1, "2\n"),
    Case("bin/flow feed --header --where id=3 --key id - amount=in '#=rows' < rows.csv", 2, "", "flow: -: line 3, column 2: 1 field, and not 2"),
    Case("sed 2,3d rows.csv | bin/flow feed --header --where id=3 --key id - amount=in '#=rows'", 0, "3,in,30\n3,rows,1\n"),
    Case("bin/flow feed parted.csv 2=in", 2, "", "flow: parted.csv: there is no column 2: the first row has 1 field"),
    Case("bin/flow feed parted.csv amount", 2, "", 'flow: "amount" is not COLUMN=INPUT, with the name of a block as INPUT'),
    Case("bin/flow feed --where a parted.csv 1=in", 2, "", 'flow: "a" is not COLUMN=TEXT'),
    Case("bin/flow feed --force parted.csv 1=in", 2, "", "flow: --force is for --bad"),
    Case("bin/flow feed rows.csv", 2, "", "flow: "),
    Case("bin/flow feed nowhere.csv 1=in", 2, "", "flow: nowhere.csv: "),
    Case("bin/flow feed . 1=in", 2, "", "flow: .: "),
    Case(f"{LITTLE}; yes \"$(printf '%0100d' 0),b\" | head -n 3000000 | bin/flow feed - 2=in | tail -n 1", 0, "in,b\n"),
    Case(f"{LITTLE}; bin/flow feed large.toml 1=in", 4, "", "flow: memory"),
    Case("bin/flow sift examples/import.toml < examples/import.csv | cmp - examples/import.csv", 0),
    Case(
        "bin/flow sift examples/fault.toml < examples/fault.csv",
        1,
        "prices,12\nprices,7\nprices,120",
        'record 3, line 3: cents faulted with 1 (NotInt): "prices,seven"',
    ),
    Case("bin/flow sift examples/README.md < examples/fault.csv", 2, "", "flow: examples/README.md: 1 Syntax"),
    Case(f"{LITTLE}; bin/flow sift examples/import.toml < large.csv", 4, "", "flow: memory"),
    Case(
        "bin/flow stream 9 examples/import.toml < examples/import.csv",
        0,
        "order_numbers,1001\norder_numbers,1002\norder_numbers,1003\nledger,1200\nledger,700\nledger,12000\n"
        'labels,Ada Lovelace\nlabels,"Hopper, Grace"\nlabels,"Zoë ""Zed"" Müller"',
    ),
    Case(
        "bin/flow stream 3 --jsonl examples/import.toml < examples/import.csv | sed -n 4p",
        0,
        '{"block":"order_numbers","value":1002}',
    ),
    Case("bin/flow stream 9 --report examples/import.toml < examples/import.csv | cmp - import.report", 0),
    Case(
        "bin/flow stream 2 examples/fault.toml < examples/fault.csv",
        1,
        "cents,1200\ncents,700",
        "flow: records 3 to 4: their run ends with status 1",
    ),
    Case("sed s/seven/70/ examples/fault.csv | bin/flow stream 2 --from 3 examples/fault.toml", 0, "cents,7000\ncents,12000"),
    Case("bin/flow stream 2 --from 0 examples/fault.toml < examples/fault.csv", 2, "", "flow: --from needs the number of a record, from 1"),
    Case("bin/flow stream 2 examples/batches.toml < examples/batches.csv", 2, "", "flow: examples/batches.toml: "),
    Case("bin/flow stream 0 examples/fault.toml < examples/fault.csv", 2, "", "flow: COUNT is a number of records, from 1"),
    Case("bin/flow stream two examples/fault.toml < examples/fault.csv", 2, "", "flow: COUNT is a number of records, from 1"),
    *(
        Case(f"bin/flow stream 2 examples/fault.toml {workers} < examples/fault.csv", 2, "", "flow: WORKERS is a number from 1 to 64")
        for workers in ["0", "65", "two", "1.5", "18446744073709551616"]
    ),
    Case("bin/flow stream 9 --report examples/import.toml 64 < examples/import.csv | cmp - import.report", 0),
    Case(
        "bin/flow stream 2 examples/fault.toml 2 < examples/fault.csv",
        1,
        "cents,1200\ncents,700",
        "flow: records 3 to 4: their run ends with status 1",
    ),
    Case("yes prices,1 | head -n 3000 | bin/flow stream 1000 examples/fault.toml 8 | sort | uniq -c | sed 's/ *//'", 0, "3000 cents,100\n"),
    Case("yes prices,1 | bin/flow stream 10 examples/fault.toml | head -n 2", 0, "cents,100\ncents,100"),
    Case(f"{LITTLE}; yes prices,1 | head -n 3000000 | bin/flow stream 1000 examples/fault.toml | tail -n 1", 0, "cents,100"),
    Case(f"{LITTLE}; yes prices,1 | head -n 3000000 | bin/flow stream 3000000 examples/fault.toml", 4, "", "flow: records 1 to "),
    Case("bin/flow split 3 --name part examples/import.csv", 0, "part.1\npart.2\npart.3"),
    Case("cat part.? | cmp - examples/import.csv", 0),
    Case("bin/flow split 4 --name part records.csv", 2, "", "flow: part.1: it is there already; --force replaces it"),
    Case("bin/flow split 4 --force --name part records.csv", 0, "part.1\npart.2\npart.3\npart.4"),
    Case("cat part.? | cmp - records.csv", 0),
    Case("cp records.csv own.1; bin/flow split 2 --force --name own own.1", 2, "", "flow: own.1: the records are read from it"),
    Case("bin/flow split 2 --force --name own - < own.1", 2, "", "flow: own.1: the records are read from it"),
    Case("cmp own.1 records.csv && ! test -e own.2", 0),
    Case(
        "ln -s part.1 far.2; bin/flow split 2 --force --name far records.csv",
        2,
        "",
        "flow: far.2: it is there already, and is no file of its own",
    ),
    Case("test -e far.1", 1),
    Case("trap '' XFSZ; ulimit -f 1; bin/flow split 1 --name torn large.csv", 5, "", "flow: torn.1: "),
    Case("ls | grep torn", 1),
    Case("bin/flow split 12 --name part examples/import.csv | tail -n 1", 0, "part.12"),
    Case("bin/flow split 0 examples/import.csv", 2, "", "flow: "),
    Case(
        "bin/flow split 2 --by-key examples/import.csv",
        2,
        "",
        "flow: examples/import.csv: record 1 is not a key, an input and a value",
    ),
    Case(
        "bin/flow split 1 --by-key keys.csv",
        2,
        "",
        'flow: keys.csv: keys differ, see --align: "a" of "orders" (line 1), "b" of "payments" (line 3)',
    ),
    Case("test -e keys.csv.1", 1),
    Case("bin/flow split 1 --by-key --align keys.csv", 0, "keys.csv.1"),
    Case("cat keys.csv.1", 0, "orders,10\npayments,10\norders,20\npayments,20\n"),
    Case("bin/flow_run examples/matches.toml 1 < keys.csv.1 > keys.report", 0),
    Case("bin/flow merge examples/matches.toml keys.report | bin/flow results -", 0, "balances,0\nbalances,0\n"),
    Case("bin/flow split 2 --by-key --align partly.csv", 2, "", 'flow: partly.csv: no partner, see --unmatched: "c" of "payments" (line 5)'),
    Case(
        "bin/flow split 2 --by-key --align --unmatched partly.csv.2 partly.csv",
        2,
        "",
        "flow: partly.csv.2: a part has this name",
    ),
    Case("bin/flow split 2 --by-key --align --unmatched partly.csv --force partly.csv", 2, "", "flow: partly.csv: the records are read from it"),
    Case("bin/flow split 2 --by-key --align --unmatched keys.csv partly.csv", 2, "", "flow: keys.csv: it is there already"),
    Case("ls | grep 'partly.csv.'", 1),
    Case("bin/flow split 2 --by-key --align --unmatched alone.csv partly.csv", 0, "partly.csv.1\npartly.csv.2"),
    Case("cat alone.csv", 0, "c,payments,30\n"),
    Case("sort partly.csv.1 partly.csv.2", 0, "orders,10\norders,20\npayments,10\npayments,20\n"),
    Case("bin/flow split 2 --align partly.csv", 2, "", "flow: --align is for --by-key"),
    Case("bin/flow split 2 --by-key --unmatched alone.csv partly.csv", 2, "", "flow: --unmatched is for --by-key --align"),
    Case(f"{LITTLE}; yes a,in,b | head -n 4000000 | bin/flow split 1 --by-key --name many -", 4, "", "flow: memory"),
    Case("ls | grep many", 1),
    Case(
        "bin/flow check --short examples/matches.toml uneven.csv | tail -n 1",
        0,
        'uneven.csv:2:1: warning: block 4 "matched" gets more records from "orders" (2) than from "payments" (1): '
        "what has no partner waits, and the run ends with status 1.",
    ),
    Case(
        "bin/flow merge examples/fault.toml fault.report",
        1,
        "",
        "flow: part 1 has status 1, and only parts with status 0 are merged",
    ),
    Case("bin/flow merge examples/import.toml import.report damaged.report", 2, "", f"flow: part 2: {DAMAGED}"),
    Case(
        "bin/flow merge examples/tours.toml tours.report",
        2,
        "",
        "flow: north is a join that reserves, and a network with one is not merged",
    ),
]

# Words that `flow` refuses, and words that it takes, with a file that is not there. Where it is not built, the wrapper has to know that.
WRONG = [
    "fly",
    "fly --help",
    "--dot",
    "-x",
    "check",
    "check --version",
    "check network.toml --short=1",
    "draw",
    "draw a b c",
    "draw --dott a",
    "draw -d a",
    "draw --dot --dot a",
    "draw a -1",
    "page",
    "page a b c",
    "page --dot a",
    "why a",
    "why a b c d",
    "results",
    "results a --json --csv",
    "results --jsonl a --json",
    "results a --header --jsonl",
    "results a --files",
    "results a --force",
    "trace a",
    "trace a b c",
    "feed",
    "feed a",
    "feed a 1=in --where",
    "feed a 1=in --key 1 --key 2",
    "feed a 1=in --header --header",
    "feed a 1=in --force",
    "sift",
    "sift a b",
    "stream",
    "stream 2",
    "stream 2 a 2 b",
    "stream 2 a --from",
    "stream 2 a --jsonl --report",
    "split 2",
    "split a 2",
    "split 1001 a",
    "split -1 a",
    "split 2 a b",
    "split 2 a --name",
    "split 2 a --name --force",
    "split 2 a --name b --name c",
    "split 2 a --align",
    "split 2 a --by-key --unmatched b",
    "split 2 a --align --unmatched b",
    "merge a",
    "merge --force a b",
]
TAKEN = [
    "check nowhere",
    "check --short nowhere records.csv",
    "draw nowhere --dot",
    "draw -- nowhere",
    "page nowhere -",
    "why nowhere -",
    "why nowhere report records",
    "results nowhere a b c --jsonl",
    "results nowhere --header --files . --force",
    "trace nowhere -- -1",
    "feed nowhere 1=in 2=in",
    "feed --where 1=a --where=2=b nowhere --key '#' '#=in'",
    "feed nowhere a=in --header --force --bad aside",
    "sift nowhere",
    "stream 2 nowhere",
    "stream 2 nowhere 64",
    "stream --from 3 1000 nowhere --report",
    "split 1000 nowhere",
    "split 02 nowhere --name=part",
    "split --name part 2 nowhere --force",
    "split 2 nowhere --name=",
    "split 2 nowhere --unmatched - --align --by-key",
    "merge nowhere a b c d",
]

# What is refused, and streams that fail, by each program that has been built.
BUILT = [
    Case("bin/flow_run examples/import.toml", 2, "", USAGE),
    Case("bin/flow_run examples/import.toml 65 < examples/import.csv", 2, "", USAGE),
    Case("bin/flow_run examples/import.toml 1 -1 < examples/import.csv", 2, "", USAGE),
    Case("bin/flow_run examples/README.md 1 < examples/import.csv", 2, "", "flow_run: 1 Syntax"),
    Case("echo 'parcels,9' | bin/flow_run examples/import.toml 1", 2, "", "flow_run: 11 UnknownInput record 1"),
    Case("bin/flow_run examples/import.toml 1 0 < examples/import.csv", 3, "block orders open"),
    Case("{ cat examples/import.toml; echo %%; cat examples/import.csv; } | bin/flow_run | tail -n 1", 0, "quiet"),
    Case("bin/flow_run nowhere.toml 1 < examples/import.csv", 5, "", "flow_run: 12 Read"),
    Case("bin/flow_run examples/import.toml 1 <&-", 5, "", "flow_run: 12 Read"),
    Case("bin/flow_run <&-", 5, "", "flow_run: 12 Read"),
    Case("bin/flow_run examples/import.toml 1 < examples/import.csv >&-", 5, "", "flow_run: 13 Write"),
    Case(f"bin/flow_run examples/import.toml 1 < examples/import.csv > {FULL}", 5, "", "flow_run: 13 Write"),
    Case("bin/flow_run examples/README.md 1 < examples/import.csv 2>&-", 2),
    Case("bin/flow --help > help; bin/flow help | cmp - help && bin/flow help help | cmp - help", 0),
    Case("bin/flow 2>&1 > /dev/null | cmp - help", 0),
    Case("bin/flow 2> /dev/null", 2),
    Case("bin/flow split --help > help; bin/flow help split | cmp - help", 0),
    Case("bin/flow help fly", 2, "", "flow: "),
    *(Case(f"bin/flow {words}", 2, "", "flow: ") for words in WRONG),
    *(Case(f"bin/flow {words}", 2, "", "flow: nowhere: ") for words in TAKEN),
    Case("bin/flow draw examples/import.toml >&-", 5, "", "flow: "),
    Case(f"bin/flow draw examples/import.toml > {FULL}", 5, "", "flow: "),
    Case(f"bin/flow --help > {FULL}", 5, "", "flow: standard output failed"),
    Case("bin/flow feed --help >&-", 5, "", "flow: standard output failed"),
    Case(f"bin/flow page examples/import.toml > {FULL}", 5, "", "flow: standard output failed"),
    Case("bin/flow split 2 examples/import.csv --name cut >&-", 5, "", "flow: standard output failed"),
    Case("bin/flow results --files . examples/batches.report >&-", 5, "", "flow: standard output failed"),
    Case("bin/flow sift examples/import.toml <&-", 2, "", "flow: standard input: "),
    Case("bin/flow stream 2 examples/import.toml <&-", 5, "", "flow: records 1 to 1: 12 Read"),
    Case("bin/flow stream 2 examples/fault.toml < examples/fault.csv >&-", 5, "", "flow: records 1 to 2: standard output failed"),
    Case(f"bin/flow stream 2 examples/fault.toml 2 < examples/fault.csv > {FULL}", 5, "", "flow: records 1 to 2: standard output failed"),
    Case("bin/flow feed - 1=in <&-", 2, "", "flow: -: "),
    Case("bin/flow feed examples/import.csv 1=in >&-", 5, "", "flow: standard output failed"),
    Case(f"bin/flow feed examples/import.csv 1=in > {FULL}", 5, "", "flow: standard output failed"),
]

# Help, wrong arguments and streams that fail, where no program is built.
UNBUILT = [
    Case("bin/flow_run --help", 0, USAGE),
    Case("bin/flow_run -h", 0, USAGE),
    Case("bin/flow_run examples/import.toml 0", 2, "", USAGE),
    Case("bin/flow_run a b c d", 2, "", USAGE),
    Case("bin/flow_run --version", 0, "flow_run 0.1.0, not built yet"),
    Case("bin/flow_run nowhere.toml 1 < examples/import.csv", 5, "", "flow_run: 12 Read"),
    Case("bin/flow_run examples 1 < examples/import.csv", 5, "", "flow_run: 12 Read"),
    Case(
        "bin/flow --help",
        0,
        "usage: flow COMMAND\n\ncommands:\n  check    Tells what is wrong with a network and its records, and where",
    ),
    Case("bin/flow --help > help; bin/flow -h | cmp - help && bin/flow help | cmp - help && bin/flow help help | cmp - help", 0),
    Case("bin/flow 2>&1 > /dev/null | cmp - help", 0),
    Case("bin/flow 2> /dev/null", 2),
    Case(
        "bin/flow check --help",
        0,
        "usage: flow check NET [RECORDS] [--short]\n\nTells what is wrong with a network and its records, and where",
    ),
    Case("bin/flow check --help > help; bin/flow help check | cmp - help", 0),
    Case(
        "bin/flow feed --help",
        0,
        "usage: flow feed FILE COLUMN=INPUT.. [--header] [--where COLUMN=TEXT].. [--key COLUMN] [--bad BAD] [--force]\n\n"
        "Makes records of the rows of a CSV file",
    ),
    Case("bin/flow help fly", 2, "", 'flow: there is no command "fly"; `bin/flow --help` lists the commands'),
    Case("bin/flow --version", 0, "flow 0.1.0, not built yet"),
    Case("bin/flow -V", 0, "flow 0.1.0, not built yet"),
    Case("bin/flow draw", 2, "", "flow: usage: flow draw NET [REPORT] [--dot]; `bin/flow --help` lists the commands"),
    Case("bin/flow split 0 records.csv", 2, "", "flow: PARTS is a number from 1 to 1000"),
    Case("bin/flow draw \"$(printf 'a\\377')\"", 2, "", "flow: an argument is not UTF-8"),
    *(Case(f"bin/flow {words}", 2, "", "flow: ") for words in WRONG),
    Case("test -e out", 1),
    Case("bin/flow --help >&-", 5, "", "flow: "),
    Case("bin/flow_run --help >&-", 5, "", "flow_run: "),
    Case("bin/flow_run --version >&-", 5, "", "flow_run: "),
    Case(f"bin/flow_run --help > {FULL}", 5, "", "flow_run: "),
    Case("bin/audit --help", 0, "usage: bin/audit [--keep FOLDER] [NAME..]    tries the wrong edits of these crates, or of all"),
    Case("bin/audit nobody", 2, "", "audit: nobody is no crate with edits"),
    Case("bin/audit --help >&-", 5, "", "audit: "),
    Case(f"bin/audit --help > {FULL}", 5, "", "audit: "),
    Case("bin/package --help", 0, "usage: bin/package [--without-library] VERSION"),
    Case("bin/package", 2, "", "package: "),
    Case("bin/package one", 2, "", "package: "),
    Case("bin/package --without-library", 2, "", "package: "),
    Case("bin/package 0.1.0 --without-library", 2, "", "package: "),
    Case("bin/package 0.1.0", 1, "", "package: there is no library in out/library: `bin/library` "),
    Case("test -e out", 1),
    Case("bin/package --help >&-", 5, "", "package: "),
    Case(f"bin/package --help > {FULL}", 5, "", "package: "),
    Case("bin/library --help", 0, "usage: bin/library [FOLDER]"),
    Case("bin/library one two", 2, "", "library: usage: bin/library [FOLDER]"),
    Case("bin/library --proved", 2, "", "library: usage: bin/library [FOLDER]"),
    Case("bin/library --help >&-", 5, "", "library: "),
    Case(f"bin/library --help > {FULL}", 5, "", "library: "),
    Case("bin/new_program --help", 0, "usage: new_program FOLDER"),
    Case("bin/new_program --help >&-", 5, "", "new_program: "),
    Case(f"bin/new_program --help > {FULL}", 5, "", "new_program: "),
    Case("bench/run --help", 0, None),
    Case("bench/run none", 2, "", "bench: usage: "),
    Case("bench/run busy 0", 2, "", "bench: usage: "),
    Case("bin/accept --help", 0, None),
    Case("bin/accept --slow", 2, "", "accept: "),
    Case("bin/accept --help >&-", 5, "", "accept: "),
    Case(f"bin/accept --help > {FULL}", 5, "", "accept: "),
]

# Where the kit is missing nothing can be built.
WITHOUT_KIT = [
    Case("bin/flow_run examples/import.toml 1 < examples/import.csv", 127, "", "flow_run: rt is not found"),
    *(Case(f"bin/flow {words}", 127, "", "flow: rt is not found") for words in TAKEN),
    Case("bin/library", 1, "", "library: rt is not found"),
]

# A kit that fails, and would leave a file if it was to prove.
FAILING_RT = "mkdir kit; printf '#!/bin/sh\\n[ \"$1\" = doc ] || touch kit/proves\\necho no room >&2\\nexit 1\\n' > kit/rt; chmod +x kit/rt"

# Where a first call can't compile, it says why and ends.
WITH_FAILING_KIT = [
    Case(
        "PATH=$PWD/kit:$PATH; { bin/flow_run examples/import.toml 1 < examples/import.csv; echo $?; ls kit; } 2>&1",
        0,
        "flow_run: compiling the program without proof, which takes three or four minutes\n"
        "no room\nflow_run: it could not be compiled without proof; `bin/flow_run --prove` proves and builds it instead\n127\nrt\n",
    ),
    Case("PATH=$PWD/kit:$PATH; { bin/flow --build; echo $?; } 2>&1", 0, "no room\nflow: it could not be compiled without proof\n127\n"),
    Case("PATH=$PWD/kit:$PATH; CC=nothing bin/library", 1, "", "library: nothing is not found"),
]


def begins(text, wanted):
    """How a text begins, as far as the wanted lines go."""
    if wanted is None:
        return None
    return "\n".join(text.split("\n")[: wanted.count("\n") + 1]) if wanted else text


def only_line(text, wanted):
    """How a text begins that is to be one line, as far as that is wanted; a text of several lines is left whole."""
    is_line = text.endswith("\n") and text.count("\n") == 1
    return text[: len(wanted)] if wanted and is_line else text


def run_cases(part, cases, copy, path=None):
    for case in cases:
        if FULL in case.command and not os.path.exists(FULL):
            part.skip(case.command, f"there is no {FULL}")
            continue
        ended = run(case.command, copy, path=path)
        output = ("output", case.output, begins(ended.out, case.output))
        refusal = ("standard error", case.refusal, only_line(ended.err, case.refusal))
        part.compare(case.command, ("status", case.status, ended.status), output, refusal)


def apply_edits(part, copy):
    """Counts each wrong edit that `bin/audit --applies` looks at."""
    ended = run("bin/audit --applies", copy)
    *bad, last = ended.out.rstrip("\n").split("\n")
    told = re.fullmatch(r"audit: (\d+) passed, \d+ failed", last)
    if told is None:
        part.count(False, "bin/audit --applies", [f"status {ended.status}", last, *ended.err.split("\n")[-2:]])
        return
    part.passed += int(told.group(1))
    for edit in bad:
        part.count(False, edit)


def call_unbuilt(part, copy, room):
    """The cases that need no program, in a copy where none is built, and without a kit."""
    bare = os.path.join(room, "bare")
    shutil.copytree(copy, bare, ignore=shutil.ignore_patterns("src", "specs", "proofs"))
    # the words for help and the version
    shutil.copytree(os.path.join(copy, "crates/flow_tool/src"), os.path.join(bare, "crates/flow_tool/src"))
    run_cases(part, UNBUILT, bare)
    terminals.call_unbuilt(part, bare)
    arenas.hand_on(part, bare)
    run(FAILING_RT, bare)
    run_cases(part, WITH_FAILING_KIT, bare)
    run_cases(part, WITHOUT_KIT, bare, path_without("rt", os.path.join(room, "path")))


def call_built(part, copy):
    run_cases(part, BUILT, copy)
    terminals.call_built(part, copy)
    arenas.run_workers(part, copy)


def call_flow(part, copy):
    for command in PREPARED:
        run(command, copy)
    run_shown(part, copy)
    run_cases(part, FLOW, copy)
    merge_parts(part, copy)


def script_of(copy, first):
    """The script of docs/past-one-machine.md that begins with this line."""
    lines = text_of(copy, "docs/past-one-machine.md").split("\n")
    begin = lines.index(f"    {first}")
    return "\n".join(lines[begin : lines.index("", begin)])


def merge_parts(part, copy):
    """The scripts of docs/past-one-machine.md: the report of the whole is that of one run, a mapper gives the results of its records, and
    each order meets its payment."""
    script = script_of(copy, "bin/flow split 8 records.csv")
    ended = run(f"set -e\n{script}\ncmp whole.report import.report >&2", copy)
    part.compare("the script of docs/past-one-machine.md", ("status", 0, ended.status), ("standard error", "", ended.err))
    script = script_of(copy, "bin/flow_run network.toml 1 18446744073709551615 | bin/flow results -")
    ended, wanted = run(f"cat records.csv | {script}", copy), run("bin/flow results import.report", copy)
    part.compare("its mapper", ("status", 0, ended.status), ("output", wanted.out, ended.out))
    script = script_of(copy, "bin/flow split 8 --by-key --align --unmatched alone.csv keyed.csv")
    ended = run(f"set -e\n{KEYED}\n{script}\nbin/flow results whole.report | uniq -c; cat alone.csv", copy)
    wanted = re.compile(r"(keyed\.csv\.\d\n){8} *99 balances,0\nk0,orders,5\n")
    part.compare("its script with keys", ("status", 0, ended.status), ("output", True, wanted.fullmatch(ended.out) is not None))
