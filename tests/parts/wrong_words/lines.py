"""Wrong command lines of each script, for tests/wrong_words. A line is the script, its words, and
the status that its help gives for that. Words in braces are files of the test's folder:

code          a code file       record      a node's record       noise   bytes that are nothing
pas           a Pascal text     trace       a node's trace        words   words of a supervisor
asm           assembly          script      a script of sim       folder  a folder
empty         an empty file     program     pgroup itself         none    what is not there
new           a name that is free                                 session the checksum of code
"""

# The scripts that refuse an option that they have not.
NAMES = (
    "lead", "attach", "page", "renew", "replay", "draw", "status", "supervise", "compile",
    "assemble", "volume", "translate", "freeze", "console", "package",
)

SUPERVISE = (
    "supervise --file {code} --id 1 --size 1 --session {session} --record {new} --console {new}.c "
    "--nodes 127.0.0.1:1801 --keys 127.0.0.1:1802 --beats 127.0.0.1:1803 "
)
ASKED = "status --beats 127.0.0.1:1803 --session 1 "

LINES = """
2 lead
2 lead x
2 lead 127.0.0.1
2 lead 127.0.0.1:
2 lead 127.0.0.1:0
2 lead 127.0.0.1:65536
2 lead 256.0.0.1:7101
2 lead localhost:7101
2 lead 127.0.0.1:7101 x
1 lead 127.0.0.1:1804
2 attach
2 attach 127.0.0.1
2 attach 127.0.0.1:1804
2 attach 127.0.0.1:1804 {noise}
2 attach 127.0.0.1:1804 --seen -1
2 attach 127.0.0.1:1804 {noise} --seen x
2 page
2 page {record} --port x
2 page {record} --port 70000
2 page {record} --at 0
2 page {record} --listen 0.0.0.0
2 page {record} --traces {folder}
2 page {record} --screen vt99
2 page {record} --certificate {none}
1 page {record} --certificate {none} --private-key {none}
1 page {record} --certificate {noise} --private-key {noise}
1 page {record} --addresses {folder}
1 page {record} --addresses {none}/new
1 page --traces {none}
1 page --traces {noise}
1 page --traces {folder}
2 renew
2 renew {record}
2 renew --file {code}
2 renew --file {code} --generation x {record}
2 renew --sessions 1 {record}
2 renew --freeze {none} {record}
2 renew --freeze {none} --file {code} --generation 2 {record}
2 renew --sessions 7 8 {record} --consoles {none}
1 renew --freeze {none} --file {none} {record}
1 renew --freeze {none} --file {code} --session 1 {none}
2 renew --sessions x y {record}
1 renew --sessions 7 8 {none}
1 renew --sessions 7 8 {noise}
1 renew --sessions 7 8 {folder}
1 renew --sessions 9 8 {record}
1 renew --sessions 7 8 {record}
1 renew --file {none} --generation 2 {record}
1 renew --file {folder} --generation 2 {record}
1 renew --file {code} --generation 2 {record}
2 replay
2 replay {code}
1 replay {code} {none}
1 replay {code} {folder}
1 replay {code} {noise}
1 replay {code} {empty}
1 replay {none} {trace}
1 replay {noise} {trace}
1 replay {code} {trace} --records {none}
1 replay {code} {trace} --records {noise}
1 replay {code} {trace} --consoles {none}
1 replay {code} {trace} --consoles {folder}
1 replay {code} {trace} --script {folder}
1 replay {code} {trace} --script {none}/x
1 replay {code} {trace} --program {none}
1 replay {code} {trace} --program {noise}
1 replay {code} {trace} --script /dev/full
2 draw
1 draw {none}
1 draw {folder}
1 draw {noise}
1 draw {empty}
1 draw {script} {script}
1 draw {script} --from 99999
2 draw {script} --from 9 --to 3
2 draw {script} --from 0
2 draw {script} --from x
2 draw {script} --width -5
2 draw {script} --width 0
2 draw {script} --places 9-3
2 draw {script} --places x
2 draw {script} --nodes x
1 draw {script} --nodes 9
1 draw {script} --file {none} --program {program}
1 draw {script} --file {noise} --program {program}
1 draw {script} --out {none}/x
1 draw {script} --out {folder}
1 draw {script} --out /dev/full
2 status
1 status {none}
1 status {folder}
1 status {noise}
1 status {empty}
2 status {record} --consoles {noise}
2 status {record} --logs {noise} {noise}
1 status {record} --logs {none}
1 status {record} --logs {folder}
2 status --follow {record}
2 status --check
2 status --json {record}
2 status --beats 127.0.0.1:1803
2 status --beats x --session 1
2 status --beats 127.0.0.1:1803 127.0.0.1:1805 --session 1
1 status --group {none}
1 status --group {folder}
1 status --group {noise}
2 status --group {empty}
2 status --check --group {none}
ASKED 1 --wait 0.1
ASKED 2 --check --wait 0.1
ASKED 2 --wait 0
ASKED 2 --wait x
ASKED 2 --json --metrics
ASKED 2 --follow
ASKED 2 {record}
ASKED 1 --beats-key {none}
ASKED 1 --beats-key {folder}
ASKED 1 --beats-key {noise}
2 supervise
2 supervise @{none}
2 supervise @{folder}
2 supervise @{noise}
2 supervise @{empty}
SUPERVISE 1
SUPERVISE 1 --new --file {none}
SUPERVISE 1 --new --file {folder}
SUPERVISE 1 --new --file {noise}
SUPERVISE 1 --new --session 7
SUPERVISE 1 --new --generation 2
SUPERVISE 1 --new --console {record}
SUPERVISE 1 --new --console {new}
SUPERVISE 1 --new --console {new}.lock
SUPERVISE 1 --new --console {code}
SUPERVISE 1 --new --console {program}
SUPERVISE 1 --new --console {folder}
SUPERVISE 1 --new --console {none}/x
SUPERVISE 1 --new --record {none}/x
SUPERVISE 1 --new --record {noise}
SUPERVISE 1 --record {noise}
SUPERVISE 1 --record {record}
SUPERVISE 1 --record {folder}
SUPERVISE 1 --new --program {none}
SUPERVISE 1 --new --program {noise}
SUPERVISE 1 --new --program {folder}
SUPERVISE 1 --new --beats-key {none}
SUPERVISE 1 --new --beats-key {folder}
SUPERVISE 1 --new --beats-key {noise}
SUPERVISE 1 --new --beats-key {noise} --new-beats-key
SUPERVISE 2 --new --new-beats-key
SUPERVISE 2 --id 2
SUPERVISE 2 --id x
SUPERVISE 2 --size 2
SUPERVISE 2 --size 3
SUPERVISE 2 --session -1
SUPERVISE 2 --session 4294967296
SUPERVISE 2 --generation 0
SUPERVISE 2 --silent 0
SUPERVISE 2 --silent nan
SUPERVISE 2 --silent x
SUPERVISE 2 --keys 127.0.0.1:1801
SUPERVISE 2 --keys x
SUPERVISE 2 --nodes 0.0.0.0:1801
SUPERVISE 2 --asked-by x
SUPERVISE 2 --asked-by 127.0.0.1:5
SUPERVISE 2 --console-limit 65535
SUPERVISE 2 --console-limit x
SUPERVISE 2 --trace-limit 0
SUPERVISE 2 --trace-limit 1000
SUPERVISE 2 @{folder}
2 compile
1 compile {none}
1 compile {folder}
1 compile {noise}
1 compile {empty}
2 compile {pas} {pas}
2 compile --heap 0 {pas}
2 compile --heap x {pas}
2 compile --line-end x {pas}
2 compile --check --list {pas}
2 compile --where 1 {pas}
2 compile --where x 1 {pas}
1 compile -o {folder} {pas}
1 compile -o {none}/x {pas}
1 compile -o {pas} {pas}
1 compile -o /dev/full {pas}
2 assemble
1 assemble {none}
1 assemble {folder}
1 assemble {noise}
1 assemble --list {none}
1 assemble --list {folder}
1 assemble --list {noise}
2 assemble --map {asm} x
1 assemble --map {asm} 9 9
2 freeze
2 freeze {code}
2 freeze {code} {code} -o {new}
2 freeze {code} -o {new} --check {code}
2 freeze --facts
2 freeze --facts {code} {code}
2 freeze --map {code} 1
2 freeze --map {code} x 1
1 freeze --map {code} 1 1
1 freeze --facts {none}
1 freeze --facts {noise}
1 freeze --facts {folder}
1 freeze {none} -o {new}
1 freeze {noise} -o {new}
1 freeze {folder} -o {new}
1 freeze {code} -o {code}
1 freeze {code} -o {folder}
1 freeze {code} -o {none}/x
1 freeze {code} --check {code}
2 volume
1 volume {none}
1 volume {folder}
1 volume {noise}
1 volume {empty}
2 volume {noise} --at x
2 volume {noise} --get --put {pas}
1 volume {noise} --put {pas}
1 volume {new} --put {none}
1 volume {new} --put {folder}
2 volume {new} --put {pas} --blocks 3
2 volume {new} --put {pas} --blocks x
2 translate
2 translate --check --list {code}
2 translate --where 1 x {code}
2 translate {code} {code}
2 translate --reals x {code}
1 translate {none}
1 translate {folder}
1 translate {noise}
1 translate {empty}
1 translate --check {pas}
1 translate {code} -o {code}
1 translate {code} -o {folder}
1 translate {code} -o {none}/x
1 translate {code} -o /dev/full
1 translate --volume {none} X.CODE
1 translate --volume {noise} X.CODE
1 translate --where 1 1 {code}
2 console
2 console {code} {code}
2 console --steps
2 console --x {code}
2 console {code}
2 package --version
2 package x
"""


def lines_of(name):
    """The options that a script has not."""
    return [(2, f"{name} --no-such-word"), (2, f"{name} --no-such-word=1 x")]


def all_lines():
    """All lines: the status, and the words with the script first."""
    found = []
    for line in LINES.strip().split("\n"):
        first, _, rest = line.partition(" ")
        if first in ("ASKED", "SUPERVISE"):
            status, _, rest = rest.partition(" ")
            found.append((int(status), (ASKED if first == "ASKED" else SUPERVISE) + rest))
        else:
            found.append((int(first), rest))
    for name in NAMES:
        found += lines_of(name)
    return found
