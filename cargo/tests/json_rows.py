"""Lines of JSON: what `batches encode` makes of them, or why it refuses them."""


def joined(rows: str) -> str:
    """Joins a row of several lines: four blanks begin a line that continues the one before it."""
    return rows.replace("\n    ", "")


# A line, and the member and the cause that the refusal names. The arrow is at the column that it
# names, and isn't in the line.
REFUSED = joined(r'''{↓ => not JSON
{"previous":↓01} => not JSON
 {"previous": 0 ↓"version": 1} => not JSON
{"previous" ↓0} => not JSON
{"previous"↓,"version":1} => not JSON
{"previous":↓,"version":1} => not JSON
{"previous":↓} => not JSON
{"previous":0↓:1} => not JSON
{"previous":0,↓} => not JSON
{"previous":0,↓,"version":1} => not JSON
{↓previous:0} => not JSON
{↓'previous':0} => not JSON
{"previous":↓nul} => not JSON
{"previous":↓"\q"} => not JSON
{"previous":↓"0} => not JSON
{"previous":"\"",↓] => not JSON
{"previous":"\\",↓} => not JSON
["previous"↓:0] => not JSON
[1, 2 ↓} => not JSON
[[1↓ => not JSON
7 ↓8 => not JSON
{"previous":-1,"version":0,"transactions":[]}↓, => not JSON
{"previous":-1,"version":0,"transactions":[]} ↓{} => not JSON
↓[] => not an object
↓7 => not an object
↓{} => previous: missing
↓{"previous":0} => version: missing
↓{"previous":0,"version":1} => transactions: missing
{"previous":0,"version":1,"transactions":[],↓"colour":1} => unknown member "colour"
{"previous":0,"version":1,"transactions":[],↓"\u00e9\n":1} => unknown member "\xc3\xa9\x0a"
{"previous":0,↓"snapshot":0,"colour":1} => unknown member "snapshot"
{"previous":0,"transactions":[{"snapshot":[{"}":"]"}],"reads":[]}],↓"previous ":0}
     => unknown member "previous "
{"previous":0,"version":1,"transactions":[],↓"version":1} => doubled member "version"
{"previous":0,"version":1,"transactions":[],↓"\u0076ersion":{"version":[1]}}
     => doubled member "version"
{"previous":0,"version":1,"version":{"previous":1},↓"pre\u0076ious":0} => doubled member "previous"
{"previous":0,"version":1,"transactions":[{"snapshot":0,↓"snapshot":0}]}
     => transactions[0]: doubled member "snapshot"
{"previous":0,"version":1,"transactions":[{"snapshot":0,↓"reeds":[]}]}
     => transactions[0]: unknown member "reeds"
{"previous":↓1e2,"version":101,"transactions":[]} => previous: not a whole number of 64 bits
{"previous":↓1.0,"version":2,"transactions":[]} => previous: not a whole number of 64 bits
{"previous":↓9223372036854775808,"version":2,"transactions":[]}
     => previous: not a whole number of 64 bits
{"previous":↓"0","version":2,"transactions":[]} => previous: not a number
{"previous":↓-2,"version":2,"transactions":[]} => previous: below -1
{"previous":2,"version":↓2,"transactions":[]} => version: not above the previous version
{"previous":0,"version":2,"received":↓-2,"transactions":[]} => received: below -1
{"previous":0,"version":2,"received":↓2,"transactions":[]} => received: not below the version
{"previous":0,"version":2,"received":↓null,"transactions":[]} => received: not a number
{"previous":0,"version":1,"transactions":↓{}} => transactions: not an array
{"previous":0,"version":1,"transactions":[↓[]]} => transactions[0]: not an object
{"previous":0,"version":1,"transactions":[↓{}]} => transactions[0].snapshot: missing
{"previous":0,"version":1,"transactions":[↓{"snapshot":0}]} => transactions[0].reads: missing
{"previous":0,"version":1,"transactions":[↓{"snapshot":0,"reads":[]}]}
     => transactions[0].writes: missing
{"previous":0,"version":1,"transactions":[{"snapshot":↓-1,"reads":[],"writes":[]}]}
     => transactions[0].snapshot: below 0
{"previous":0,"version":1,"transactions":[{"snapshot":0,"report":↓1,"reads":[],"writes":[]}]}
     => transactions[0].report: neither true nor false
{"previous":0,"version":1,"transactions":[{"snapshot":0,"reads":↓"a","writes":[]}]}
     => transactions[0].reads: not an array
{"previous":0,"version":1,"transactions":[{"snapshot":0,"reads":[↓7],"writes":[]}]}
     => transactions[0].reads[0]: neither a key nor a pair of keys
{"previous":0,"version":1,"transactions":[{"snapshot":0,"reads":["a",↓["b"]],"writes":[]}]}
     => transactions[0].reads[1]: neither a key nor a pair of keys
{"previous":0,"version":1,"transactions":[{"snapshot":0,"reads":[↓["a","b","c"]],"writes":[]}]}
     => transactions[0].reads[0]: neither a key nor a pair of keys
{"previous":0,"version":1,"transactions":[{"snapshot":0,"reads":["a",↓["b","a"]],"writes":[]}]}
     => transactions[0].reads[1]: begin is above end
{"previous":0,"version":1,"transactions":[{"snapshot":0,"reads":[["a",↓7]],"writes":[]}]}
     => transactions[0].reads[0][1]: not a string
{"previous":0,"version":1,"transactions":[{"snapshot":0,"reads":[],"writes":[[↓"é","b"]]}]}
     => transactions[0].writes[0][0]: character that isn't printable ASCII: write its bytes as \\xNN
{"previous":0,"version":1,"transactions":[{"snapshot":0,"reads":[],"writes":[↓"a\u0001"]}]}
     => transactions[0].writes[0]: character that isn't printable ASCII: write its bytes as \\xNN
{"previous":0,"version":1,"transactions":[{"snapshot":0,"reads":[],"writes":[↓"\u007f"]}]}
     => transactions[0].writes[0]: character that isn't printable ASCII: write its bytes as \\xNN
{"previous":0,"version":1,"transactions":[{"snapshot":0,"reads":[],"writes":[↓"\\"]}]}
     => transactions[0].writes[0]: backslash that begins neither \\\\ nor \\xNN
{"previous":0,"version":1,"transactions":[{"snapshot":0,"reads":[],"writes":[↓"\\n"]}]}
     => transactions[0].writes[0]: backslash that begins neither \\\\ nor \\xNN
{"previous":0,"version":1,"transactions":[{"snapshot":0,"reads":[],"writes":[↓"\\x4"]}]}
     => transactions[0].writes[0]: backslash that begins neither \\\\ nor \\xNN
{"previous":0,"version":1,"transactions":[{"snapshot":0,"reads":[],"writes":[↓"\\x4g"]}]}
     => transactions[0].writes[0]: backslash that begins neither \\\\ nor \\xNN''')


def of_reads(reads: str) -> str:
    return (
        f'{{"previous":0,"version":1,"transactions":[{{"snapshot":0,"reads":{reads},'
        '"writes":[]}]}'
    )


# The same of lines that are too long to be written here.
TXNS = ",".join(['{"snapshot":0,"reads":[],"writes":[]}'] * 4_097)
REFUSED_LONG = (
    f'{{"previous":0,"version":1,"transactions":↓[{TXNS}]}} => transactions: more than 4,096 items',
    of_reads("↓[" + ",".join(['"a"'] * 1_025) + "]")
    + " => transactions[0].reads: more than 1,024 items",
    of_reads(f'["b",↓"{"a" * 10_001}"]')
    + " => transactions[0].reads[1]: single key is longer than 10,000 bytes",
    of_reads(f'["b",["",↓"{"a" * 10_002}"]]')
    + " => transactions[0].reads[1][1]: key is longer than 10,001 bytes",
    "[" * 128 + "↓[ => not JSON",
    "[" * 128 + "]" * 128 + "↓] => not JSON",
    f'{{↓"{"n" * 70}":1,"{"n" * 71}":1}} => unknown member "{"n" * 64}"',
)

# The same of lines of replies.
REFUSED_REPLIES = joined(r'''{"version":↓-1,"verdicts":[]} => version: below 0
{"version":0,"verdicts":[],↓"previous":0} => unknown member "previous"
↓{"verdicts":[]} => version: missing
↓{"version":0} => verdicts: missing
{"version":0,"verdicts":↓{}} => verdicts: not an array
{"version":0,"verdicts":[↓"Committed"]}
     => verdicts[0]: not "committed", "conflict", "tooold" or an object
{"version":0,"verdicts":["tooold",↓2]}
     => verdicts[1]: not "committed", "conflict", "tooold" or an object
{"version":0,"verdicts":[↓{}]} => verdicts[0].conflict: missing
{"version":0,"verdicts":[{↓"tooold":[]}]} => verdicts[0]: unknown member "tooold"
{"version":0,"verdicts":[{"conflict":[],↓"conflict":[]}]} => verdicts[0]: doubled member "conflict"
{"version":0,"verdicts":[{"conflict":↓0}]} => verdicts[0].conflict: not an array
{"version":0,"verdicts":[{"conflict":[0,↓0]}]}
     => verdicts[0].conflict[1]: not a place above the one before it and below 1,024
{"version":0,"verdicts":[{"conflict":[↓-1]}]}
     => verdicts[0].conflict[0]: not a place above the one before it and below 1,024
{"version":0,"verdicts":[{"conflict":[5,↓1024]}]}
     => verdicts[0].conflict[1]: not a place above the one before it and below 1,024
{"version":0,"verdicts":[{"conflict":[↓1e2]}]}
     => verdicts[0].conflict[0]: not a whole number of 64 bits''')

# A line, and the batch that it spells.
READ = joined(r'''{"previous":-1,"version":0,"transactions":[]} => -1>0
{"previous":0,"version":100,"received":-1,"transactions":[{"snapshot":0,"report":true,
    "reads":[["a","b"],"k"],"writes":[["c","d"]]}]}
     => 0>100: m R[a,b) R[k] W[c,d)
 { "transactions" : [ { "writes" : [ ] , "reads" : [ ] , "snapshot" : 7 } ] ,
     "version" : 9223372036854775807 , "previous" : 5 , "received" : 6 }
      => 5>9223372036854775807 received 6: @7
{"previous":0,"version":1,"transactions":[{"snapshot":0,"report":false,
    "reads":[["",""],["a","a\\x00"]],"writes":["","\\\\","\\x5C","\"","\\xfF\\x41 ~"]}]}
     => 0>1: R[,) R[a] W[] W[\x5c] W[\x5c] W["] W[\xff\x41\x20~]
{"previous":0,"version":1,"transactions":[{"snapshot":-0,"reads":["\u0061"],"writes":[]}]}
     => 0>1: R[a]''')

# A line of a reply, and the reply that it spells.
READ_REPLIES = joined(r'''{"version":0,"verdicts":[]} => 0 empty
{"version":100,"verdicts":["committed","conflict",{"conflict":[0,2]},"tooold"]}
     => 100 committed conflict conflict:0,2 tooold
{"verdicts":[{"conflict":[]},{"conflict":[1023]}],"version":9223372036854775807}
     => 9223372036854775807 conflict conflict:1023''')

# A line, the batch that it spells, and the line that `batches decode` makes of its frame.
WRITTEN = joined(r'''{"version":0,"previous":-1,"transactions":[]} => -1>0
     => {"previous":-1,"version":0,"received":-1,"transactions":[]}
{"previous":0,"version":100,"received":-1,"transactions":[{"snapshot":0,"report":true,
    "reads":[["a","b"],["k","k\\x00"]],"writes":[["c","d"]]}]}
     => 0>100: m R[a,b) R[k] W[c,d)
     => {"previous":0,"version":100,"received":-1,"transactions":[{"snapshot":0,"report":true,
    "reads":[["a","b"],"k"],"writes":[["c","d"]]}]}
{"previous":0,"version":1,"transactions":[{"snapshot":0,"reads":["\\x5c\\x41\\x7F\\xFF\\x20\\x00"],
    "writes":[["","\\x22"]]}]}
     => 0>1: R[\x5cA\x7f\xff\x20\x00] W[,")
     => {"previous":0,"version":1,"received":-1,"transactions":[{"snapshot":0,"report":false,
    "reads":["\\\\A\\x7f\\xff \\x00"],"writes":[["","\""]]}]}
{"previous":0,"version":100,"received":-1,"transactions":[{"snapshot":0,"report":true,
    "reads":[["a","b"],"k"],"writes":[["c","d"],"\\x00\\\\"]}]}
     => 0>100: m R[a,b) R[k] W[c,d) W[\x00\x5c]
     => {"previous":0,"version":100,"received":-1,"transactions":[{"snapshot":0,"report":true,
    "reads":[["a","b"],"k"],"writes":[["c","d"],"\\x00\\\\"]}]}''')

# The same of replies.
WRITTEN_REPLIES = joined(r'''{"verdicts":[ ],"version":0} => 0 empty => {"version":0,"verdicts":[]}
{"version":100,"verdicts":["committed","conflict",{"conflict":[0,2]},{"conflict":[]},"tooold"]}
     => 100 committed conflict conflict:0,2 conflict tooold
     => {"version":100,"verdicts":["committed","conflict",{"conflict":[0,2]},"conflict","tooold"]}
{"version":100,"verdicts":["committed","conflict",{"conflict":[0,2]},"tooold"]}
     => 100 committed conflict conflict:0,2 tooold
     => {"version":100,"verdicts":["committed","conflict",{"conflict":[0,2]},"tooold"]}''')

# Lines of which the first spells `-1>0`, and what is said of the third. The second is blank, and
# the last needs no line feed.
REFUSED_THIRD = (
    (
        '{"previous":-1,"version":0,"transactions":[]}\r\n \t\r\n'
        '{"previous":0,"version":1,"transactions":[{"snapshot":0,"reads":["a",↓["b","a"]],'
        '"writes":[]}]}'
    ),
    "transactions[0].reads[1]: begin is above end",
)

# Lines, none of which before the arrow spells anything. A surrogate is a byte that isn't text.
REFUSED_AMONG = (
    ('\n{"previous":0↓\n', "not JSON"),
    ('\n\r\n{"previous":0↓\r\n{}\n', "not JSON"),
    (' \n \t \n{"previous":0  ↓\n{}\n', "not JSON"),
    ('\n{"previous":0}↓,\n', "not JSON"),
    ('\n \t ↓{"version":0}\r\n', "previous: missing"),
    ('{"é":"é↓\udcff",,}\n', "not JSON"),
)

# A batch, and its line.
KEYS = r'''0>1: W[] => 
0>1: W[tuple\x20"k"\x20~] => tuple \"k\" ~
0>1: W[\x5c] => \\\\
0>1: W[\x5cx41] => \\\\x41
0>1: W[\x00\x1f\x7f\x80\xff] => \\x00\\x1f\\x7f\\x80\\xff
0>1: W[\xc3\xa9\x0a] => \\xc3\\xa9\\x0a'''

# Batches, and the table that `batches show` prints of them.
TABLE = (
    ("-1>0", '0>100: m R[a,b) R[k] W[c,d) W[\\x00\\x5c]'),
    """\
batch -1 > 0, received -1, transactions 0
batch 0 > 100, received -1, transactions 1
     0  snapshot 0, report
        read   "a" .. "b"
        read   "k"
        write  "c" .. "d"
        write  "\\x00\\\\"
""",
)
WIDE = "0>1: R[0123456789012345678901234567890123456789]"
WIDE_HEAD = "batch 0 > 1, received -1, transactions 1\n     0  snapshot 0\n        read   "
WIDE_CUT = WIDE_HEAD + '"01234567890123456789012345678..."\n'
WIDE_FULL = WIDE_HEAD + '"0123456789012345678901234567890123456789"\n'
REPLY = "100 committed conflict conflict:0,2 tooold"
REPLY_TABLE = (
    "reply 100, verdicts 4\n     0  committed\n     1  conflict\n     2  conflict 0 2\n"
    "     3  too old\n"
)
