# Lines of JSON from six texts for each file, each text with a zero byte at its end: the path, the status and the report of `validate`, the
# report of `digest`, that of `questions`, both empty where there is none, and the word `end`.
def digest:
    if . == "" then null
    else split(" ") | {start: (.[0] | tonumber), length: (.[1] | tonumber), sha256: .[2]}
    end;

# A label may have spaces, so a line is read by its first and its last word.
def questions: [split("\n")[] | capture("^(?<id>[^ ]+) (?<label>.*) (?<verdict>[^ ]+)$")];

split("\u0000")
| range(0; length - length % 6; 6) as $at
| .[$at:$at + 6]
| {path: .[0], status: (.[1] | tonumber), report: .[2], digest: (.[3] | digest), questions: (.[4] | questions)}
