# What the benches of the whole checker share; they source it. `program` is the word that a bench is given, or else
# ./stack; it reads the file `text` and writes the file `result`.
top=$(cd "$(dirname "${BASH_SOURCE[0]}")/.." && pwd)
program=${1:-$top/stack}
"$program" < /dev/null > /dev/null
text=$(mktemp)
result=$(mktemp)
trap 'rm -f "$text" "$result"' EXIT
