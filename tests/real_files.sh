#!/bin/sh
# What the built program answers where real files fail. Skips what this machine can't show.
# Its last line counts: N passed, M failed, K skipped.
top=$(CDPATH='' cd -- "$(dirname -- "$0")/.." && pwd) || exit 1
tda=$top/tda
data=$top/examples/small
folder=$(mktemp -d) || exit 1
trap 'chmod -R u+w "$folder" && rm -rf "$folder"' EXIT
passed=0 failed=0 skipped=0

# try NAME STATUS REPORT WORD..: the program's status, and its report (`-`: none)
try() {
  name=$1 status=$2 report=$3
  shift 3
  answer=$("$@" 2>"$folder/errors" </dev/null)
  found=$?
  [ "$report" = - ] && report=
  if [ "$found" = "$status" ] && [ "$answer" = "$report" ]; then
    passed=$((passed + 1))
  else
    failed=$((failed + 1))
    echo "failed: $name: status $found, report '$answer', where $status and '$report' are due"
  fi
}

skip() {
  skipped=$((skipped + 1))
  echo "skipped: $1"
}

# fit SCHEMA SPINE FACILITIES TOTALS TABLES: over measurements in the folder, with the prices beside them
fit() {
  "$tda" fit --schema "$1" --spine "$2" --facilities "$3" --totals "$4" --measurements "$folder/measurements.csv" \
    --tables "$5" --prices "$folder/prices.csv"
}

# The status of a fit, and its report without the deviation.
fit_without_deviation() {
  report=$(fit "$@") || return
  echo "${report% deviation=*}"
}

# The persons of a unit in a file of tables.
persons() {
  awk -F, -v unit="$1" '$1 == unit { n += $3 } END { print n + 0 }' "$2"
}

# measure RECORDS WORDS MEASUREMENTS: over the small example, with the other outputs in the folder
measure() {
  "$tda" measure --schema "$data/schema.toml" --spine "$data/spine.csv" --facilities "$data/facilities.csv" \
    --records "$1" --words "$2" --measurements "$3" --totals "$folder/totals.csv" --ledger "$folder/ledger.csv"
}

# seeded PLACE MEASUREMENTS: the same with the words of a seed
seeded() {
  "$tda" measure --schema "$data/schema.toml" --spine "$data/spine.csv" --facilities "$data/facilities.csv" \
    --records "$data/records.csv" --seed "$data/seed" --place "$1" --budget 1000000 \
    --measurements "$2" --totals "$folder/totals.csv" --ledger "$folder/ledger.csv"
}

# The status of a measuring by a seed, and its report without the number of words that were taken.
seeded_without_words() {
  report=$(seeded "$@") || return
  echo "${report% words=*}"
}

# run MEASUREMENTS TABLES: over the small example with the words of a seed, with the other outputs in the folder
run() {
  "$tda" run --schema "$data/schema.toml" --spine "$data/spine.csv" --facilities "$data/facilities.csv" \
    --records "$data/records.csv" --seed "$data/seed" --place 0 --budget 1000000 --measurements "$1" \
    --totals "$folder/run_totals.csv" --ledger "$folder/run_ledger.csv" --tables "$2" --prices "$folder/run_prices.csv"
}

# The status of a run, and its report without what depends on the words.
run_without_words() {
  report=$(run "$@") || return
  echo "${report% words=*}"
}

# audit TABLES PRICES: of the small example's release by a run
audit() {
  "$tda" audit --schema "$data/schema.toml" --spine "$data/spine.csv" --facilities "$data/facilities.csv" \
    --totals "$folder/run_totals.csv" --measurements "$folder/run_measurements.csv" --tables "$1" --prices "$2"
}

# The status of an audit, and its report without the deviation.
audit_without_deviation() {
  report=$(audit "$@")
  status=$?
  echo "${report% deviation=*}"
  return "$status"
}

# The deviation that a run tells, and the one that an audit of its files tells.
deviations_agree() {
  told=$(run "$folder/run_measurements.csv" "$folder/run_tables.csv")
  judged=$(audit "$folder/run_tables.csv" "$folder/run_prices.csv")
  [ "${told##* }" = "${judged##* }" ]
}

# The last line that the release of a town prints.
town_without_deviation() {
  report=$("$top/examples/town/release" "$folder/town") || return
  echo "$report" | sed -n '$s/ deviation=.*//p'
}

fit_to_full_device() {
  fit "$data/schema.toml" "$data/spine.csv" "$data/facilities.csv" "$data/totals.csv" "$folder/other.csv" >/dev/full
}

printf '%3000s' x >"$folder/tables.csv"
: >"$folder/empty"
printf 'odd' >"$folder/odd"
printf 'state,total\nNorth,1\nSouth,5\n' >"$folder/short.csv"
# The schema measures 6 places of the nation, 4 of each state and 5 of each block; its shares together are 1.
try "a measuring by a seed" 0 "ok measure places=44 spent=1/1" seeded_without_words 0 "$folder/measurements.csv"
try "its rows" 0 45 awk 'END { print NR }' "$folder/measurements.csv"
try "its totals" 0 "state,total
North,7
South,5" cat "$folder/totals.csv"
try "a release, over a longer file" 0 "ok fit fits=11" fit_without_deviation "$data/schema.toml" "$data/spine.csv" "$data/facilities.csv" "$data/totals.csv" "$folder/tables.csv"
try "its persons" 0 465 persons US "$folder/tables.csv"
try "those of a state" 0 345 persons South "$folder/tables.csv"
try "no words" 2 words "$tda"
try "a missing file" 4 "read schema" fit "$folder/none" "$data/spine.csv" "$data/facilities.csv" "$data/totals.csv" "$folder/new.csv"
try "a missing second file" 4 "read spine" fit "$data/schema.toml" "$folder/none" "$data/facilities.csv" "$data/totals.csv" "$folder/new.csv"
try "a missing third file" 4 "read facilities" fit "$data/schema.toml" "$data/spine.csv" "$folder/none" "$data/totals.csv" "$folder/new.csv"
try "a folder in place of a file" 4 "read totals" fit "$data/schema.toml" "$data/spine.csv" "$data/facilities.csv" "$folder" "$folder/new.csv"
try "a file that isn't accepted" 3 "refused spine BadHeader 1" fit "$data/schema.toml" "$data/totals.csv" "$data/facilities.csv" "$data/totals.csv" "$folder/new.csv"
try "facilities that aren't" 3 "refused facilities BadHeader 1" fit "$data/schema.toml" "$data/spine.csv" "$data/totals.csv" "$data/totals.csv" "$folder/new.csv"
try "a missing file after a refused one" 3 "refused schema BadToml" fit "$data/spine.csv" "$folder/none" "$folder/none" "$folder/none" "$folder/new.csv"
try "nothing but the report was begun" 1 - test -e "$folder/new.csv"
try "an output in a folder that isn't there" 5 - fit "$data/schema.toml" "$data/spine.csv" "$data/facilities.csv" "$data/totals.csv" "$folder/none/tables.csv"
try "a folder in place of an output" 5 - fit "$data/schema.toml" "$data/spine.csv" "$data/facilities.csv" "$data/totals.csv" "$folder"

try "totals that don't suffice for the facilities" 3 "refused totals Short North 1 3" fit "$data/schema.toml" "$data/spine.csv" "$data/facilities.csv" "$folder/short.csv" "$folder/new.csv"
try "the measured totals make a release" 0 "ok fit fits=11" fit_without_deviation "$data/schema.toml" "$data/spine.csv" "$data/facilities.csv" "$folder/totals.csv" "$folder/measured_tables.csv"
try "a run by the same seed" 0 "ok run places=44 spent=1/1" run_without_words "$folder/run_measurements.csv" "$folder/run_tables.csv"
try "measures the same" 0 - cmp "$folder/measurements.csv" "$folder/run_measurements.csv"
try "with the same totals" 0 - cmp "$folder/totals.csv" "$folder/run_totals.csv"
try "and fits the same tables" 0 - cmp "$folder/measured_tables.csv" "$folder/run_tables.csv"
try "a run whose tables can't be written" 5 - run "$folder/new.csv" "$folder/none/tables.csv"
rm -f "$folder/new.csv"
try "the audit of what the run wrote" 0 "ok audit fits=11" audit_without_deviation "$folder/run_tables.csv" "$folder/run_prices.csv"
try "tells the run's deviation" 0 - deviations_agree
awk -F, -v OFS=, 'NR == 2 { $3 += 1 } { print }' "$folder/run_tables.csv" >"$folder/forged.csv"
try "one person more in the nation" 1 "no sum US 0" audit "$folder/forged.csv" "$folder/run_prices.csv"
head -n 1 "$folder/run_prices.csv" >"$folder/no_prices.csv"
try "prices of no fit" 3 "refused prices Missing" audit "$folder/run_tables.csv" "$folder/no_prices.csv"
try "missing prices" 4 "read prices" audit "$folder/run_tables.csv" "$folder/none"
try "the town's release and its audit" 0 "ok audit fits=7" town_without_deviation
for file in measurements totals ledger; do
  try "the town's $file" 0 - cmp "$folder/town/$file.csv" "$top/examples/town/expected/$file.csv"
done
if python3 -c 'import tomllib' 2>/dev/null; then
  try "the worth of a release" 0 - sh -c '"$1/examples/worth" "$2/worth.svg" >"$2/worth.txt"' - "$top" "$folder"
  try "its table" 0 10 awk 'END { print NR }' "$folder/worth.txt"
  try "its picture" 0 8 grep -c '<rect' "$folder/worth.svg"
else
  skip "the worth of a release (there is no python3 that reads TOML)"
fi
try "the same words again" 0 "ok measure places=44 spent=1/1" seeded_without_words 0 "$folder/again.csv"
try "give the same noise" 0 - cmp "$folder/measurements.csv" "$folder/again.csv"
try "other words" 0 "ok measure places=44 spent=1/1" seeded_without_words 1000000 "$folder/others.csv"
try "give other noise" 1 - cmp -s "$folder/measurements.csv" "$folder/others.csv"
try "a file without words" 6 "out of words US kind 0" measure "$data/records.csv" "$folder/empty" "$folder/new.csv"
try "words that aren't whole" 3 "refused words BadLength" measure "$data/records.csv" "$folder/odd" "$folder/new.csv"
try "a missing seed" 4 "read seed" "$tda" measure --schema "$data/schema.toml" --spine "$data/spine.csv" --facilities "$data/facilities.csv" --records "$data/records.csv" --seed "$folder/none" --place 0 --budget 9 --measurements "$folder/new.csv" --totals "$folder/totals.csv" --ledger "$folder/ledger.csv"
try "a seed that is too long" 3 "refused seed TooLong" "$tda" measure --schema "$data/schema.toml" --spine "$data/spine.csv" --facilities "$data/facilities.csv" --records "$data/records.csv" --seed "$data/schema.toml" --place 0 --budget 9 --measurements "$folder/new.csv" --totals "$folder/totals.csv" --ledger "$folder/ledger.csv"
try "missing records" 4 "read records" measure "$folder/none" "$folder/empty" "$folder/new.csv"
try "records that aren't" 3 "refused records BadHeader 1" measure "$data/spine.csv" "$folder/empty" "$folder/new.csv"
try "nothing of them was begun" 1 - test -e "$folder/new.csv"
try "measurements in a folder that isn't there" 5 - seeded 0 "$folder/none/measurements.csv"

# One byte more than 2^28, and 2^28 itself, of a sparse file.
if truncate -s 268435457 "$folder/large" 2>/dev/null && truncate -s 268435456 "$folder/most" 2>/dev/null; then
  try "a schema that is too long" 3 "refused schema TooLong" fit "$folder/large" "$data/spine.csv" "$data/facilities.csv" "$data/totals.csv" "$folder/new.csv"
  try "a schema of the most bytes" 3 "refused schema BadToml" fit "$folder/most" "$data/spine.csv" "$data/facilities.csv" "$data/totals.csv" "$folder/new.csv"
  try "a spine that is too long" 3 "refused spine TooLong" fit "$data/schema.toml" "$folder/large" "$data/facilities.csv" "$data/totals.csv" "$folder/new.csv"
  try "facilities that are too long" 3 "refused facilities TooLong" fit "$data/schema.toml" "$data/spine.csv" "$folder/large" "$data/totals.csv" "$folder/new.csv"
  try "totals that are too long" 3 "refused totals TooLong" fit "$data/schema.toml" "$data/spine.csv" "$data/facilities.csv" "$folder/large" "$folder/new.csv"
  try "records that are too long" 3 "refused records TooLong" measure "$folder/large" "$folder/empty" "$folder/new.csv"
  try "words that are too long" 3 "refused words TooLong" measure "$data/records.csv" "$folder/large" "$folder/new.csv"
else
  skip "files that are too long (a file of 2^28 bytes can't be made)"
fi

cp "$data/schema.toml" "$folder/closed" && chmod 000 "$folder/closed"
if cat "$folder/closed" >/dev/null 2>&1; then
  skip "a file without read permission (this user may read any file)"
else
  try "a file without read permission" 4 "read schema" fit "$folder/closed" "$data/spine.csv" "$data/facilities.csv" "$data/totals.csv" "$folder/new.csv"
fi

if [ -c /dev/full ] && ! (echo full >/dev/full) 2>/dev/null; then
  try "a full device" 5 - fit "$data/schema.toml" "$data/spine.csv" "$data/facilities.csv" "$data/totals.csv" /dev/full
  try "a report to a full device" 5 - fit_to_full_device
  try "its output stands" 0 "$(cat "$folder/tables.csv")" cat "$folder/other.csv"
else
  skip "a full device (there is no /dev/full)"
  skip "a report to a full device (there is no /dev/full)"
fi

echo "$passed passed, $failed failed, $skipped skipped"
[ "$failed" = 0 ]
