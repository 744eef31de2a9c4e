#!/usr/bin/env bash
# Runs `settle` and `account` on each folder of examples/ and of tests/told/, and on files that are missing or too long,
# and `halls` on halls that are cut, and compares what they print with what they have to: byte for byte, with the line
# ends.
set -euo pipefail
shopt -s nullglob
unset CDPATH
top=$(cd -- "$(dirname -- "${BASH_SOURCE[0]}")/.." && pwd)
dir=$(mktemp -d)
trap 'rm -rf "$dir"' EXIT
count=0 differ=0

# What the program prints on the folder's two files, against the text in a file.
compare() {
    local program=$1 folder=$2 text=$3
    count=$((count + 1))
    "$top/run" "$program" "$folder" >"$dir/printed" || echo "status $?" >>"$dir/printed"
    if ! cmp -s -- "$dir/printed" "$text"; then
        echo "$program on $(basename -- "$folder"):" >&2
        diff -- "$text" "$dir/printed" >&2 || true
        differ=$((differ + 1))
    fi
}

# A folder with the small floor's two files, to be changed.
small_floor() {
    rm -rf "$dir/$1"
    cp -r -- "$top/examples/small-floor" "$dir/$1"
}

# The line that a program has to print on a folder.
prints() {
    printf '%s\n' "$3" >"$dir/expected"
    compare "$1" "$dir/$2" "$dir/expected"
}

# What `halls` has to print on both outputs, and its status, where one of its two files is cut to so many bytes.
halls_cut() {
    local file=$1 bytes=$2 text=$3
    rm -rf "$dir/halls" && mkdir "$dir/halls"
    cp -- "$top"/crates/halls/data/* "$dir/halls"
    head -c "$bytes" "$top/crates/halls/data/$file" >"$dir/halls/$file"
    count=$((count + 1))
    (cd -- "$dir/halls" && "$top/crates/halls/out/halls" 2>&1 || echo "status $?") | tail -n 3 >"$dir/printed"
    if ! printf '%s\n' "$text" 'Error: the hall is not read' 'status 1' | cmp -s -- - "$dir/printed"; then
        echo "halls with $file cut to $bytes bytes:" >&2
        cat -- "$dir/printed" >&2
        differ=$((differ + 1))
    fi
}

# The file filled up with a letter to so many bytes.
fill() {
    local file=$1 letter=$2 length=$3
    head -c $((length - $(wc -c <"$file"))) /dev/zero | tr '\0' "$letter" >>"$file"
}

"$top/run" settle >/dev/null # a build that fails shows once, and here
"$top/run" account >/dev/null
for expect in "$top"/examples/*/expect; do
    compare settle "$(dirname -- "$expect")" "$expect"
done
for told in "$top"/examples/*/told "$top"/tests/told/*/told; do
    compare account "$(dirname -- "$told")" "$told"
done

# files that are not there, are no files, or have the longest length or a byte more
small_floor no-map && rm "$dir/no-map/floor.map"
prints settle no-map 'unread'
prints account no-map 'unread'
small_floor no-plan && rm "$dir/no-plan/plan.work"
prints settle no-plan 'unread'
small_floor folder-for-a-map && rm "$dir/folder-for-a-map/floor.map" && mkdir "$dir/folder-for-a-map/floor.map"
prints settle folder-for-a-map 'unread'
small_floor longest-map && fill "$dir/longest-map/floor.map" X 65536
prints settle longest-map 'refused map 21 23'
prints account longest-map 'refused map 21 23 (letter)'
small_floor map-too-long && fill "$dir/map-too-long/floor.map" X 65537
prints settle map-too-long 'unread'
small_floor longest-plan && fill "$dir/longest-plan/plan.work" Z 65536
prints settle longest-plan 'refused file 23 43'
small_floor plan-too-long && fill "$dir/plan-too-long/plan.work" Z 65537
prints settle plan-too-long 'unread'

# a hall that is not read: its fault on its own line, and nothing behind the error
"$top/run" halls >/dev/null
halls_cut hall.list 20 'hall.list: refused map 22 20'
halls_cut hall.grid 50 'hall.grid: refused map 3 50'

echo "$count outputs, $differ differ"
[ "$count" -gt 0 ] && [ "$differ" -eq 0 ]
