# The two files of a tool, its last words, and how awk reads them one behind the other.

# A name that awk takes for a file, whatever signs are in it.
file_name() {
    case $1 in
    - | /*) printf '%s\n' "$1" ;;
    *) printf './%s\n' "$1" ;;
    esac
}

for file in "$@"; do
    if [ "$file" != - ] && ! { [ -f "$file" ] || [ -p "$file" ] || [ -c "$file" ]; }; then
        echo "$0: there is no file $file" >&2
        exit 1
    fi
done
script=$(file_name "$1")
output=$(file_name "${2:--}")

run_awk() {
    LC_ALL=C "${AWK:-awk}" -v program="$0" -f "$parts/script.awk" -f "$parts/answers.awk" "$@" part=script "$script" part=output "$output"
}
