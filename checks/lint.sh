#!/usr/bin/env bash
# Runs shellcheck over the shell scripts of the repository and flake8 over its Python, as Debian has them; a linter that isn't
# installed is skipped. The scripts are found by the ends of their names and by their first lines. Prints what the linters say, and
# last how many files are clean.
cd "$(dirname "$0")/.." || exit 1
longest=150 # columns of a line of Python
clean=0 unclean=0 skipped=0
shells=() sourced=() pythons=()

while IFS= read -r -d '' file; do
    first=
    IFS= read -r first <"$file" 2>/dev/null
    case "$file:$first" in
        *.py:* | *:'#!'*python*) pythons+=("$file") ;;
        *:'#!'*[/\ ]bash* | *:'#!'*[/\ ]sh*) shells+=("$file") ;;
        *.sh:* | */bash-completion/*) sourced+=("$file") ;;
    esac
done < <(find . \( -name .git -o -path './crates/*/out' \) -prune -o -type f -print0 | sort -z)

lint() { # a linter with its options, and files behind `--`
    local words=() said bad=0
    while [ "$1" != -- ]; do
        words+=("$1")
        shift
    done
    shift
    [ "$#" -gt 0 ] || return
    if ! command -v "${words[0]}" >/dev/null; then
        echo "skipped: ${words[0]} isn't installed, which $# files want"
        skipped=$((skipped + $#))
        return
    fi
    if ! said=$("${words[@]}" "$@" 2>&1); then
        printf '%s\n' "$said"
        # a line begins with its file; where none does, nothing was looked at
        bad=$(cut -d: -f1 <<<"$said" | sort -u | grep -cxFf <(printf '%s\n' "$@"))
        [ "$bad" -gt 0 ] || bad=$#
    fi
    clean=$((clean + $# - bad)) unclean=$((unclean + bad))
}

lint shellcheck --format=gcc -- "${shells[@]}"
lint shellcheck --format=gcc --shell=bash -- "${sourced[@]}"
lint flake8 --isolated --disable-noqa --max-line-length="$longest" -- "${pythons[@]}"

echo "lint: $clean passed, $unclean failed, $skipped skipped"
[ "$unclean" -eq 0 ]
