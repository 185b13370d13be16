#!/usr/bin/env bash
# Tests that each file which the documents link to is there, and, where the link's text is a name in backquotes, that the
# file has an item of that name. Prints what is missing, and last a count.
set -u -o pipefail
cd "$(dirname "$0")/.." || exit 1
missing=0
links=0
for page in README.md CONTRIBUTING.md CHANGELOG.md docs/*.md examples/README.md; do
    while IFS=$'\t' read -r text target; do
        case "$target" in http*) continue ;; esac
        links=$((links + 1))
        file=$(dirname "$page")/${target%%#*}
        if [ ! -e "$file" ]; then
            echo "$page: there is no $target"
            missing=$((missing + 1))
        elif [ "${text#\`}" != "$text" ] && ! grep -Eq "(fn|struct|enum|trait|const|record|pub) $(echo "$text" | tr -d '\140')\>" "$file"; then
            echo "$page: $target has no $text"
            missing=$((missing + 1))
        fi
    done < <(grep -o '\[[^][]*\]([^() ]*)' "$page" | sed 's/^\[\(.*\)\](\(.*\))$/\1\t\2/')
done
echo "links: $((links - missing)) passed, $missing failed"
[ "$missing" -eq 0 ]
