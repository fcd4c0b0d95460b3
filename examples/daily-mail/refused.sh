#!/bin/sh
# Prints what a gateway refused in its runs that ended within the last day, and nothing where it refused nothing. cron mails
# what it prints, and a line for a log that can't be read: docs/ALERTING.md.
folder=${1:-/var/log/nscagate}
find "$folder" -name 'log-????????-??????*' ! -name '*.gz' -mtime -1 | sort | while read -r file; do
    summary=$(nscagatectl log "$file") || continue
    # A line that begins with a number is of results or commands that were refused.
    case $summary in *'
'[0-9]*) printf '%s:\n%s\n' "$file" "$summary" ;; esac
done
