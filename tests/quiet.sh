#!/usr/bin/env bash
# A filter for rt's output: leaves out what it says of each item that is proved, of the libraries behind it, and of how it goes about its work.
items='(fn|struct|enum|impl|trait|const) .*: proved$'
behind='(library|statements|axioms|linked) |logic(=proved| /)|empty contracts: 0 found'
work='checked .*, [0-9]+ of [0-9]+$|only=|rt: (chose|running) |rt: nothing has changed |rt: [a-z0-9_]+: begins with '
grep --line-buffered -vE "^($items|$behind|$work)" || true
