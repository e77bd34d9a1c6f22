#!/usr/bin/env bash
# Cut off the words that the inspector's format leaves free; a fault with no words at all is marked, and so differs.
sed -E -e 's/^((fault cause|line [0-9]+)[^:]*:) .+/\1/; t' -e 's/^((fault cause|line [0-9]+)[^:]*:).*/\1 (no words)/'
