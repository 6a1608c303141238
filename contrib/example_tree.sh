#!/bin/sh
# Makes the small tree that the examples of the documents use. usage: example_tree.sh /tmp/site
set -eu
site=$1
mkdir "$site" "$site/data" "$site/logs" "$site/notes"
head -c 120000 /dev/zero >"$site/data/2019.csv"
head -c 2500000 /dev/zero >"$site/data/2024.csv"
head -c 3000 /dev/zero >"$site/logs/access.log"
head -c 700 /dev/zero >"$site/logs/access.log.1"
head -c 120 /dev/zero >"$site/logs/error.log"
echo 'milk, bread, figs and a pear' >"$site/notes/two words.txt"
echo 'a file server' >"$site/notes/back\\slash.txt"
ln -s data/2024.csv "$site/current"
touch -d '2019-12-31 12:00' "$site/data/2019.csv"
touch -d '2020-03-01 12:00' "$site/logs/access.log.1"
