#!/bin/bash
# A benchmark: a transcript of 100 MB of comments, replayed in 20 MB of address space. It prints the time of the run.
cd "$(dirname "$0")/.." || exit 1
comments() { yes '# a comment, which a replay reads and skips, and for which it writes nothing' | head -c 104857600; }
./channelsd replay </dev/null || exit 1
ulimit -v 20000
time comments | ./channelsd replay
