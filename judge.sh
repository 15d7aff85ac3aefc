#!/usr/bin/env bash
# Judges a model's file: ./judge.sh models/p.model. Proves and builds the program first where it is missing or older than its sources.
exec bash "$(dirname "$(readlink -f "${BASH_SOURCE[0]}")")/tools/run-program.sh" judge "$@"
