#!/usr/bin/env bash
# Prints the version of this repository. bindings/python/pyproject.toml has it. The Rust crate has another number
# (docs/DECISIONS.md).
set -euo pipefail
sed -n 's/^version = "\(.*\)"$/\1/p' "$(dirname "$0")/../bindings/python/pyproject.toml"
