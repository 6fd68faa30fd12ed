#!/usr/bin/env bash
# Installs Debian's package of petgraph's source, if it is missing.
set -euo pipefail

package=librust-petgraph-dev
if ! dpkg -s "$package" >/dev/null 2>&1; then
    export DEBIAN_FRONTEND=noninteractive
    apt-get update -qq
    apt-get install -y -qq --no-install-recommends "$package" >/dev/null
fi
