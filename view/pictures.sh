#!/usr/bin/env bash
# Draws the sample hall: docs/hall.svg and docs/hall.txt, and before and after changes docs/changed.svg.
set -euo pipefail
cd "$(dirname "${BASH_SOURCE[0]}")/.."
bash view/run.sh sample/parcels.txt --plain --svg docs/hall.svg >docs/hall.txt
bash view/run.sh sample/parcels.txt --change 6,7=1 --change 8,12=blocked --svg docs/changed.svg --quiet
