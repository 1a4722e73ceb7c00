#!/bin/sh
# Plays rounds of `trace` and `compile` with 2, 8 and 32 workers, judges each history and compares each file with that of one worker, and
# times `trace`: with 1, 2 and 4 workers on larger plants, with 1 to 32 while other programs take all processors, and with 1, 8 and 32 on plants
# of few sets. Then it compares `fleet` on several plants with `compile` on one after the other, and times both. The words, each of which may
# be left out from the last one on: the number of rounds (200; with 0 it only times), the program (that which `mpc` runs) and plants (which are
# then timed with 1, 2, 4, 8 and 32 workers in place of those here).
set -e
here=$(cd "$(dirname "$0")" && pwd)
top="$here/../.."
plants="$here/../compile/plants"
rounds=${1:-200}
program=${2:-$("$top/release/program")}
export PYTHONDONTWRITEBYTECODE=1
if [ "$rounds" -gt 0 ]; then
    python3 "$here/rounds.py" "$program" "$rounds" "$plants"/*.txt "$here"/plants/triple_integrator_6.json
fi
if [ $# -gt 2 ]; then
    shift 2
    exec python3 "$here/times.py" "$program" 10 1,2,4,8,32 "$@"
fi
python3 "$here/times.py" "$program" 7 1,2,4 "$here"/plants/*.json "$here"/../compile/plants_large/double_integrator_6.json
python3 "$here/busy.py" "$program" 9 1,2,4,8,32 "$here"/plants/double_integrator_*.json "$here"/../compile/plants_large/double_integrator_6.json
python3 "$here/times.py" "$program" 40 1,8,32 "$top"/examples/scalar/plant.json "$plants"/two_rooms.txt "$plants"/motor.txt "$plants"/pendulum.txt "$plants"/drill*.txt
python3 "$here/fleet.py" "$program" 25 2,4 "$plants"/motor.txt "$plants"/pendulum.txt "$plants"/two_rooms.txt "$plants"/two_tanks.txt
python3 "$here/fleet.py" "$program" 5 2,4 "$here"/plants/*.json
